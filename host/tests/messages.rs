//! The library against the second program, message by message, on random sessions, valid and damaged.

mod common;

use common::{fields, message};
use second::execution::FillList;
use second::gen::random::Random;
use second::gen::PROFILES;
use second::print::{average_lines, fill_words, leg_words};
use second::strategy::Leg;
use second::tape::{Header, Record, Tape};
use second::{engine, execution};
use tumghavi::{Cause, Contra, Engine, Fill, Message, Opening, Outcome, Refusal};

/// What is sent to an engine, as bytes.
struct Session {
    what: String,
    header: Vec<u8>,
    legs: Vec<Vec<u8>>,
    records: Vec<[u8; Record::BYTES]>,
}

/// Both engines open, or both refused.
enum Opened {
    Both(Box<engine::Engine>, Box<Engine>),
    Neither,
}

impl Session {
    /// The session of a tape that is no damaged one; its kinds may be wrong.
    fn of(what: String, tape: &[u8]) -> Option<Session> {
        let tape = Tape::lay_out(tape).ok()?;
        Some(Session {
            what,
            header: tape.header_bytes().to_vec(),
            legs: tape.leg_bytes().chunks_exact(Leg::BYTES).map(Vec::from).collect(),
            records: tape.record_bytes().as_chunks().0.to_vec(),
        })
    }

    /// Two bytes anew of one record in four, and of one opening in four.
    fn damage(&mut self, random: &mut Random) {
        for record in &mut self.records {
            if random.once_in(4) {
                (0..2).for_each(|_| anew(record, random));
            }
        }
        if random.once_in(4) {
            anew(&mut self.header[8..], random);
            self.legs.iter_mut().take(1).for_each(|leg| anew(leg, random));
        }
        self.what += ", damaged";
    }

    fn open(&self) -> Opened {
        let legs: Vec<Leg> = self.legs.iter().map(|leg| Leg::read(leg)).collect();
        let settings = Header::read(&self.header).settings;
        let opening = Opening { legs: &common::legs(&legs), settings: common::settings(&settings) };
        match (engine::Engine::open(&legs, &settings), Engine::open(&opening)) {
            (Ok(plain), Ok(proved)) => Opened::Both(Box::new(plain), Box::new(proved)),
            (plain, proved) => {
                assert_eq!(plain.err().map(u32::from), proved.err().map(Refusal::number), "{}", self.what);
                Opened::Neither
            }
        }
    }
}

/// One of some bytes, any of them, becomes any byte.
fn anew(bytes: &mut [u8], random: &mut Random) {
    let at = random.below(bytes.len() as u64) as usize;
    bytes[at] = random.below(256) as u8;
}

/// All sessions of the profiles, and each once more damaged.
fn sessions() -> impl Iterator<Item = Session> {
    let named = |seed| move |profile: &second::gen::Profile| (format!("{} {seed}", profile.name), profile.tape(seed));
    let tapes = (1..=20).flat_map(move |seed| PROFILES.iter().map(named(seed)));
    let mut random = Random::new(1);
    tapes.flat_map(move |(what, tape)| {
        let whole = Session::of(what.clone(), &tape);
        let mut damaged = Session::of(what, &tape);
        damaged.iter_mut().for_each(|session| session.damage(&mut random));
        whole.into_iter().chain(damaged)
    })
}

/// The second program's cause of an end, in the library's words.
fn cause_of(cause: engine::Cause) -> Cause {
    match cause {
        engine::Cause::Time => Cause::Time,
        engine::Cause::Order => Cause::Order,
        engine::Cause::Legs => Cause::Legs,
        engine::Cause::Cancel => Cause::Cancel,
    }
}

/// The second program's answer to a record, in the library's words, and the lines of its fills, their leg prices and their averages.
fn expected(plain: &mut engine::Engine, record: &Record, fills: &mut [execution::Fill]) -> (Outcome, String) {
    let Some(message) = record.message() else { return (Outcome::Refused(Refusal::new(61)), String::new()) };
    let outcome = plain.apply(&message, fills);
    let fills = &fills[..outcome.fill_count()];
    let records = fills.iter().map(|fill| format!("{}\nlegs {}\n", fill_words(fill), leg_words(fill)));
    let lines = records.collect::<String>() + &average_lines(fills);
    let outcome = match outcome {
        engine::Outcome::Noted { fills } => Outcome::Noted { fills },
        engine::Outcome::Placed { units, fills } => Outcome::Placed { units: units.into(), fills },
        engine::Outcome::Begun { deadline } => Outcome::Begun { deadline },
        engine::Outcome::Joined { queue_units } => Outcome::Joined { units: queue_units.into() },
        engine::Outcome::Ended { cause, fills } => Outcome::Ended { cause: cause_of(cause), fills },
        engine::Outcome::Refused { number } => Outcome::Refused(Refusal::new(number.into())),
    };
    (outcome, lines)
}

/// A record's leg prices, or none.
fn words(fill: &Fill) -> String {
    let joined = |prices: &[u64]| prices.iter().map(u64::to_string).collect::<Vec<String>>().join(" ");
    fill.leg_prices().map_or("none".to_string(), joined)
}

/// The same lines, of the library's records, leg prices and averages.
fn lines(outcome: &Outcome, list: &[Fill]) -> String {
    let fills = &list[..outcome.fills()];
    let mut orders: Vec<u32> = Vec::new();
    for order in fills.iter().map(Fill::order) {
        if !orders.contains(&order) {
            orders.push(order);
        }
    }
    let averages = orders.iter().map(|&order| format!("average {order} {}\n", outcome.average(list, order)));
    fills.iter().map(|fill| format!("{fill}\nlegs {}\n", words(fill))).chain(averages).collect()
}

/// A list in which every place shows whether it was written.
fn marked(places: usize) -> Vec<Fill> {
    vec![Fill::from([7; Fill::NUMBERS]); places]
}

/// What the library promises of a call: as many records as it counts, nothing behind them touched, and nothing at all under a refusal.
fn keeps(before: (&Engine, &[Fill]), after: (&Engine, &[Fill]), outcome: Outcome) -> bool {
    let untouched = before.1[outcome.fills()..] == after.1[outcome.fills()..];
    untouched && (!matches!(outcome, Outcome::Refused(_)) || before == after)
}

/// Outcomes, records, averages, leg prices and open counts are the second program's, from a message, from a record's fields and from its bytes.
#[test]
fn message_by_message() {
    let mut fills = vec![execution::Fill::BLANK; FillList::LEAST_PLACES];
    let [mut list, mut list_of_fields, mut list_of_bytes] = [0; 3].map(|_| marked(Fill::LEAST_PLACES));
    let (mut messages, mut reduced, mut ended_by_cancel, mut with_entries, mut unpriced) = (0, 0, 0, 0, 0);
    for session in sessions() {
        let Opened::Both(mut plain, mut proved) = session.open() else { continue };
        let (mut of_fields, mut of_bytes) = (proved.clone(), proved.clone());
        for (position, bytes) in (1..).zip(&session.records) {
            let what = format!("{}, message {position}", session.what);
            let record = Record::read(bytes);
            let (outcome, expected_lines) = expected(&mut plain, &record, &mut fills);
            let before = (proved.clone(), list.clone());
            assert_eq!(proved.step(&message(&record), &mut list), outcome, "{what}");
            assert_eq!(of_fields.step(&Message::Record(fields(&record)), &mut list_of_fields), outcome, "{what}");
            assert_eq!(of_bytes.record(bytes, &mut list_of_bytes), outcome, "{what}");
            assert_eq!(lines(&outcome, &list), expected_lines, "{what}");
            assert!(keeps((&before.0, &before.1), (&proved, &list), outcome), "{what}");
            assert!(proved == of_fields && proved == of_bytes, "{what}");
            assert!(list == list_of_fields && list == list_of_bytes, "{what}");
            assert_eq!(proved.open_orders(), plain.book().orders().count(), "{what}");
            assert_eq!(proved.open_responses(), plain.book().responses().count(), "{what}");
            messages += 1;
            for fill in list[..outcome.fills()].iter().filter(|fill| fill.contra() != Contra::Legs) {
                with_entries += 1;
                unpriced += usize::from(fill.leg_prices().is_none());
            }
            reduced += usize::from(record.kind == 8 && matches!(outcome, Outcome::Noted { .. }));
            ended_by_cancel += usize::from(matches!(outcome, Outcome::Ended { cause: Cause::Cancel, .. }));
        }
    }
    assert!(messages > 100_000, "{messages}");
    assert!(reduced > 1_000 && ended_by_cancel > 100, "{reduced} and {ended_by_cancel}");
    assert!(unpriced > 5_000 && with_entries - unpriced > 5_000, "{unpriced} of {with_entries}");
}

/// A copy that is saved after a random message and brought back goes on as the one that was not.
#[test]
fn saved_and_brought_back() {
    let mut random = Random::new(2);
    let [mut list, mut list_of_other] = [0; 2].map(|_| marked(Fill::LEAST_PLACES));
    for session in sessions() {
        let Opened::Both(_, mut engine) = session.open() else { continue };
        let saved_at = random.below(session.records.len() as u64 + 1) as usize;
        let (first, rest) = session.records.split_at(saved_at);
        for bytes in first {
            let _ = engine.record(bytes, &mut list);
        }
        list_of_other.clone_from(&list);
        let saved = engine.to_bytes();
        let mut other = Engine::from_bytes(&saved);
        assert_eq!(other.to_bytes(), saved, "{}", session.what);
        for bytes in rest {
            assert_eq!(engine.record(bytes, &mut list), other.record(bytes, &mut list_of_other), "{}", session.what);
            assert!(*engine == other && list == list_of_other, "{}", session.what);
        }
    }
}

/// A list of fewer than 2,000 places refuses every message with 10; what a longer one has more is not touched.
#[test]
fn lists_of_other_lengths() {
    for profile in &PROFILES {
        let Some(session) = Session::of(profile.name.into(), &profile.tape(1)) else { continue };
        let Opened::Both(_, mut engine) = session.open() else { continue };
        let mut list = marked(Fill::LEAST_PLACES);
        for bytes in &session.records {
            let (before, message) = (engine.clone(), message(&Record::read(bytes)));
            let outcome = engine.step(&message, &mut list);
            for places in [0, 1, 1_999] {
                let (mut copy, mut short) = (before.clone(), marked(places));
                let number = if matches!(message, Message::Record(_)) { 61 } else { 10 };
                assert_eq!(copy.step(&message, &mut short), Outcome::Refused(Refusal::new(number)));
                assert!(copy == before && short == marked(places));
            }
            for places in [2_001, 4_000] {
                let (mut copy, mut long) = (before.clone(), marked(places));
                assert_eq!(copy.step(&message, &mut long), outcome);
                assert!(copy == engine && long[..outcome.fills()] == list[..outcome.fills()]);
                assert!(long[outcome.fills()..] == marked(places)[outcome.fills()..]);
            }
        }
    }
}

/// Any bytes are a copy, and it answers every record.
#[test]
fn copies_of_any_bytes() {
    let mut random = Random::new(3);
    let mut list = marked(Fill::LEAST_PLACES);
    let some = sessions().flat_map(|session| session.records).step_by(50);
    for bytes in some {
        let mut engine = Engine::from_bytes(&[0; Engine::SIZE].map(|_: u8| random.below(256) as u8));
        let before = (engine.clone(), list.clone());
        let outcome = engine.record(&bytes, &mut list);
        assert!(keeps((&before.0, &before.1), (&engine, &list), outcome));
        assert!(engine.open_orders() + engine.open_responses() <= 64);
    }
}

/// The words of a refusal are those of the page on numbers.
#[test]
fn words_of_the_page() {
    let page = std::fs::read_to_string(concat!(env!("CARGO_MANIFEST_DIR"), "/../docs/NUMBERS.md")).expect("the page");
    let rows = page.lines().filter_map(|line| {
        let mut cells = line.trim_matches('|').split(" | ");
        Some((cells.next()?.trim().parse().ok()?, cells.next()?))
    });
    let rows: Vec<(u32, &str)> = rows.collect();
    assert_eq!(rows.len(), 27);
    for (number, words) in rows {
        assert_eq!(Refusal::new(number).to_string(), format!("{number}: {words}"));
    }
}
