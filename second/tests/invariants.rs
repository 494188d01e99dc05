//! What holds after every message of any tape.

use second::book::{Book, Entry, Standing};
use second::engine::{Auction, Cause, Engine, Outcome};
use second::execution::{Contra, Fill, FillList, Mode, Turn, Watch};
use second::gen::{gen, PROFILES};
use second::market::{LocalSide, Quote};
use second::message::Request;
use second::strategy::{Leg, Side};
use second::tape::Tape;
use std::collections::HashMap;

/// Looks at each turn: records within the limit, best price first, and no contra twice at one
/// price and rank.
#[derive(Default)]
struct Look {
    order: Option<Entry>,
    in_queue: bool,
    turns: u64,
    queue_turns: u64,
}

impl Watch for Look {
    fn turn_begins(&mut self, turn: &Turn) {
        self.turns += 1;
        self.order = Some(*turn.order());
        self.in_queue = matches!(turn.mode, Mode::Queue { .. });
        self.queue_turns += u64::from(self.in_queue);
    }

    fn turn_ends(&mut self, records: &[Fill]) {
        let order = self.order.expect("a turn has begun");
        let taken: u32 = records.iter().map(|fill| fill.units).sum();
        assert!(taken <= order.units);
        for fill in records {
            assert_eq!(fill.order, order.id);
            assert!(
                order.side.reaches(order.limit, fill.price),
                "{fill:?} {order:?}"
            );
            assert!(fill.units > 0);
            let letters = if self.in_queue { "LCNT" } else { "LR" };
            assert!(letters.contains(fill.rank.letter()));
        }
        for (earlier, later) in records.iter().zip(records.iter().skip(1)) {
            let contra = order.side.opposite();
            assert!(!contra.better(later.price, earlier.price));
        }
        let key = |fill: &Fill| (fill.price, fill.rank.letter(), fill.contra);
        for (at, fill) in records.iter().enumerate() {
            assert!(records[..at].iter().all(|other| key(other) != key(fill)));
        }
    }
}

/// The units open under each id.
fn open_units(engine: &Engine) -> HashMap<u32, u32> {
    engine
        .book()
        .entries()
        .iter()
        .map(|e| (e.id, e.units))
        .collect()
}

/// Units are conserved: what an entry had, with what the message brought, is what it has, what it
/// traded, and what was cancelled, reduced or expired.
fn check_units(
    before: &Engine,
    request: &Request,
    after: &Engine,
    outcome: &Outcome,
    fills: &[Fill],
) {
    let mut had = open_units(before);
    match request {
        Request::Order { terms, .. }
        | Request::Response { terms, .. }
        | Request::Modify { terms } => {
            had.insert(terms.id, terms.units);
        }
        Request::Cancel { id, .. } => {
            had.remove(id);
        }
        Request::Reduce { id, units, .. } => {
            had.insert(*id, *units);
        }
        _ => {}
    }
    for fill in fills {
        let mut take = |id: u32| {
            let units = had.get_mut(&id).expect("an open entry");
            *units = units.checked_sub(fill.units).expect("no more than it had");
        };
        take(fill.order);
        if let Contra::Entry(id) = fill.contra {
            take(id);
        }
    }
    if matches!(outcome, Outcome::Ended { .. }) {
        for response in before.book().responses() {
            had.remove(&response.id);
        }
    }
    had.retain(|_, units| *units > 0);
    assert_eq!(had, open_units(after));
}

/// The contracts of a leg's side are those quoted, less those taken.
fn check_legs(before: &Engine, request: &Request, after: &Engine, fills: &[Fill]) {
    let mut local = before.market().local;
    if let Request::Local { leg, quote } = request {
        local[usize::from(*leg)] = *quote;
    }
    let side_of = |id: u32| -> Side {
        let entries = before.book().entries().iter().find(|e| e.id == id);
        match request {
            Request::Order { terms, .. } if terms.id == id => Side::of_letter(terms.side).unwrap(),
            _ => entries.expect("the order was open").side,
        }
    };
    for fill in fills.iter().filter(|fill| fill.contra == Contra::Legs) {
        let side = side_of(fill.order);
        let mut net = 0;
        for (leg, quote) in after.strategy().legs.iter().zip(&mut local) {
            let Quote { bid, ask } = quote;
            let used: &mut LocalSide = if leg.side == side { ask } else { bid };
            let sign = if leg.side == Side::Buy { 1 } else { -1 };
            net += sign * i32::from(leg.ratio) * used.price;
            let contracts = u32::from(leg.ratio) * fill.units;
            used.size = used.size.checked_sub(contracts).expect("contracts enough");
            if used.size == 0 {
                used.price = 0;
            }
        }
        assert_eq!(net, fill.price);
    }
    assert_eq!(local, after.market().local);
}

/// What holds of every state.
fn check_state(engine: &Engine) {
    let book = engine.book();
    assert!(book.orders().count() <= Book::MOST_ORDERS);
    assert!(book.responses().count() <= Book::MOST_RESPONSES);
    let entries = book.entries();
    assert!(entries
        .windows(2)
        .all(|two| two[0].arrival < two[1].arrival));
    for (at, entry) in entries.iter().enumerate() {
        assert!(Entry::UNITS.contains(&entry.units));
        assert!(entries[..at].iter().all(|other| other.id != entry.id));
    }
    let standing = |wanted: Standing| entries.iter().filter(move |e| e.standing == wanted);
    match engine.auction() {
        Some(auction) => {
            assert!(standing(Standing::Queue).all(|e| e.side == auction.side));
            // The initiator is the first of the queue by price, then arrival.
            let initiator = standing(Standing::Queue).find(|e| e.id == auction.initiator);
            let initiator = initiator.expect("it is in the queue");
            assert_eq!(initiator.limit, auction.limit);
            for other in standing(Standing::Queue).filter(|e| e.id != auction.initiator) {
                let better = auction.side.better(initiator.limit, other.limit);
                let equal = initiator.limit == other.limit;
                assert!(better || equal && initiator.arrival < other.arrival);
            }
            // The starting price now shows at least the least units it has shown.
            if let Some(start) = auction.start {
                let legs = engine
                    .market()
                    .derived_contra(engine.strategy(), auction.side);
                let shown = legs.filter(|legs| legs.price == start.price);
                assert!(start.units <= shown.map_or(0, |legs| legs.units));
            }
        }
        None => {
            assert!(entries.iter().all(|e| e.standing == Standing::Live));
            let best = |side: Side| standing(Standing::Live).filter(move |e| e.side == side);
            for buyer in best(Side::Buy) {
                assert!(best(Side::Sell).all(|seller| buyer.limit < seller.limit));
            }
            // Nor is any live order at or through the legs.
            for order in entries {
                let legs = engine
                    .market()
                    .derived_contra(engine.strategy(), order.side);
                assert!(legs.is_none_or(|legs| !order.side.reaches(order.limit, legs.price)));
            }
        }
    }
}

#[test]
fn every_message_of_every_profile() {
    let mut most_records = 0;
    let mut fills = vec![Fill::BLANK; FillList::LEAST_PLACES];
    for profile in &PROFILES {
        let seeds = if profile.name == "long" { 4 } else { 40 };
        for seed in 1_000..1_000 + seeds {
            let bytes = gen(profile.name, seed).unwrap();
            let Ok(tape) = Tape::read(&bytes) else {
                continue;
            };
            let legs: Vec<Leg> = tape.legs().collect();
            let Ok(mut engine) = Engine::open(&legs, &tape.header.settings) else {
                continue;
            };
            for message in tape.messages() {
                let before = engine.clone();
                let mut look = Look::default();
                let outcome = engine.apply_watched(&message, &mut fills, &mut look);
                let records = &fills[..outcome.fill_count()];
                most_records = most_records.max(records.len());
                if let Outcome::Refused { .. } = outcome {
                    assert_eq!(format!("{before:?}"), format!("{engine:?}"));
                    assert_eq!(look.turns, 0);
                    continue;
                }
                assert!(records
                    .iter()
                    .all(|fill| fill.number == before.next_number()));
                assert_eq!(engine.next_number(), before.next_number() + 1);
                check_units(&before, &message.request, &engine, &outcome, records);
                check_legs(&before, &message.request, &engine, records);
                check_state(&engine);
                check_outcome(&before, &message.request, &engine, &outcome);
                match message.request {
                    Request::Cancel { id, .. } => check_cancel(&before, id, &engine, &outcome),
                    Request::Reduce { id, .. } => check_reduce(&before, id, &engine, &outcome),
                    _ => {}
                }
                // Queue orders execute at every end but that by a cancel.
                let executes =
                    matches!(outcome, Outcome::Ended { cause, .. } if cause != Cause::Cancel);
                assert_eq!(look.queue_turns > 0, executes);
            }
        }
    }
    assert!(most_records <= FillList::LEAST_PLACES);
    println!("most records of one message: {most_records}");
}

/// The outcome tells what happened.
fn check_outcome(before: &Engine, request: &Request, after: &Engine, outcome: &Outcome) {
    let is_order = matches!(request, Request::Order { .. });
    let pending = (before.auction().is_some(), after.auction().is_some());
    match outcome {
        Outcome::Noted { .. } => assert!(!is_order && pending.0 == pending.1),
        Outcome::Placed { units, .. } => {
            assert!(is_order && pending.0 == pending.1);
            let Request::Order { terms, .. } = request else {
                return;
            };
            let open = after.book().entries().iter().find(|e| e.id == terms.id);
            assert_eq!(open.map_or(0, |e| e.units), *units);
        }
        Outcome::Begun { deadline } => {
            assert!(is_order && pending == (false, true));
            assert_eq!(after.auction().map(|a| a.deadline), Some(*deadline));
        }
        Outcome::Joined { queue_units } => {
            assert!(is_order && pending == (true, true));
            let queue = after
                .book()
                .orders()
                .filter(|o| o.standing == Standing::Queue);
            assert_eq!(queue.map(|o| o.units).sum::<u32>(), *queue_units);
        }
        Outcome::Ended { cause, .. } => {
            assert_eq!(pending, (true, false));
            let by = match request {
                Request::Clock => Cause::Time,
                Request::Order { .. } => Cause::Order,
                Request::Local { .. } => Cause::Legs,
                Request::Cancel { .. } => Cause::Cancel,
                _ => panic!("{request:?} ends no auction"),
            };
            assert_eq!(*cause, by);
        }
        Outcome::Refused { .. } => {}
    }
}

/// A cancelled order is gone. "If the initiator is cancelled, the next queue order by price, then
/// arrival, becomes the initiator with the same deadline and starting leg price. If none is left,
/// the auction ends." That the next one is the right one holds of every state.
fn check_cancel(before: &Engine, id: u32, after: &Engine, outcome: &Outcome) {
    if let Outcome::Ended { .. } = outcome {
        let mut orders = before.book().orders();
        assert!(orders.all(|o| (o.standing == Standing::Queue) == (o.id == id)));
        assert_eq!(after.book().responses().count(), 0);
        return;
    }
    assert_eq!(*outcome, Outcome::Noted { fills: 0 });
    let mut entries = before.book().entries().to_vec();
    entries.retain(|e| e.id != id);
    assert_eq!(entries, after.book().entries());
    let auction = before.auction().map(|auction| match after.auction() {
        Some(next) if auction.initiator == id => Auction {
            initiator: next.initiator,
            limit: next.limit,
            ..*auction
        },
        _ => *auction,
    });
    assert_eq!(auction.as_ref(), after.auction());
}

/// A reduce changes the open units of one order, and nothing else.
fn check_reduce(before: &Engine, id: u32, after: &Engine, outcome: &Outcome) {
    assert_eq!(*outcome, Outcome::Noted { fills: 0 });
    assert_eq!(before.auction(), after.auction());
    let entries = before.book().entries().iter().zip(after.book().entries());
    for (was, is) in entries {
        let units = if was.id == id { is.units } else { was.units };
        assert_eq!(Entry { units, ..*was }, *is);
        assert!(was.id != id || is.is_order() && is.units < was.units);
    }
}

/// The most records found by hand: a queue of 16 orders, 16 opposite ones, 32 responses, all
/// sharing at one price, stay far under the list's places.
#[test]
fn many_small_shares_fit_the_list() {
    use second::strategy::Settings;
    use second::tape::{write_tape, Record};
    let leg = |strike: &str, side: u8| Leg {
        symbol: format!("XYZ   260116C{strike}")
            .into_bytes()
            .try_into()
            .unwrap(),
        side,
        ratio: 1,
        mpv: 1,
    };
    let settings = Settings {
        interval: 1_000,
        distance: 999,
        most_legs: 2,
        amounts: [0; 3],
        minimum: 1,
        first_number: 1,
        opening_time: 0,
    };
    let entry = |kind: u8, id: u32, side: u8, units: u32, price: i32| Record {
        kind,
        side,
        account: 1 + (id % 2) as u8,
        wish_or_leg: u8::from(side == b'B'),
        id,
        participant: 1,
        units,
        price,
        ..Record::default()
    };
    let mut records = vec![entry(3, 1, b'S', 999_999, 100)];
    records.extend((2..=17).map(|id| entry(3, id, b'B', 1_000, 100)));
    records.extend((18..=32).map(|id| entry(3, id, b'S', 999_999, 100)));
    records.extend((101..=132).map(|id| entry(4, id, b'S', 999_999, 100)));
    records.push(Record {
        kind: 7,
        time: 1_000,
        ..Record::default()
    });
    let legs = [leg("00020000", b'B'), leg("00025000", b'S')];
    let tape = write_tape(&settings, &legs, &records).unwrap();
    let mut most = 0;
    second::print::run_tape(&tape, |_, _, fills| most = most.max(fills.len())).unwrap();
    // Each of 16 queue orders is filled by the customers alone: 8 orders and 16 responses.
    assert_eq!(most, 16 * 24);
}
