//! Short words to write sessions with, and to say what they print.

// Each test file uses some of these words, and none uses all.
#![allow(dead_code)]

use second::engine::{Cause, Engine, Outcome};
use second::execution::{Fill, FillList};
use second::print::{run_tape, tapeprint, TITLE};
use second::strategy::{Leg, Settings};
use second::tape::{write_tape, Record, Tape};

pub fn leg(symbol: &str, side: char, ratio: u8, mpv: u8) -> Leg {
    Leg {
        symbol: symbol.as_bytes().try_into().expect("21 bytes"),
        side: side as u8,
        ratio,
        mpv,
    }
}

/// Settings and legs; the messages are said later.
pub struct Session {
    pub settings: Settings,
    pub legs: Vec<Leg>,
}

/// "C 20 B 1, C 25 S 1, MPV 5", with a distance that lets most orders have an auction.
pub fn spread() -> Session {
    Session {
        settings: Settings {
            interval: 500,
            distance: 50,
            most_legs: 4,
            amounts: [10, 15, 30],
            minimum: 1,
            first_number: 1,
            opening_time: 0,
        },
        legs: vec![
            leg("XYZ   260116C00020000", 'B', 1, 5),
            leg("XYZ   260116C00025000", 'S', 1, 5),
        ],
    }
}

impl Session {
    pub fn distance(mut self, distance: u16) -> Session {
        self.settings.distance = distance;
        self
    }

    pub fn legs(mut self, legs: &[Leg]) -> Session {
        self.legs = legs.to_vec();
        self
    }

    pub fn set(mut self, change: impl Fn(&mut Settings)) -> Session {
        change(&mut self.settings);
        self
    }

    pub fn tape(&self, messages: &[Record]) -> Vec<u8> {
        write_tape(&self.settings, &self.legs, messages).expect("a tape's worth of messages")
    }

    /// The session prints the title and these lines.
    pub fn prints(&self, messages: &[Record], lines: &[&str]) {
        assert_eq!(tapeprint(&self.tape(messages)), with_title(lines));
    }

    /// The opening is refused with a number.
    pub fn is_refused(&self, number: u8) {
        assert_eq!(tapeprint(&self.tape(&[])), format!("refused 0 {number}\n"));
    }

    pub fn opens(&self) {
        self.prints(&[], &["open 0 answers 0"]);
    }

    pub fn engine(&self) -> Engine {
        Engine::open(&self.legs, &self.settings).expect("an opening that passes")
    }

    /// The outcomes of the messages.
    pub fn outcomes(&self, messages: &[Record]) -> Vec<Outcome> {
        let mut engine = self.engine();
        let mut fills = vec![Fill::BLANK; FillList::LEAST_PLACES];
        let messages = messages.iter().map(|r| r.message().expect("a kind"));
        messages.map(|m| engine.apply(&m, &mut fills)).collect()
    }

    pub fn last_outcome(&self, messages: &[Record]) -> Outcome {
        *self.outcomes(messages).last().expect("a message")
    }
}

/// The records of the last message, each as order, rank, price and units.
pub fn last_records(session: &Session, messages: &[Record]) -> String {
    let mut text = String::new();
    let run = run_tape(&session.tape(messages), |_, outcome, fills| {
        assert!(!matches!(outcome, Outcome::Refused { .. }));
        let words = fills.iter().map(|fill| {
            let (order, rank, price) = (fill.order, fill.rank.letter(), fill.price);
            format!("{order} {rank} {price} {}", fill.units)
        });
        text = words.collect::<Vec<String>>().join(", ");
    });
    assert!(run.is_ok());
    text
}

/// A tape's meaning: settings, legs, and the used fields of its messages.
pub fn meaning(bytes: &[u8]) -> String {
    let tape = Tape::lay_out(bytes).unwrap();
    let legs: Vec<_> = tape.legs().collect();
    let messages: Vec<_> = tape.records().map(|r| (r.kind, r.message())).collect();
    format!("{:?} {legs:?} {messages:?}", tape.header.settings)
}

pub fn with_title(lines: &[&str]) -> String {
    let mut text = format!("{TITLE}\n");
    for line in lines {
        text += line;
        text += "\n";
    }
    text
}

/// Whether a message that prints nothing else is refused, and with which number.
pub fn refused(number: u8) -> Outcome {
    Outcome::Refused { number }
}

pub fn placed(units: u32) -> Outcome {
    Outcome::Placed { units, fills: 0 }
}

pub fn noted() -> Outcome {
    Outcome::Noted { fills: 0 }
}

pub fn ended(cause: Cause, fills: usize) -> Outcome {
    Outcome::Ended { cause, fills }
}

pub fn local(leg: u8, bid: i32, bid_size: u32, ask: i32, ask_size: u32) -> Record {
    Record {
        kind: 1,
        wish_or_leg: leg,
        units: bid_size,
        price: bid,
        ask,
        ask_size,
        ..Record::default()
    }
}

pub fn national(leg: u8, bid: i32, ask: i32) -> Record {
    Record {
        kind: 2,
        wish_or_leg: leg,
        price: bid,
        ask,
        ..Record::default()
    }
}

/// Source 003's first market: "220/240 less 110/125: derived 95 and 130", sizes 10.
pub fn market() -> [Record; 2] {
    [local(0, 220, 10, 240, 10), local(1, 110, 10, 125, 10)]
}

/// The market, then these messages.
pub fn after_market(messages: &[Record]) -> Vec<Record> {
    all(&[&market(), messages])
}

/// A customer's order without a wish, of participant 1, at time 0.
fn order(side: u8, id: u32, units: u32, price: i32) -> Record {
    Record {
        kind: 3,
        side,
        account: 1,
        id,
        participant: 1,
        units,
        price,
        ..Record::default()
    }
}

pub fn buy(id: u32, units: u32, price: i32) -> Record {
    order(b'B', id, units, price)
}

pub fn sell(id: u32, units: u32, price: i32) -> Record {
    order(b'S', id, units, price)
}

pub fn cancel(id: u32) -> Record {
    Record {
        kind: 6,
        id,
        participant: 1,
        ..Record::default()
    }
}

/// A reduce to so many open units.
pub fn reduce(id: u32, units: u32) -> Record {
    Record {
        kind: 8,
        units,
        ..cancel(id)
    }
}

pub fn clock(time: u64) -> Record {
    Record {
        kind: 7,
        time,
        ..Record::default()
    }
}

/// What may be said of a message besides.
pub trait Besides {
    /// It asks for an auction.
    fn wish(self) -> Record;
    /// It is not a customer's.
    fn non_customer(self) -> Record;
    fn of(self, participant: u32) -> Record;
    fn at(self, time: u64) -> Record;
    /// It is a response with the order's terms.
    fn response(self) -> Record;
    /// It modifies a response to the order's terms.
    fn modify(self) -> Record;
}

impl Besides for Record {
    fn wish(self) -> Record {
        Record {
            wish_or_leg: 1,
            ..self
        }
    }

    fn non_customer(self) -> Record {
        Record { account: 2, ..self }
    }

    fn of(self, participant: u32) -> Record {
        Record {
            participant,
            ..self
        }
    }

    fn at(self, time: u64) -> Record {
        Record { time, ..self }
    }

    fn response(self) -> Record {
        Record { kind: 4, ..self }
    }

    fn modify(self) -> Record {
        Record {
            kind: 5,
            account: 0,
            ..self
        }
    }
}

/// The messages of several parts, one after another.
pub fn all(parts: &[&[Record]]) -> Vec<Record> {
    parts.concat()
}
