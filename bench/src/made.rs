//! Tapes made to be measured: with so many entries open, with more or fewer fills, and in other bytes than those of their form.

use second::gen::gen;
use second::gen::random::Random;
use second::strategy::{Cents, Leg, Settings};
use second::tape::{write_tape, Field, Header, Kind, Record, Tape};
use std::fmt;
use std::ops::Range;

/// Two tapes, a cell of a table, and what the second tape has more than the first.
pub struct Case {
    pub table: &'static str,
    pub row: String,
    pub column: String,
    pub tapes: [Vec<u8>; 2],
    /// The last line that both tapes print.
    pub last_line: String,
    /// Whether both end with an auction pending.
    pub pending: bool,
    pub messages: usize,
    pub refused: usize,
    pub fills: usize,
}

impl fmt::Display for Case {
    fn fmt(&self, f: &mut fmt::Formatter) -> fmt::Result {
        write!(f, "{}, {}, {}", self.table, self.row, self.column)
    }
}

/// The cases in the sequence of their tables and rows.
pub fn cases() -> Vec<Case> {
    let steady = steady_states();
    let row = |(refused, name, message): &(bool, &'static str, MakeMessage)| {
        let found = steady.iter().filter_map(|state| state.case(*refused, name, *message));
        found.collect::<Vec<_>>()
    };
    let mut cases: Vec<Case> = MESSAGES.iter().flat_map(row).collect();
    cases.extend(FILLS.iter().map(fill_case));
    cases.extend(
        BOOKED
            .iter()
            .flat_map(|row| MARKETS.iter().flat_map(|market| [false, true].map(|near| booked_case(row, market, near)))),
    );
    cases
}

const INTERVAL: u64 = 1_000;

const SETTINGS: Settings = Settings {
    interval: INTERVAL as u16,
    distance: 10,
    most_legs: 4,
    amounts: [10, 15, 30],
    minimum: 1,
    first_number: 1,
    opening_time: 1,
};

const LEGS: [Leg; 2] = [
    Leg { symbol: *b"XYZ   260116C00020000", side: b'B', ratio: 1, mpv: 5 },
    Leg { symbol: *b"XYZ   260116C00025000", side: b'S', ratio: 1, mpv: 5 },
];

/// The most records of a tape with so many legs.
const fn most_records(legs: usize) -> usize {
    (Tape::MOST_BYTES - Header::BYTES - legs * Leg::BYTES) / Record::BYTES
}

const MOST_RECORDS: usize = most_records(LEGS.len());

fn tape(records: &[Record]) -> Vec<u8> {
    tape_of(&LEGS, records)
}

fn tape_of(legs: &[Leg], records: &[Record]) -> Vec<u8> {
    write_tape(&SETTINGS, legs, records).expect("no more than the most records")
}

// Messages; at the opening's time, where no other is said.

fn record(kind: u8) -> Record {
    Record { kind, time: SETTINGS.opening_time, ..Record::default() }
}

fn at(time: u64, record: Record) -> Record {
    Record { time, ..record }
}

fn local(leg: u8, bid: Cents, ask: Cents, size: u32) -> Record {
    Record { wish_or_leg: leg, units: size, price: bid, ask, ask_size: size, ..record(1) }
}

fn national(leg: u8, bid: Cents, ask: Cents) -> Record {
    Record { wish_or_leg: leg, price: bid, ask, ..record(2) }
}

fn entry(kind: u8, id: u32, side: u8, units: u32, price: Cents) -> Record {
    Record { side, account: 1, id, participant: 1, units, price, ..record(kind) }
}

fn order(id: u32, side: u8, units: u32, limit: Cents) -> Record {
    entry(3, id, side, units, limit)
}

fn asking(order: Record) -> Record {
    Record { wish_or_leg: 1, ..order }
}

/// The response of a number from 0: a seller.
fn response(n: u32, price: Cents) -> Record {
    entry(4, FIRST_RESPONSE + n, b'S', 1, price)
}

const FIRST_RESPONSE: u32 = 101;

fn modify(n: u32, units: u32) -> Record {
    entry(5, FIRST_RESPONSE + n, b'S', units, 120)
}

fn cancel(id: u32) -> Record {
    Record { id, participant: 1, ..record(6) }
}

fn reduce(id: u32, units: u32) -> Record {
    Record { id, participant: 1, units, ..record(8) }
}

fn clock() -> Record {
    record(7)
}

/// Derived 100 and 130; national 98 and 132, so that the filter has something to do.
fn market() -> Vec<Record> {
    vec![local(0, 220, 240, 50), local(1, 110, 120, 50), national(0, 219, 241), national(1, 109, 121)]
}

/// The units of an open order: enough to be reduced one by one by all messages of a tape.
const UNITS: u32 = 999_999;

/// An order that trades with nobody: buyers from 97 down, sellers from 132 up.
fn resting(id: u32) -> Record {
    let away = 32 + id as Cents / 2;
    match id % 2 {
        0 => order(id, b'B', UNITS, 130 - away),
        _ => order(id, b'S', UNITS, 100 + away),
    }
}

// So many entries open.

/// So many orders and responses open; order 1 is the initiator of an auction, if there is one.
struct Steady {
    orders: u32,
    responses: u32,
    auction: bool,
}

/// The message of a number from 0 on that leaves as many open; none where nothing is open that it is about.
type MakeMessage = fn(&Steady, u32) -> Option<Record>;

/// Whether it is refused, what it is, and the message.
const MESSAGES: [(bool, &str, MakeMessage); 11] = [
    (false, "local quote", |_, k| Some(local(0, 219 + k as Cents % 2, 240, 50))),
    (false, "national quote", |_, k| Some(national(0, 218 + k as Cents % 2, 241))),
    (false, "clock", |_, _| Some(clock())),
    (false, "cancel and new order", |state, k| {
        let id = state.outside_queue(k / 2)?;
        Some(if k % 2 == 0 { cancel(id) } else { resting(id) })
    }),
    (false, "order that joins the queue, and its cancel", |state, k| {
        let free = state.auction && state.orders < 32;
        free.then(|| if k % 2 == 0 { asking(order(99, b'B', 5, 124)) } else { cancel(99) })
    }),
    (false, "reduce", |state, k| Some(reduce(1 + k % state.orders, UNITS - 1 - k / state.orders))),
    (false, "modify", |state, k| Some(modify(k.checked_rem(state.responses)?, 1 + k % 9))),
    (true, "time before the last (11)", |_, _| Some(at(0, clock()))),
    (true, "order under an open id (31)", |state, k| Some(resting(1 + k % state.orders))),
    (true, "cancel of no open order (50)", |_, _| Some(cancel(999))),
    (true, "reduce to the open units (71)", |state, k| Some(reduce(1 + k % state.orders, UNITS))),
];

/// Without an auction there are at most 32 orders; with one, half of what is open are responses.
fn steady_states() -> Vec<Steady> {
    let without = [1, 8, 32].map(|open| Steady { orders: open, responses: 0, auction: false });
    let with = [1, 8, 32, 64].map(|open| Steady { orders: open - open / 2, responses: open / 2, auction: true });
    without.into_iter().chain(with).collect()
}

impl Steady {
    /// One of the orders whose cancel leaves the auction as it is.
    fn outside_queue(&self, k: u32) -> Option<u32> {
        let queue = u32::from(self.auction);
        Some(queue + 1 + k.checked_rem(self.orders - queue)?)
    }

    fn begin(&self) -> Vec<Record> {
        let mut records = market();
        records.extend((u32::from(self.auction)..self.orders).map(|k| resting(k + 1)));
        if self.auction {
            records.push(asking(order(1, b'B', UNITS, 125)));
        }
        records.extend((0..self.responses).map(|n| response(n, 120)));
        records
    }

    /// A tape up to the open entries, and one with the messages.
    fn case(&self, refused: bool, name: &str, message: MakeMessage) -> Option<Case> {
        let begin = self.begin();
        // An even number, for messages in pairs.
        let count = (MOST_RECORDS - begin.len()) / 2 * 2;
        let more: Option<Vec<Record>> = (0..count as u32).map(|k| message(self, k)).collect();
        Some(Case {
            table: if refused { "A refused message" } else { "A message, by open entries" },
            row: format!("{name}, {}", if self.auction { "auction pending" } else { "no auction" }),
            column: format!("{} open", self.orders + self.responses),
            tapes: [tape(&begin), tape(&[begin, more?].concat())],
            last_line: format!("open {} answers {}", self.orders, self.responses),
            pending: self.auction,
            messages: count,
            refused: if refused { count } else { 0 },
            fills: 0,
        })
    }
}

// Fills.

/// The group of messages of a number from 0, with fewer fills or with more.
type MakeGroup = fn(u64, bool) -> Vec<Record>;

/// What is filled, how many fills more a group has, and the group.
const FILLS: [(&str, usize, MakeGroup); 4] = [
    ("the legs, no auction", 1, legs_fill),
    ("orders by arrival, no auction", 15, orders_fill),
    ("32 responses at one price", 32, |k, more| auction(k, 32, |_| if more { 120 } else { 126 })),
    ("32 responses at 32 prices", 32, |k, more| auction(k, 32, |n| n as Cents + if more { 94 } else { 126 })),
];

fn fill_case(&(name, fills, group): &(&str, usize, MakeGroup)) -> Case {
    let groups = (MOST_RECORDS - market().len()) / group(0, true).len();
    let records = |more: bool| (0..groups as u64).flat_map(|k| group(k, more)).collect();
    Case {
        table: "A fill",
        row: name.into(),
        column: "a fill".into(),
        tapes: [false, true].map(|more| tape(&[market(), records(more)].concat())),
        last_line: "open 0 answers 0".into(),
        pending: false,
        messages: 0,
        refused: 0,
        fills: groups * fills,
    }
}

/// The legs show one unit; a buyer of two takes it or does not reach it, and is cancelled.
fn legs_fill(_: u64, more: bool) -> Vec<Record> {
    let limit = if more { 130 } else { 98 };
    vec![local(0, 220, 240, 1), local(1, 110, 120, 1), order(1, b'B', 2, limit), cancel(1)]
}

/// 16 sellers of 2 units and 16 buyers: of 2 units each, 16 fills; or the first of 1 and the last of 3, 31 fills.
fn orders_fill(_: u64, more: bool) -> Vec<Record> {
    let units = |k: u32| match k {
        1 if more => 1,
        16 if more => 3,
        _ => 2,
    };
    let sellers = (1..=16).map(|k| order(k, b'S', 2, 110));
    sellers.chain((1..=16).map(|k| order(16 + k, b'B', units(k), 110))).collect()
}

/// An auction of a buyer at 125, with so many responses of 1 unit, and of 1 unit more; the buyer's rest is cancelled.
fn auction(k: u64, responses: u32, price: impl Fn(u32) -> Cents) -> Vec<Record> {
    let begins = SETTINGS.opening_time + k * INTERVAL;
    let ends = begins + INTERVAL;
    let mut records = vec![at(begins, asking(order(1, b'B', responses + 1, 125)))];
    records.extend((0..responses).map(|n| at(begins, response(n, price(n)))));
    records.extend([at(ends, clock()), at(ends, cancel(1))]);
    records
}

// Leg prices.

/// Legs, each with its side, ratio, bid and how far its ask is above it; the derived ask is 130.
struct Market {
    name: &'static str,
    legs: &'static [(u8, u8, Cents, Cents)],
    /// A price in the middle of the legs' nets.
    middle: Cents,
    /// No more fills than these, as the second program tries all prices.
    most_fills: usize,
}

/// Of the last no prices make the middle: its nets are multiples of 9 from one of two numbers on.
const MARKETS: [Market; 4] = [
    Market { name: "1:1", legs: &[(b'B', 1, 220, 50), (b'S', 1, 140, 50)], middle: 64, most_fills: usize::MAX },
    Market { name: "8:9", legs: &[(b'B', 8, 90, 50), (b'S', 9, 110, 50)], middle: -295, most_fills: usize::MAX },
    Market {
        name: "9:8:7:5",
        legs: &[(b'B', 9, 100, 50), (b'S', 8, 200, 50), (b'B', 7, 100, 50), (b'S', 5, 134, 50)],
        middle: -595,
        most_fills: usize::MAX,
    },
    Market {
        name: "9:9:9:8",
        legs: &[(b'B', 9, 100, 50), (b'S', 9, 194, 50), (b'B', 9, 100, 50), (b'S', 8, 103, 1)],
        middle: -550,
        most_fills: 32,
    },
];

/// How many responses an auction has, and whether each has a price of its own.
const BOOKED: [(&str, u32, bool); 3] =
    [("1 response", 1, false), ("32 responses at one price", 32, false), ("32 responses at 32 prices", 32, true)];

/// Fills for which leg prices are looked for, or that have none as the first leg is 51 cents wide.
fn booked_case(&(name, responses, apart): &(&str, u32, bool), market: &Market, near: bool) -> Case {
    let symbols =
        [*b"XYZ   260116C00020000", *b"XYZ   260116C00025000", *b"XYZ   260116C00030000", *b"XYZ   260116C00035000"];
    let legs = symbols.into_iter().zip(market.legs);
    let legs: Vec<Leg> = legs.map(|(symbol, &(side, ratio, _, _))| Leg { symbol, side, ratio, mpv: 5 }).collect();
    let lower = |k: usize| Cents::from(k == 0 && !near);
    let quote =
        |(k, &(_, _, bid, wide)): (usize, &(u8, u8, Cents, Cents))| local(k as u8, bid - lower(k), bid + wide, 50);
    let quotes: Vec<Record> = market.legs.iter().enumerate().map(quote).collect();
    let price = |n: u32, more: bool| match more {
        true => market.middle + if apart { n as Cents } else { 0 },
        false => 126,
    };
    let group = |k: u64, more: bool| auction(k, responses, |n| price(n, more));
    let most = (most_records(legs.len()) - quotes.len()) / group(0, true).len();
    let groups = most.min(market.most_fills / responses as usize);
    let records = |more: bool| (0..groups as u64).flat_map(|k| group(k, more)).collect();
    Case {
        table: "A fill, by its leg prices",
        row: name.into(),
        column: format!("{}, {}", market.name, if near { "near" } else { "wide" }),
        tapes: [false, true].map(|more| tape_of(&legs, &[quotes.clone(), records(more)].concat())),
        last_line: "open 0 answers 0".into(),
        pending: false,
        messages: 0,
        refused: 0,
        fills: groups * responses as usize,
    }
}

// Tapes of one meaning in other bytes.

/// Rows of tapes whose forms are written: the longest that there can be, with nothing in the fields that are not used and with
/// noise there, and short ones.
pub fn spellings(seeds: Range<u64>) -> Vec<(&'static str, Vec<Vec<u8>>)> {
    let tape = |profile: &str, seed: u64| gen(profile, seed).expect("a profile of the list");
    let long = |seed: u64| with_gap(&tape("long", seed));
    let noisy = |seed: u64| with_noise(long(seed), seed);
    let spelling = |seed: u64| tape("spelling", seed);
    vec![
        ("long, a gap before the messages", seeds.clone().map(long).collect()),
        ("the same, noise in unused fields", seeds.clone().map(noisy).collect()),
        ("spelling", seeds.map(spelling).collect()),
        ("own case", vec![OWN_CASE.to_vec()]),
    ]
}

/// Document 01's own case.
const OWN_CASE: &[u8] = include_bytes!("../../crates/tapeprint/stdin");

/// A tape whose messages come last, moved on until they end with the last byte that a tape can have.
fn with_gap(tape: &[u8]) -> Vec<u8> {
    let (front, messages) = tape.split_at(Header::read(tape).messages().start);
    let mut moved = front.to_vec();
    moved.resize(Tape::MOST_BYTES - messages.len(), 7);
    let start = moved.len() as u16;
    Header::set(&mut moved, Header::MESSAGE_OFFSET, start);
    moved.extend(messages);
    moved
}

/// Random bytes in the fields that a message's kind does not use, and as a wish that is there.
fn with_noise(mut tape: Vec<u8>, seed: u64) -> Vec<u8> {
    let mut random = Random::new(seed);
    let messages = Header::read(&tape).messages();
    for record in tape[messages].chunks_exact_mut(Record::BYTES) {
        let fields = Kind::of_number(record[0]).map_or(&[][..], |kind| kind.fields);
        let places = |field: &Field| field.place()..field.place() + field.bytes();
        for (at, byte) in record.iter_mut().enumerate().skip(1) {
            match fields.iter().find(|field| places(field).contains(&at)) {
                None => *byte = random.below(256) as u8,
                Some(Field::Wish) if *byte != 0 => *byte = random.up_to(255) as u8,
                Some(_) => {}
            }
        }
    }
    tape
}
