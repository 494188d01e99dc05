//! M-101: "Records of one order, price and rank now stand by the contra's arrival number."
//!
//! The checker here is told the messages and their records. It keeps the arrival numbers by itself
//! and asks the engine for nothing.

mod common;

use common::*;
use second::engine::Outcome;
use second::execution::{Contra, Fill, Rank};
use second::gen::PROFILES;
use second::message::{Message, Request};
use second::print::{contra_number, run_tape};
use second::strategy::{Cents, Side};
use second::tape::{Record, Tape};
use std::cmp::Ordering::{Equal, Greater};
use std::collections::{HashMap, HashSet};

/// What is wrong with a list of records.
#[derive(PartialEq, Eq, Debug)]
enum Fault {
    /// A record that does not bear its message's number.
    Number,
    /// An id that no accepted message gave.
    Unknown,
    /// Legs in an entry's rank, or an entry in the legs'.
    Legs,
    /// One contra twice at one price and rank of one order.
    Twice,
    /// A better price behind a worse one.
    Prices,
    /// A rank behind a later one.
    Ranks,
    /// An arrival number that does not rise.
    Arrivals,
}

/// What the last entry of an id is known by.
struct Known {
    /// The side of an order; a response has none here.
    side: Option<Side>,
    /// The number of the message that gave the entry its id.
    given: u64,
    /// The number of the last message that gave it its id or modified it.
    arrival: u64,
}

/// What stood in the lists so far.
#[derive(Default, PartialEq, Eq, Debug)]
struct Seen {
    records: u64,
    /// Neighbours of one price and rank: the later one has the smaller id.
    ids_fall: u64,
    /// The later one has more units.
    units_rise: u64,
    /// The later one is a modified response, first given before the earlier one arrived.
    modified_behind: u64,
}

#[derive(Default)]
struct Checker {
    known: HashMap<u32, Known>,
    seen: Seen,
}

/// Where a record stands in its turn: what a unit costs the order, the rank's place, and the
/// contra's arrival number, 0 for the legs.
type Place = (i64, usize, u64);

impl Checker {
    /// Takes a message, its number if it was accepted, and its records.
    fn take(
        &mut self,
        message: &Message,
        accepted: Option<u64>,
        records: &[Fill],
    ) -> Result<(), Fault> {
        if let Some(number) = accepted {
            self.learn(&message.request, number)?;
        }
        let strange = records.iter().any(|fill| Some(fill.number) != accepted);
        fault_if(strange, Fault::Number)?;
        check_no_contra_twice(records)?;
        for turn in records.chunk_by(|a, b| a.order == b.order) {
            self.check_turn(turn)?;
        }
        self.count(records);
        Ok(())
    }

    /// Keeps what an accepted message says of an id.
    fn learn(&mut self, request: &Request, number: u64) -> Result<(), Fault> {
        match request {
            Request::Order { terms, .. } => {
                self.give(terms.id, Side::of_letter(terms.side), number)
            }
            Request::Response { terms, .. } => self.give(terms.id, None, number),
            Request::Modify { terms } => {
                let known = self.known.get_mut(&terms.id).ok_or(Fault::Unknown)?;
                known.arrival = number;
            }
            _ => {}
        }
        Ok(())
    }

    fn give(&mut self, id: u32, side: Option<Side>, number: u64) {
        let known = Known {
            side,
            given: number,
            arrival: number,
        };
        self.known.insert(id, known);
    }

    fn known(&self, id: u32) -> Result<&Known, Fault> {
        self.known.get(&id).ok_or(Fault::Unknown)
    }

    /// The records of one turn stand by price, rank and arrival number, and no two in one place.
    fn check_turn(&self, turn: &[Fill]) -> Result<(), Fault> {
        let side = self.known(turn[0].order)?.side.ok_or(Fault::Unknown)?;
        let places = turn.iter().map(|fill| self.place(side, fill));
        let places = places.collect::<Result<Vec<Place>, Fault>>()?;
        places
            .windows(2)
            .try_for_each(|two| check_rise(two[0], two[1]))
    }

    fn place(&self, side: Side, fill: &Fill) -> Result<Place, Fault> {
        let cost = match side {
            Side::Buy => i64::from(fill.price),
            Side::Sell => -i64::from(fill.price),
        };
        let arrival = match fill.contra {
            Contra::Legs => 0,
            Contra::Entry(id) => self.known(id)?.arrival,
        };
        let of_legs = matches!(fill.rank, Rank::L | Rank::T);
        fault_if(of_legs != (fill.contra == Contra::Legs), Fault::Legs)?;
        Ok((cost, rank_place(fill.rank), arrival))
    }

    /// Counts what stands in a list that passed.
    fn count(&mut self, records: &[Fill]) {
        let group = |fill: &Fill| (fill.order, fill.price, fill.rank);
        self.seen.records += records.len() as u64;
        for two in records.windows(2) {
            if group(&two[0]) == group(&two[1]) {
                self.count_neighbours(&two[0], &two[1]);
            }
        }
    }

    fn count_neighbours(&mut self, earlier: &Fill, later: &Fill) {
        let [before, behind] = [earlier, later].map(|fill| contra_number(fill.contra));
        let modified_behind = self.known[&behind].given < self.known[&before].arrival;
        self.seen.ids_fall += u64::from(behind < before);
        self.seen.units_rise += u64::from(later.units > earlier.units);
        self.seen.modified_behind += u64::from(modified_behind);
    }
}

fn fault_if(condition: bool, fault: Fault) -> Result<(), Fault> {
    if condition {
        Err(fault)
    } else {
        Ok(())
    }
}

/// At one price the ranks stand in this sequence.
fn rank_place(rank: Rank) -> usize {
    "LCNTR".find(rank.letter()).expect("one of the ranks")
}

/// "For one order, price and rank a contra has one record."
fn check_no_contra_twice(records: &[Fill]) -> Result<(), Fault> {
    let mut found = HashSet::new();
    let mut is_new = |fill: &Fill| {
        let (rank, contra) = (fill.rank.letter(), contra_number(fill.contra));
        found.insert((fill.order, fill.price, rank, contra))
    };
    fault_if(!records.iter().all(&mut is_new), Fault::Twice)
}

fn check_rise(earlier: Place, later: Place) -> Result<(), Fault> {
    let price = earlier.0.cmp(&later.0);
    let rank = earlier.1.cmp(&later.1);
    let arrival = earlier.2.cmp(&later.2);
    match (price, rank, arrival) {
        (Greater, _, _) => Err(Fault::Prices),
        (Equal, Greater, _) => Err(Fault::Ranks),
        (Equal, Equal, Greater | Equal) => Err(Fault::Arrivals),
        _ => Ok(()),
    }
}

// Tapes.

/// Runs a tape, which passes; `None` if it does not open. Accepted messages are numbered here.
fn check_tape(name: &str, bytes: &[u8]) -> Option<Seen> {
    let tape = Tape::read(bytes).ok()?;
    let messages: Vec<Message> = tape.messages().collect();
    let mut next = tape.header.settings.first_number;
    let mut checker = Checker::default();
    let run = run_tape(bytes, |position, outcome, records| {
        let accepted = !matches!(outcome, Outcome::Refused { .. });
        let number = accepted.then_some(next);
        next += u64::from(accepted);
        let result = checker.take(&messages[position - 1], number, records);
        assert_eq!(result, Ok(()), "{name}, message {position}: {records:?}");
    });
    run.ok().map(|_| checker.seen)
}

impl Seen {
    fn add(&mut self, other: &Seen) {
        self.records += other.records;
        self.ids_fall += other.ids_fall;
        self.units_rise += other.units_rise;
        self.modified_behind += other.modified_behind;
    }
}

#[test]
fn records_of_random_tapes_stand_by_price_rank_and_arrival() {
    let (mut tapes, mut opened) = (0, 0);
    let mut seen = Seen::default();
    for profile in &PROFILES {
        for seed in 3_000..3_030 {
            let name = format!("{} {seed}", profile.name);
            tapes += 1;
            if let Some(more) = check_tape(&name, &profile.tape(seed)) {
                opened += 1;
                seen.add(&more);
            }
        }
    }
    println!("{tapes} tapes, {opened} opened: {seen:?}");
    assert!(seen.ids_fall > 0);
    assert!(seen.units_rise > 0);
    assert!(seen.modified_behind > 0);
}

/// Responses 23, 24 and 22 stand in this sequence until 23 is modified.
#[test]
fn a_modified_response_stands_last() {
    let messages = all(&[
        &market(),
        &[
            buy(1, 6, 100).wish(),
            sell(23, 2, 100).response(),
            sell(24, 1, 100).response(),
            sell(22, 4, 100).response(),
            sell(23, 3, 100).modify(),
            clock(500),
        ],
    ]);
    // 6 over 1, 4 and 3: the leftover unit goes to 24.
    spread().prints(
        &messages,
        &[
            "8 1 C 24 100 1",
            "8 1 C 22 100 3",
            "8 1 C 23 100 2",
            "average 1 100 0",
            "open 0 answers 0",
        ],
    );
    let seen = Seen {
        records: 3,
        ids_fall: 1,
        units_rise: 1,
        modified_behind: 1,
    };
    let tape = spread().tape(&messages);
    assert_eq!(check_tape("by hand", &tape), Some(seen));
}

// The checker itself, on lists made by hand.

/// The number of the message that the lists answer.
const LAST: u64 = 20;

fn fill(order: u32, rank: Rank, contra: u32, price: Cents, units: u32) -> Fill {
    Fill {
        number: LAST,
        order,
        rank,
        contra: match contra {
            0 => Contra::Legs,
            id => Contra::Entry(id),
        },
        price,
        units,
        leg_prices: None,
    }
}

/// A checker that took these accepted messages, numbered from 1.
fn after(messages: &[Record]) -> Checker {
    let mut checker = Checker::default();
    for (number, record) in (1..).zip(messages) {
        let message = record.message().expect("a kind");
        assert_eq!(checker.take(&message, Some(number), &[]), Ok(()));
    }
    checker
}

/// What the checker says of a list that answers the last message.
fn judge(mut checker: Checker, records: &[Fill]) -> Result<(), Fault> {
    let message = clock(0).message().expect("a kind");
    checker.take(&message, Some(LAST), records)
}

/// Buyer 1 and seller 2, and what they meet, with ids that do not rise.
fn buyer_and_seller() -> Checker {
    after(&[
        buy(9, 5, 98),
        buy(8, 5, 98),
        buy(1, 30, 101),
        sell(7, 5, 100).response(),
        sell(6, 5, 100).response(),
        sell(5, 5, 100).non_customer().response(),
        sell(4, 5, 101).response(),
        sell(2, 20, 97),
    ])
}

fn good_list() -> [Fill; 9] {
    [
        fill(1, Rank::L, 0, 99, 2),
        fill(1, Rank::C, 7, 100, 1),
        fill(1, Rank::C, 6, 100, 5),
        fill(1, Rank::N, 5, 100, 5),
        fill(1, Rank::T, 0, 100, 1),
        fill(1, Rank::C, 4, 101, 5),
        fill(2, Rank::R, 9, 98, 5),
        fill(2, Rank::R, 8, 98, 5),
        fill(2, Rank::L, 0, 97, 3),
    ]
}

#[test]
fn a_good_list_passes() {
    assert_eq!(judge(buyer_and_seller(), &good_list()), Ok(()));
    assert_eq!(judge(buyer_and_seller(), &[]), Ok(()));
}

#[test]
fn two_records_exchanged_are_refused() {
    let exchanges = [
        // One rank.
        (1, 2, Fault::Arrivals),
        (6, 7, Fault::Arrivals),
        // Two ranks of one price.
        (2, 3, Fault::Ranks),
        (3, 4, Fault::Ranks),
        (1, 4, Fault::Ranks),
        // Two prices, of the buyer and of the seller.
        (0, 1, Fault::Prices),
        (4, 5, Fault::Prices),
        (7, 8, Fault::Prices),
    ];
    for (one, other, fault) in exchanges {
        let mut records = good_list();
        records.swap(one, other);
        assert_eq!(judge(buyer_and_seller(), &records), Err(fault));
    }
}

#[test]
fn a_modified_response_at_its_old_place_is_refused() {
    let given = [
        buy(1, 6, 100),
        sell(23, 2, 100).response(),
        sell(24, 1, 100).response(),
        sell(22, 4, 100).response(),
    ];
    let modified = all(&[&given, &[sell(23, 3, 100).modify()]]);
    let list = |ids: [u32; 3]| ids.map(|id| fill(1, Rank::C, id, 100, 1));
    let (old, new) = (list([23, 24, 22]), list([24, 22, 23]));
    assert_eq!(judge(after(&given), &old), Ok(()));
    assert_eq!(judge(after(&given), &new), Err(Fault::Arrivals));
    assert_eq!(judge(after(&modified), &old), Err(Fault::Arrivals));
    assert_eq!(judge(after(&modified), &new), Ok(()));
}

/// A modification that is refused moves nothing, and an id given again has its new number.
#[test]
fn the_last_accepted_message_of_an_id_counts() {
    let given = [
        buy(1, 6, 100),
        sell(3, 2, 100).response(),
        sell(2, 2, 100).response(),
    ];
    let list = |ids: [u32; 2]| ids.map(|id| fill(1, Rank::C, id, 100, 1));
    let mut checker = after(&given);
    let modify = sell(3, 3, 100).modify().message().expect("a kind");
    assert_eq!(checker.take(&modify, None, &[]), Ok(()));
    assert_eq!(judge(checker, &list([3, 2])), Ok(()));
    let again = all(&[&given, &[sell(3, 2, 100)]]);
    assert_eq!(judge(after(&again), &list([3, 2])), Err(Fault::Arrivals));
    assert_eq!(judge(after(&again), &list([2, 3])), Ok(()));
}

#[test]
fn the_legs_share_no_price_and_rank() {
    let lists = [
        [fill(1, Rank::C, 0, 100, 1), fill(1, Rank::C, 7, 100, 1)],
        [fill(1, Rank::C, 7, 100, 1), fill(1, Rank::C, 0, 100, 1)],
        [fill(1, Rank::L, 0, 100, 1), fill(1, Rank::L, 7, 100, 1)],
        [fill(1, Rank::C, 6, 100, 1), fill(1, Rank::T, 7, 100, 1)],
    ];
    for records in lists {
        assert_eq!(judge(buyer_and_seller(), &records), Err(Fault::Legs));
    }
}

/// Also where another order's records stand between.
#[test]
fn a_contra_twice_at_one_price_and_rank_is_refused() {
    let between = fill(2, Rank::R, 9, 98, 5);
    for again in [fill(1, Rank::L, 0, 99, 2), fill(1, Rank::C, 7, 100, 1)] {
        let lists = [vec![again, again], vec![again, between, again]];
        for records in lists {
            assert_eq!(judge(buyer_and_seller(), &records), Err(Fault::Twice));
        }
    }
}

#[test]
fn strange_numbers_and_ids_are_refused() {
    let good = fill(1, Rank::C, 7, 100, 1);
    let number = Fill { number: 19, ..good };
    assert_eq!(judge(buyer_and_seller(), &[number]), Err(Fault::Number));
    // No entry has the id 77, and 7 is no order.
    for unknown in [fill(1, Rank::C, 77, 100, 1), fill(7, Rank::C, 6, 100, 1)] {
        assert_eq!(judge(buyer_and_seller(), &[unknown]), Err(Fault::Unknown));
    }
    let message = clock(0).message().expect("a kind");
    let refused = buyer_and_seller().take(&message, None, &[good]);
    assert_eq!(refused, Err(Fault::Number));
}
