//! M-103: "Where the derived price at the end equals the one at the start, only the smallest number
//! of units it has shown since the start is rank L, and the remaining units are T."
//!
//! The checker here is told the legs, the messages, their outcomes and their records. It keeps the
//! quotes and what the starting price has shown by itself and asks the engine for nothing.

mod common;

use common::*;
use second::engine::{Cause, Outcome};
use second::execution::{Contra, Fill, FillList, Mode, Rank, Start, Turn, Watch};
use second::explain::explain;
use second::gen::PROFILES;
use second::market::{LocalSide, Quote};
use second::message::{Message, Request};
use second::print::run_tape;
use second::strategy::{Cents, Leg, Side};
use second::tape::{Record, Tape};
use std::cmp::Ordering::{self, Equal, Greater, Less};
use std::collections::{HashMap, HashSet};

// Each sentence. The market shows 10 units: the derived ask is 130, the derived bid 95.

/// A buyer of 30 at 135 begins at the derived ask of 130, the messages come, then 3 of a customer
/// and 2 of another at 130, and the deadline.
fn auction(messages: &[Record]) -> Vec<Record> {
    let others = [
        sell(2, 3, 130).response(),
        sell(3, 2, 130).response().non_customer(),
        clock(500),
    ];
    all(&[&market(), &[buy(1, 30, 135).wish()], messages, &others])
}

fn records_after(messages: &[Record]) -> String {
    last_records(&spread(), &auction(messages))
}

/// The derived ask shows so many units: in the asks of leg 0 and the bids of leg 1.
fn ask_shows(units: u32) -> [Record; 2] {
    [local(0, 220, 10, 240, units), local(1, 110, units, 125, 10)]
}

#[test]
fn what_was_there_throughout_is_l() {
    let all_l = "1 L 130 10, 1 C 130 3, 1 N 130 2";
    assert_eq!(records_after(&[]), all_l);
    assert_eq!(records_after(&market()), all_l);
    // The other sides of the legs do not matter.
    let other_sides = [local(0, 200, 1, 240, 10), local(1, 110, 10, 0, 0)];
    assert_eq!(records_after(&other_sides), all_l);
    // Nor do national quotes.
    assert_eq!(records_after(&[national(0, 1, 2)]), all_l);
}

/// The start is counted: it showed 10.
#[test]
fn size_added_during_the_auction_is_t() {
    spread().prints(
        &auction(&ask_shows(14)),
        &[
            "8 1 L 0 130 10",
            "8 1 C 2 130 3",
            "8 1 N 3 130 2",
            "8 1 T 0 130 4",
            "average 1 130 0",
            "open 1 answers 0",
        ],
    );
    // Contracts of one leg alone add no unit.
    let one_leg = &ask_shows(14)[..1];
    assert_eq!(records_after(one_leg), "1 L 130 10, 1 C 130 3, 1 N 130 2");
}

#[test]
fn size_that_fell_and_came_back_is_t() {
    let fell = local(0, 220, 10, 240, 4);
    let back = market()[0];
    assert_eq!(records_after(&[fell]), "1 L 130 4, 1 C 130 3, 1 N 130 2");
    assert_eq!(
        records_after(&[fell, back]),
        "1 L 130 4, 1 C 130 3, 1 N 130 2, 1 T 130 6"
    );
    // The least of all counts, whichever leg showed it and when.
    let other_leg = [local(1, 110, 3, 125, 10), market()[1]];
    let three = "1 L 130 3, 1 C 130 3, 1 N 130 2, 1 T 130 7";
    assert_eq!(records_after(&all(&[&[fell, back], &other_leg])), three);
    assert_eq!(records_after(&all(&[&other_leg, &[fell, back]])), three);
    let up_and_down = all(&[&ask_shows(14), &ask_shows(6), &ask_shows(8), &ask_shows(7)]);
    assert_eq!(
        records_after(&up_and_down),
        "1 L 130 6, 1 C 130 3, 1 N 130 2, 1 T 130 1"
    );
}

/// "If the price moved away and came back, that number is 0": also where it was gone for a while.
#[test]
fn a_price_that_moved_away_and_came_back_is_t() {
    let back = market()[0];
    let worse = local(0, 220, 10, 241, 10);
    let better = local(0, 220, 10, 239, 10);
    let absent = local(0, 220, 10, 0, 0);
    for away in [worse, better, absent] {
        assert_eq!(
            records_after(&[away, back]),
            "1 C 130 3, 1 N 130 2, 1 T 130 10"
        );
        // It stays 0, whatever is shown later.
        let later = all(&[&[away, back], &ask_shows(14), &ask_shows(6)]);
        assert_eq!(records_after(&later), "1 C 130 3, 1 N 130 2, 1 T 130 6");
    }
    // Back at the same net price with other prices of the legs.
    let other_prices = [worse, local(1, 111, 10, 125, 10)];
    assert_eq!(
        records_after(&other_prices),
        "1 C 130 3, 1 N 130 2, 1 T 130 10"
    );
}

/// "Better and worse prices rank as before": better all T, worse all L, with more units or fewer.
#[test]
fn better_is_all_t_and_worse_is_all_l() {
    for (size, units) in [(4, 4), (10, 10), (14, 10)] {
        let better = local(0, 220, 10, 239, size);
        assert_eq!(
            records_after(&[better]),
            format!("1 T 129 {units}, 1 C 130 3, 1 N 130 2")
        );
        let worse = local(0, 220, 10, 241, size);
        assert_eq!(
            records_after(&[worse]),
            format!("1 C 130 3, 1 N 130 2, 1 L 131 {units}")
        );
    }
    // Worse after all was added, taken away and restored.
    let worse = [local(0, 220, 10, 241, 14), local(1, 110, 14, 125, 10)];
    let long_way = all(&[&ask_shows(14), &ask_shows(2), &ask_shows(10), &worse]);
    assert_eq!(records_after(&long_way), "1 C 130 3, 1 N 130 2, 1 L 131 14");
    // At a worse price the legs are in front of the entries there.
    let at_131 = all(&[&worse, &[sell(4, 5, 131).response()]]);
    assert_eq!(
        records_after(&at_131),
        "1 C 130 3, 1 N 130 2, 1 L 131 14, 1 C 131 5"
    );
}

/// Without a derived price at the start there is nothing that L could be.
#[test]
fn none_at_the_start_is_all_t() {
    let begin = [market()[0], sell(9, 1, 140), buy(1, 30, 135).wish()];
    let others = [
        sell(2, 3, 130).response(),
        sell(3, 2, 130).response().non_customer(),
        clock(500),
    ];
    let with = |quotes: &[Record]| last_records(&spread(), &all(&[&begin, quotes, &others]));
    let all_t = "1 C 130 3, 1 N 130 2, 1 T 130 10";
    assert_eq!(with(&[market()[1]]), all_t);
    assert_eq!(with(&[market()[1], market()[1]]), all_t);
    let fell = [market()[1], local(1, 110, 4, 125, 10)];
    assert_eq!(with(&fell), "1 C 130 3, 1 N 130 2, 1 T 130 4");
}

/// "What one queue order takes from rank L is gone for the next."
#[test]
fn queue_orders_take_from_rank_l_one_after_the_other() {
    let with = |units: [u32; 3], quotes: &[Record]| {
        let queue = [
            buy(1, units[0], 135).wish(),
            buy(2, units[1], 133).wish(),
            buy(3, units[2], 134).wish(),
        ];
        let others = [sell(4, 3, 130).response(), clock(500)];
        let messages = all(&[&market(), &queue, quotes, &others]);
        last_records(&spread(), &messages)
    };
    // 10 of 16 units are L. By price order 3 goes before order 2.
    assert_eq!(
        with([6, 5, 8], &ask_shows(16)),
        "1 L 130 6, 3 L 130 4, 3 C 130 3, 3 T 130 1, 2 T 130 5"
    );
    // The first takes all of them.
    assert_eq!(
        with([10, 1, 5], &ask_shows(16)),
        "1 L 130 10, 3 C 130 3, 3 T 130 2, 2 T 130 1"
    );
    assert_eq!(
        with([14, 1, 3], &ask_shows(16)),
        "1 L 130 10, 1 C 130 3, 1 T 130 1, 3 T 130 3, 2 T 130 1"
    );
    // Some are left for the last.
    assert_eq!(
        with([1, 3, 2], &ask_shows(16)),
        "1 L 130 1, 3 L 130 2, 2 L 130 3"
    );
    // Without added size what is gone for the next is gone from the legs too.
    assert_eq!(with([6, 5, 8], &[]), "1 L 130 6, 3 L 130 4, 3 C 130 3");
}

/// A seller meets the derived bid, of the bids of leg 0 and the asks of leg 1.
#[test]
fn sellers_have_it_the_other_way_round() {
    let with = |quotes: &[Record]| {
        let begin = all(&[&market(), &[sell(1, 30, 90).wish()]]);
        let others = [
            buy(2, 3, 95).response(),
            buy(3, 2, 95).response().non_customer(),
            clock(500),
        ];
        last_records(&spread(), &all(&[&begin, quotes, &others]))
    };
    let bid_shows = |units: u32| [local(0, 220, units, 240, 10), local(1, 110, 10, 125, units)];
    assert_eq!(with(&ask_shows(4)), "1 L 95 10, 1 C 95 3, 1 N 95 2");
    assert_eq!(
        with(&bid_shows(14)),
        "1 L 95 10, 1 C 95 3, 1 N 95 2, 1 T 95 4"
    );
    assert_eq!(
        with(&all(&[&bid_shows(4), &bid_shows(10)])),
        "1 L 95 4, 1 C 95 3, 1 N 95 2, 1 T 95 6"
    );
    let [lower, higher] = [219, 221].map(|bid| local(0, bid, 10, 240, 10));
    for away in [lower, higher] {
        assert_eq!(with(&[away, market()[0]]), "1 C 95 3, 1 N 95 2, 1 T 95 10");
    }
    assert_eq!(with(&[higher]), "1 T 96 10, 1 C 95 3, 1 N 95 2");
    assert_eq!(with(&[lower]), "1 C 95 3, 1 N 95 2, 1 L 94 10");
}

/// "Its units are the least of size divided by ratio, rounded down."
#[test]
fn units_count_and_not_contracts() {
    let session = spread().legs(&[
        leg("XYZ   260116C00020000", 'B', 2, 5),
        leg("XYZ   260116C00025000", 'S', 3, 5),
    ]);
    // Four units at 2 × 240 - 3 × 110.
    let quotes = |asks: u32, bids: u32| [local(0, 220, 9, 240, asks), local(1, 110, bids, 125, 9)];
    let with = |changes: &[Record]| {
        let begin = all(&[&quotes(9, 14), &[buy(1, 30, 155).wish()]]);
        let others = [sell(2, 3, 150).response(), clock(500)];
        last_records(&session, &all(&[&begin, changes, &others]))
    };
    let back = quotes(9, 14);
    // Four units still, of the fewest contracts.
    assert_eq!(with(&all(&[&quotes(8, 12), &back])), "1 L 150 4, 1 C 150 3");
    assert_eq!(
        with(&all(&[&quotes(7, 12), &back])),
        "1 L 150 3, 1 C 150 3, 1 T 150 1"
    );
    assert_eq!(
        with(&all(&[&quotes(8, 8), &back])),
        "1 L 150 2, 1 C 150 3, 1 T 150 2"
    );
    // One contract is no unit of ratio 2: the price was gone.
    assert_eq!(with(&all(&[&quotes(1, 12), &back])), "1 C 150 3, 1 T 150 4");
    assert_eq!(with(&quotes(13, 18)), "1 L 150 4, 1 C 150 3, 1 T 150 2");
}

/// Held orders execute outside the auction: legs are L for them, whenever they came.
#[test]
fn outside_an_auction_legs_are_l() {
    let ender = buy(2, 9, 136);
    let begin = all(&[&market(), &[buy(1, 12, 135).wish()], &ask_shows(16)]);
    assert_eq!(
        last_records(&spread(), &all(&[&begin, &[ender]])),
        "1 L 130 10, 1 T 130 2, 2 L 130 4"
    );
}

#[test]
fn the_next_auction_starts_anew() {
    let first = all(&[
        &market(),
        &[buy(1, 3, 135).wish()],
        &[local(0, 220, 10, 239, 10), market()[0]],
        &[clock(500)],
    ]);
    assert_eq!(last_records(&spread(), &first), "1 T 130 3");
    let second = all(&[&first, &[buy(2, 30, 135).wish().at(500), clock(1_000)]]);
    assert_eq!(last_records(&spread(), &second), "2 L 130 7");
}

/// A refused quote shows nothing.
#[test]
fn a_refused_quote_does_not_count() {
    let mut messages = auction(&[local(0, 220, 10, 240, 4).at(9)]);
    let refused_one = messages.len() - 4;
    messages[refused_one].price = 240;
    let mut outcomes = Vec::new();
    let run = run_tape(&spread().tape(&messages), |_, outcome, fills| {
        outcomes.push(*outcome);
        if let Some(legs) = fills.iter().find(|fill| fill.contra == Contra::Legs) {
            assert_eq!((legs.rank, legs.units), (Rank::L, 10));
        }
    });
    assert!(run.is_ok());
    assert_eq!(outcomes[refused_one], refused(22));
    assert_eq!(outcomes.last().map(Outcome::fill_count), Some(3));
}

/// What queue orders find of the starting price.
#[derive(Default)]
struct Starts {
    found: Vec<(u32, Option<Start>)>,
}

impl Watch for Starts {
    fn turn_begins(&mut self, turn: &Turn) {
        if let Mode::Queue { start } = *turn.mode {
            self.found.push((turn.order().id, start));
        }
    }
}

fn starts_found(messages: &[Record]) -> Vec<(u32, Option<Start>)> {
    let mut engine = spread().engine();
    let mut fills = vec![Fill::BLANK; FillList::LEAST_PLACES];
    let mut starts = Starts::default();
    for record in messages {
        let message = record.message().expect("a kind");
        engine.apply_watched(&message, &mut fills, &mut starts);
    }
    starts.found
}

/// The quote that ends the auction is counted. No tape shows it: where the own side is better than
/// the initiator's limit, the legs are beyond the limit.
#[test]
fn the_quote_that_ends_the_auction_counts() {
    let with = |quotes: &[Record]| {
        let begin = all(&[&market(), &[buy(1, 30, 100).wish()]]);
        starts_found(&all(&[&begin, quotes]))
    };
    let start = |units: u32| Some(Start { price: 130, units });
    // The derived bid comes to 101, and the derived ask shows 4 units at 130, or 14, or moves.
    let ending = |ask: Cents, size: u32| local(0, 226, 10, ask, size);
    assert_eq!(with(&[ending(240, 10)]), [(1, start(10))]);
    assert_eq!(with(&[ending(240, 4)]), [(1, start(4))]);
    assert_eq!(with(&[ending(240, 14)]), [(1, start(10))]);
    assert_eq!(with(&[ending(241, 10)]), [(1, start(0))]);
    let fell = local(0, 220, 10, 240, 3);
    assert_eq!(with(&[fell, ending(240, 10)]), [(1, start(3))]);
}

#[test]
fn each_queue_order_finds_what_the_one_before_left_of_rank_l() {
    let queue = [buy(1, 6, 135).wish(), buy(2, 3, 134).wish()];
    let messages = all(&[&market(), &queue, &[buy(3, 9, 133).wish(), clock(500)]]);
    let start = |units: u32| Some(Start { price: 130, units });
    assert_eq!(
        starts_found(&messages),
        [(1, start(10)), (2, start(4)), (3, start(1))]
    );
}

// What `explain` says.

#[test]
fn explain_says_how_many_units_are_l() {
    let fell = local(0, 220, 10, 240, 4);
    let messages = all(&[
        &market(),
        &[buy(1, 2, 135).wish(), buy(2, 7, 135).wish()],
        &[fell, market()[0], clock(500)],
    ]);
    let text = explain(&spread().tape(&messages));
    let says = |wanted: &str| {
        text.lines()
            .filter(|line| line.trim_start() == wanted)
            .count()
    };
    let begun = "number 3: begins an auction, deadline 500, derived contra price 130 for 10 units";
    assert_eq!(says(begun), 1, "{text}");
    let least = "starting price 130: the least units shown since the start are 4";
    assert_eq!(says(least), 2, "{text}");
    assert_eq!(says("starting price 130: 4 units of it are rank L"), 1);
    assert_eq!(
        says("open: legs at 130, 10 units, 4 of rank L and 6 of rank T"),
        1
    );
    assert_eq!(says("starting price 130: 2 units of it are rank L"), 1);
    assert_eq!(
        says("open: legs at 130, 8 units, 2 of rank L and 6 of rank T"),
        1
    );
    let fill = "fill: 5 units at 130 with the legs, rank T, leg prices 240 110";
    assert_eq!(says(fill), 1);
    // Outside an auction there is no starting price.
    let outside = explain(&spread().tape(&all(&[&market(), &[buy(1, 1, 130)]])));
    assert!(outside.contains("open: legs at 130, 10 units, rank L\n"));
    assert!(!outside.contains("starting price"));
}

#[test]
fn explain_says_that_there_is_no_starting_price() {
    let begin = [market()[0], sell(9, 1, 140), buy(1, 3, 139).wish()];
    let messages = all(&[&begin, &[market()[1], clock(500)]]);
    let text = explain(&spread().tape(&messages));
    assert!(text.contains("derived contra price none\n"));
    assert!(text.contains("\n  no starting price\n"));
    assert!(text.contains("\n    no starting price: legs are rank T\n"));
    assert!(text.contains("open: legs at 130, 10 units, rank T\n"));
}

// The checker.

/// What is wrong with a list of records.
#[derive(PartialEq, Eq, Debug)]
enum Fault {
    /// The legs do not stand at that price, or have not so many units.
    Legs,
    /// Rank L of late units.
    Late,
    /// Rank T with units of rank L left.
    Early,
    /// An entry in front of rank L at one price.
    Front,
}

fn fault_if(condition: bool, fault: Fault) -> Result<(), Fault> {
    if condition {
        Err(fault)
    } else {
        Ok(())
    }
}

/// The records of queue orders with the legs.
#[derive(Default, PartialEq, Eq, Debug)]
struct Seen {
    /// At the starting price.
    early: u64,
    late: u64,
    /// L and T of one order.
    both: u64,
    /// L of an order behind another that took some.
    from_the_rest: u64,
    /// At another price.
    better: u64,
    worse: u64,
    /// Without a starting price.
    none: u64,
}

impl Seen {
    fn add(&mut self, other: &Seen) {
        self.early += other.early;
        self.late += other.late;
        self.both += other.both;
        self.from_the_rest += other.from_the_rest;
        self.better += other.better;
        self.worse += other.worse;
        self.none += other.none;
    }
}

struct Auction {
    side: Side,
    queue: HashSet<u32>,
    starting_price: Option<Cents>,
    /// The units that the starting price has shown, a number for each reading.
    shown: Vec<u32>,
}

impl Auction {
    /// How a price stands to the starting one: less is better for the queue.
    fn against_start(&self, price: Cents) -> Option<Ordering> {
        let start = self.starting_price?;
        Some(match self.side {
            Side::Buy => price.cmp(&start),
            Side::Sell => start.cmp(&price),
        })
    }
}

struct Checker {
    legs: Vec<(Side, u32)>,
    quotes: Vec<Quote<LocalSide>>,
    sides: HashMap<u32, Side>,
    auction: Option<Auction>,
    seen: Seen,
}

impl Checker {
    /// `None` if a leg has no side.
    fn new(legs: &[Leg]) -> Option<Checker> {
        let side_and_ratio = |leg: &Leg| Some((Side::of_letter(leg.side)?, leg.ratio.into()));
        Some(Checker {
            legs: legs.iter().map(side_and_ratio).collect::<Option<_>>()?,
            quotes: vec![Quote::default(); legs.len()],
            sides: HashMap::new(),
            auction: None,
            seen: Seen::default(),
        })
    }

    /// The sides of the legs that an order meets, each with its leg's side and ratio.
    fn used(&mut self, order: Side) -> impl Iterator<Item = (Side, u32, &mut LocalSide)> {
        let legs = self.legs.iter().zip(&mut self.quotes);
        legs.map(move |(&(side, ratio), quote)| {
            let used = if side == order {
                &mut quote.ask
            } else {
                &mut quote.bid
            };
            (side, ratio, used)
        })
    }

    /// The units that the legs have for an order at a price.
    fn units_at(&mut self, order: Side, price: Cents) -> u32 {
        let derived = self.derived(order).filter(|&(net, _)| net == price);
        derived.map_or(0, |(_, units)| units)
    }

    fn derived(&mut self, order: Side) -> Option<(Cents, u32)> {
        let (mut net, mut least) = (0, u32::MAX);
        for (side, ratio, used) in self.used(order) {
            let cents = ratio as Cents * used.price;
            net += if side == Side::Buy { cents } else { -cents };
            least = least.min(used.size / ratio);
        }
        (least > 0).then_some((net, least))
    }

    /// Takes an accepted message, its outcome and its records.
    fn take(
        &mut self,
        message: &Message,
        outcome: &Outcome,
        records: &[Fill],
    ) -> Result<(), Fault> {
        match &message.request {
            Request::Local { leg, quote } => self.quotes[usize::from(*leg)] = *quote,
            Request::Order { terms, .. } => self.place(terms.id, terms.side, outcome),
            Request::Cancel { id, .. } => self.pull(*id),
            _ => {}
        }
        self.read();
        match outcome {
            Outcome::Ended { .. } => {
                let auction = self.auction.take().expect("one is pending");
                self.check_end(&auction, records)?;
                self.count(&auction, records);
                Ok(())
            }
            _ => records.iter().try_for_each(|fill| self.check_outside(fill)),
        }
    }

    /// Keeps an order's side, and the queue it is in.
    fn place(&mut self, id: u32, letter: u8, outcome: &Outcome) {
        let side = Side::of_letter(letter).expect("a side");
        self.sides.insert(id, side);
        match (outcome, &mut self.auction) {
            (Outcome::Begun { .. }, None) => {
                self.auction = Some(Auction {
                    side,
                    queue: HashSet::from([id]),
                    starting_price: self.derived(side).map(|(price, _)| price),
                    shown: Vec::new(),
                });
            }
            (Outcome::Joined { .. }, Some(auction)) => {
                auction.queue.insert(id);
            }
            _ => {}
        }
    }

    /// A cancelled order is in no queue.
    fn pull(&mut self, id: u32) {
        if let Some(auction) = &mut self.auction {
            auction.queue.remove(&id);
        }
    }

    /// Reads what the starting price shows.
    fn read(&mut self) {
        if let Some(mut auction) = self.auction.take() {
            let start = auction.starting_price;
            let units = start.map_or(0, |price| self.units_at(auction.side, price));
            auction.shown.push(units);
            self.auction = Some(auction);
        }
    }

    fn check_end(&mut self, auction: &Auction, records: &[Fill]) -> Result<(), Fault> {
        let mut left = auction.shown.iter().copied().min().expect("the start");
        for fill in records {
            if auction.queue.contains(&fill.order) {
                self.check_queue(auction, &mut left, fill)?;
            } else {
                self.check_outside(fill)?;
            }
        }
        Ok(())
    }

    /// A record of a queue order, with so many units of rank L left at the starting price.
    fn check_queue(&mut self, auction: &Auction, left: &mut u32, fill: &Fill) -> Result<(), Fault> {
        let units = self.units_at(auction.side, fill.price);
        let against = auction.against_start(fill.price);
        let early = match against {
            None | Some(Less) => 0,
            Some(Equal) => units.min(*left),
            Some(Greater) => units,
        };
        match fill.rank {
            Rank::L => fault_if(fill.units > early, Fault::Late)?,
            Rank::T => fault_if(early > 0, Fault::Early)?,
            _ => fault_if(early > 0, Fault::Front)?,
        }
        if fill.rank == Rank::L && against == Some(Equal) {
            *left -= fill.units;
        }
        self.lower(auction.side, fill)
    }

    /// Outside an auction all the legs' units are L.
    fn check_outside(&mut self, fill: &Fill) -> Result<(), Fault> {
        let side = self.sides[&fill.order];
        let units = self.units_at(side, fill.price);
        fault_if(fill.rank == Rank::T, Fault::Early)?;
        fault_if(fill.rank == Rank::R && units > 0, Fault::Front)?;
        self.lower(side, fill)
    }

    /// Takes a record's contracts off the legs.
    fn lower(&mut self, side: Side, fill: &Fill) -> Result<(), Fault> {
        if fill.contra != Contra::Legs {
            return Ok(());
        }
        fault_if(fill.units > self.units_at(side, fill.price), Fault::Legs)?;
        for (_, ratio, used) in self.used(side) {
            used.size -= ratio * fill.units;
        }
        Ok(())
    }

    /// Counts what stands in a list that passed.
    fn count(&mut self, auction: &Auction, records: &[Fill]) {
        let in_queue = |fill: &&Fill| auction.queue.contains(&fill.order);
        let with_legs = records.iter().filter(|fill| fill.contra == Contra::Legs);
        let legs: Vec<&Fill> = with_legs.filter(in_queue).collect();
        for (at, fill) in legs.iter().enumerate() {
            let l_before = |own: bool| {
                let before = legs[..at].iter().filter(|f| f.rank == Rank::L);
                before.filter(|f| (f.order == fill.order) == own).count() > 0
            };
            let seen = &mut self.seen;
            match (auction.against_start(fill.price), fill.rank) {
                (None, _) => seen.none += 1,
                (Some(Less), _) => seen.better += 1,
                (Some(Greater), _) => seen.worse += 1,
                (Some(Equal), Rank::L) => {
                    seen.early += 1;
                    seen.from_the_rest += u64::from(l_before(false));
                }
                (Some(Equal), _) => {
                    seen.late += 1;
                    seen.both += u64::from(l_before(true));
                }
            }
        }
    }
}

// Tapes.

/// Runs a tape, which passes; `None` if it does not open.
fn check_tape(name: &str, bytes: &[u8]) -> Option<Seen> {
    let tape = Tape::read(bytes).ok()?;
    let messages: Vec<Message> = tape.messages().collect();
    let legs: Vec<Leg> = tape.legs().collect();
    let mut checker = Checker::new(&legs)?;
    let run = run_tape(bytes, |position, outcome, records| {
        if !matches!(outcome, Outcome::Refused { .. }) {
            let result = checker.take(&messages[position - 1], outcome, records);
            assert_eq!(result, Ok(()), "{name}, message {position}: {records:?}");
        }
    });
    run.ok().map(|_| checker.seen)
}

#[test]
fn legs_of_random_tapes_have_the_ranks_that_they_have_shown() {
    let mut seen = Seen::default();
    let mut opened = 0;
    for profile in &PROFILES {
        for seed in 4_000..4_030 {
            let name = format!("{} {seed}", profile.name);
            if let Some(more) = check_tape(&name, &profile.tape(seed)) {
                opened += 1;
                seen.add(&more);
            }
        }
    }
    println!("{opened} opened: {seen:?}");
    let Seen {
        early,
        late,
        both,
        from_the_rest,
        better,
        worse,
        none,
    } = seen;
    for times in [early, late, both, from_the_rest, better, worse, none] {
        assert!(times >= 20, "{seen:?}");
    }
}

#[test]
fn the_checker_counts_a_tape_by_hand() {
    let queue = [buy(1, 6, 135).wish(), buy(2, 8, 135).wish()];
    let messages = all(&[&market(), &queue, &ask_shows(16), &[clock(500)]]);
    let seen = Seen {
        early: 2,
        late: 1,
        both: 1,
        from_the_rest: 1,
        ..Seen::default()
    };
    assert_eq!(check_tape("by hand", &spread().tape(&messages)), Some(seen));
}

// The checker itself, on lists made by hand.

const NOTED: Outcome = Outcome::Noted { fills: 0 };

/// A checker that knows of an auction of buyers 1 and 2, at 130 for 10 units unless the quotes
/// before it say otherwise, of the quotes after it, and of order 5, held.
fn before_the_end(before: &[Record], after: &[Record]) -> Checker {
    let mut checker = Checker::new(&spread().legs).expect("sides");
    let mut take = |record: &Record, outcome: Outcome| {
        let message = record.message().expect("a kind");
        assert_eq!(checker.take(&message, &outcome, &[]), Ok(()));
    };
    for quote in all(&[&market(), before]) {
        take(&quote, NOTED);
    }
    take(&buy(1, 30, 135), Outcome::Begun { deadline: 500 });
    take(&buy(2, 30, 135), Outcome::Joined { queue_units: 60 });
    take(
        &buy(5, 30, 134),
        Outcome::Placed {
            units: 30,
            fills: 0,
        },
    );
    for quote in after {
        take(quote, NOTED);
    }
    checker
}

fn fill(order: u32, rank: Rank, price: Cents, units: u32) -> Fill {
    let contra = match rank {
        Rank::L | Rank::T => Contra::Legs,
        Rank::C | Rank::N | Rank::R => Contra::Entry(77),
    };
    Fill {
        number: 20,
        order,
        rank,
        contra,
        price,
        units,
        leg_prices: None,
    }
}

/// What the checker says of a list that answers the auction's end.
fn judge(mut checker: Checker, records: &[Fill]) -> Result<(), Fault> {
    let ended = Outcome::Ended {
        cause: Cause::Time,
        fills: records.len(),
    };
    let message = clock(500).message().expect("a kind");
    checker.take(&message, &ended, records)
}

/// 10 of 16 units are L.
#[test]
fn wrong_ranks_at_the_starting_price_are_refused() {
    let says = |records: &[Fill]| judge(before_the_end(&[], &ask_shows(16)), records);
    let (l, t) = (Rank::L, Rank::T);
    let good = [
        fill(1, l, 130, 6),
        fill(2, l, 130, 4),
        fill(2, Rank::C, 130, 3),
        fill(2, t, 130, 5),
        fill(5, l, 130, 1),
        fill(5, Rank::R, 130, 2),
    ];
    assert_eq!(says(&good), Ok(()));
    // More as L than was shown, at once or one order after the other.
    assert_eq!(says(&[fill(1, l, 130, 11)]), Err(Fault::Late));
    let again = [fill(1, l, 130, 6), fill(2, l, 130, 5)];
    assert_eq!(says(&again), Err(Fault::Late));
    // T, or an entry, with some of rank L left.
    assert_eq!(says(&[fill(1, t, 130, 1)]), Err(Fault::Early));
    let too_soon = [fill(1, l, 130, 9), fill(2, t, 130, 1)];
    assert_eq!(says(&too_soon), Err(Fault::Early));
    for rank in [Rank::C, Rank::N] {
        let in_front = [fill(1, l, 130, 9), fill(2, rank, 130, 1)];
        assert_eq!(says(&in_front), Err(Fault::Front));
    }
    // More than there is, and a price where nothing is.
    let too_many = [fill(1, l, 130, 10), fill(1, t, 130, 7)];
    assert_eq!(says(&too_many), Err(Fault::Legs));
    assert_eq!(says(&[fill(1, t, 129, 1)]), Err(Fault::Legs));
    // Order 5 is not in the queue.
    assert_eq!(says(&[fill(5, t, 130, 1)]), Err(Fault::Early));
    assert_eq!(says(&[fill(5, Rank::R, 130, 1)]), Err(Fault::Front));
}

/// A cancelled order is in no queue: with its id given again, order 2 is held, and its legs are L.
#[test]
fn a_cancelled_order_has_left_the_queue() {
    let again = || {
        let mut checker = before_the_end(&[], &ask_shows(16));
        let placed = Outcome::Placed {
            units: 30,
            fills: 0,
        };
        for (record, outcome) in [(cancel(2), NOTED), (buy(2, 30, 134), placed)] {
            let message = record.message().expect("a kind");
            assert_eq!(checker.take(&message, &outcome, &[]), Ok(()));
        }
        checker
    };
    assert_eq!(judge(again(), &[fill(2, Rank::L, 130, 16)]), Ok(()));
    let late = [fill(2, Rank::L, 130, 10), fill(2, Rank::T, 130, 6)];
    assert_eq!(judge(again(), &late), Err(Fault::Early));
    assert_eq!(judge(before_the_end(&[], &ask_shows(16)), &late), Ok(()));
}

#[test]
fn wrong_ranks_at_another_price_are_refused() {
    let at = |ask: Cents| local(0, 220, 10, ask, 10);
    let (l, t) = (Rank::L, Rank::T);
    let worse = |records: &[Fill]| judge(before_the_end(&[], &[at(241)]), records);
    assert_eq!(worse(&[fill(1, l, 131, 10)]), Ok(()));
    assert_eq!(worse(&[fill(1, t, 131, 1)]), Err(Fault::Early));
    assert_eq!(worse(&[fill(1, Rank::C, 131, 1)]), Err(Fault::Front));
    let better = |records: &[Fill]| judge(before_the_end(&[], &[at(239)]), records);
    assert_eq!(better(&[fill(1, t, 129, 10)]), Ok(()));
    assert_eq!(better(&[fill(1, l, 129, 1)]), Err(Fault::Late));
    assert_eq!(better(&[fill(1, Rank::C, 129, 1)]), Ok(()));
    // Away and back.
    let back = |records: &[Fill]| judge(before_the_end(&[], &[at(241), at(240)]), records);
    assert_eq!(back(&[fill(1, t, 130, 10)]), Ok(()));
    assert_eq!(back(&[fill(1, l, 130, 1)]), Err(Fault::Late));
    // None at the start.
    let absent = local(0, 220, 10, 0, 0);
    let none = |records: &[Fill]| judge(before_the_end(&[absent], &[at(240)]), records);
    assert_eq!(none(&[fill(1, t, 130, 10)]), Ok(()));
    assert_eq!(none(&[fill(1, l, 130, 1)]), Err(Fault::Late));
}
