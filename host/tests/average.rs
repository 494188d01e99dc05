//! The library's averages against the second program's, message by message, and against the rules again on lists of any numbers.

mod common;
mod tapes;

use second::average::average;
use second::execution;
use second::gen::random::Random;
use second::print::{contra_number, run_tape};
use second::strategy::Leg;
use second::tape::Tape;
use std::collections::BTreeSet;
use tumghavi::{Average, Engine, Fill, Opening, Outcome};

const BIAS: i128 = 40_000_000;

/// How many averages were compared, and how many of them say something of the rounding.
#[derive(Default, Debug)]
struct Tally {
    none: usize,
    exact: usize,
    below_zero: usize,
    with_remainder: usize,
}

impl Tally {
    fn add(&mut self, average: Average) {
        match average {
            Average::None => self.none += 1,
            Average::Exact { quotient, remainder } => {
                self.exact += 1;
                self.below_zero += usize::from(quotient < 0);
                self.with_remainder += usize::from(remainder > 0);
            }
        }
    }

    /// There are more of each than in another.
    fn is_above(&self, other: Tally) -> bool {
        self.none > other.none
            && self.exact > other.exact
            && self.below_zero > other.below_zero
            && self.with_remainder > other.with_remainder
    }
}

/// The average of a quotient and a remainder that must fit.
fn exact(quotient: i128, remainder: i128) -> Average {
    let quotient = quotient.try_into().expect("64 bits");
    Average::Exact { quotient, remainder: remainder.try_into().expect("64 bits") }
}

// ---- message by message

/// The second program's average.
fn expected(order: u32, fills: &[execution::Fill]) -> Average {
    average(order, fills).map_or(Average::None, |found| exact(found.quotient(), found.remainder()))
}

/// Every id that some fills have as order or as contra, and the least one that they have not.
fn ids(fills: &[execution::Fill]) -> BTreeSet<u32> {
    let mut ids: BTreeSet<u32> = fills.iter().flat_map(|fill| [fill.order, contra_number(fill.contra)]).collect();
    ids.extend((1..).find(|id| !ids.contains(id)));
    ids
}

/// The library's engine for a tape that opens.
fn opened(tape: &Tape) -> Option<Engine> {
    let legs: Vec<Leg> = tape.legs().collect();
    let settings = common::settings(&tape.header.settings);
    Engine::open(&Opening { legs: &common::legs(&legs), settings }).ok()
}

/// Runs a tape in both; also asked is the order of the record that stands behind a message's own, left by one before.
fn agree(what: &str, bytes: &[u8], tally: &mut Tally) {
    let Ok(tape) = Tape::read(bytes) else { return };
    let Some(mut engine) = opened(&tape) else { return };
    let mut list = vec![Fill::BLANK; Fill::LEAST_PLACES];
    let mut records = tape.records();
    let run = run_tape(bytes, |position, _, fills| {
        let record = records.next().expect("one for each message");
        let outcome = engine.step(&common::message(&record), &mut list);
        let behind = list[outcome.fills()..].first().map(Fill::order);
        for order in ids(fills).into_iter().chain(behind) {
            let average = outcome.average(&list, order);
            assert_eq!(average, expected(order, fills), "{what}, message {position}, order {order}");
            tally.add(average);
        }
    });
    assert!(run.is_ok() && records.next().is_none(), "{what}");
}

#[test]
fn whole_tapes() {
    let mut tally = Tally::default();
    tapes::whole().for_each(|(what, tape)| agree(&what, &tape, &mut tally));
    assert!(
        tally.is_above(Tally { none: 100_000, exact: 10_000, below_zero: 6_000, with_remainder: 2_000 }),
        "{tally:?}"
    );
}

#[test]
fn damaged_tapes() {
    let mut tally = Tally::default();
    tapes::damaged().for_each(|(what, tape)| agree(&what, &tape, &mut tally));
    assert!(
        tally.is_above(Tally { none: 100_000, exact: 7_000, below_zero: 4_000, with_remainder: 1_500 }),
        "{tally:?}"
    );
}

// ---- any numbers

type Numbers = [u64; Fill::NUMBERS];

const GREATEST: u64 = u32::MAX as u64;
const MOST_BIASED: u64 = 1 << 62;

/// The rules again: an id or units above 32 bits count as the greatest of them, a price above 2^62 as that; what is behind the
/// list or behind the first 2,000 records does not count.
fn reworked(list: &[Numbers], count: usize, order: u32) -> Average {
    let (mut sum, mut units) = (0, 0);
    for &[_, id, _, _, price, given, ..] in list.iter().take(count.min(2_000)) {
        if id.min(GREATEST) == u64::from(order) {
            let given = i128::from(given.min(GREATEST));
            sum += (i128::from(price.min(MOST_BIASED)) - BIAS) * given;
            units += given;
        }
    }
    if units == 0 {
        return Average::None;
    }
    let remainder = (sum % units + units) % units;
    exact((sum - remainder) / units, remainder)
}

fn fills(list: &[Numbers]) -> Vec<Fill> {
    list.iter().map(|&numbers| Fill::from(numbers)).collect()
}

/// The library's average over so many records, as an outcome counts them.
fn library_average(list: &[Fill], count: usize, order: u32) -> Average {
    Outcome::Noted { fills: count }.average(list, order)
}

/// The ids that are asked for. Few, so that many records of a list name the same.
const ORDERS: [u32; 5] = [0, 1, 7, u32::MAX - 1, u32::MAX];

/// One of some numbers, or any.
fn one_of_or_any(random: &mut Random, some: &[u64]) -> u64 {
    match random.once_in(4) {
        true => random.number(),
        false => random.pick(some),
    }
}

fn any_numbers(random: &mut Random) -> Numbers {
    let bias = BIAS as u64;
    let near_zero = bias - 1_000 + random.below(2_000);
    let prices = [0, near_zero, bias - 1, bias, MOST_BIASED - 1, MOST_BIASED, MOST_BIASED + 1, u64::MAX];
    let units = [0, 1, random.below(1_000), GREATEST - 1, GREATEST, GREATEST + 1, u64::MAX];
    let order = one_of_or_any(random, &[0, 1, 7, GREATEST - 1, GREATEST, GREATEST + 1, GREATEST + 8]);
    let (price, units) = (one_of_or_any(random, &prices), one_of_or_any(random, &units));
    let mut numbers = [0; Fill::NUMBERS].map(|_: u64| random.number());
    (numbers[1], numbers[4], numbers[5]) = (order, price, units);
    numbers
}

/// One list, with counts up to its end and past it.
fn agree_on_numbers(list: &[Numbers], tally: &mut Tally) {
    let (size, given) = (list.len(), fills(list));
    for count in BTreeSet::from([0, 1, size / 2, size.saturating_sub(1), size, size + 1, 2_000, 2_001, usize::MAX]) {
        for order in ORDERS {
            let average = library_average(&given, count, order);
            assert_eq!(average, reworked(list, count, order), "{size} records, count {count}, order {order}");
            tally.add(average);
        }
    }
}

#[test]
fn lists_of_any_numbers() {
    let mut random = Random::new(4);
    let mut tally = Tally::default();
    let sizes = (0..2_000).map(|k| k % 40).chain([1_999, 2_000, 2_001, 2_500]);
    for size in sizes {
        let list: Vec<Numbers> = (0..size).map(|_| any_numbers(&mut random)).collect();
        agree_on_numbers(&list, &mut tally);
    }
    assert!(
        tally.is_above(Tally { none: 30_000, exact: 50_000, below_zero: 5_000, with_remainder: 30_000 }),
        "{tally:?}"
    );
}

/// Units as many and prices as high as a list can have, and one cent less in one record.
#[test]
fn greatest_numbers() {
    let mut list = vec![[u64::MAX; Fill::NUMBERS]; 2_000];
    let greatest = i128::from(MOST_BIASED) - BIAS;
    assert_eq!(library_average(&fills(&list), 2_000, u32::MAX), exact(greatest, 0));
    list[1_000][4] = MOST_BIASED - 1;
    assert_eq!(library_average(&fills(&list), 2_000, u32::MAX), exact(greatest - 1, 1_999 * i128::from(GREATEST)));
    list.iter_mut().for_each(|numbers| numbers[4] = 0);
    assert_eq!(library_average(&fills(&list), 2_000, u32::MAX), exact(-BIAS, 0));
    list[1_999][4] = 1;
    assert_eq!(library_average(&fills(&list), 2_000, u32::MAX), exact(-BIAS, GREATEST.into()));
}

/// Of 2,001 records of a unit the 2,000th counts, and the last does not, whatever it holds.
#[test]
fn the_last_record_that_counts() {
    let unit_at = |price: u64| [4, 8, 4, 8, BIAS as u64 + price, 1, 0, 0, 0, 0, 0];
    let mut list = vec![unit_at(100); 2_001];
    list[1_999] = unit_at(101);
    for last in [unit_at(100), unit_at(5_000), [u64::MAX; Fill::NUMBERS], [8; Fill::NUMBERS]] {
        list[2_000] = last;
        let given = fills(&list);
        let average = |remainder| exact(100, remainder);
        assert_eq!(library_average(&given, 1_999, 8), average(0));
        for count in [2_000, 2_001, usize::MAX] {
            assert_eq!(library_average(&given, count, 8), average(1));
            assert_eq!(library_average(&given[..2_000], count, 8), average(1));
        }
        assert_eq!(library_average(&given[..1_999], 2_001, 8), average(0));
        assert_eq!(library_average(&given[2_000..], 1, 8), reworked(&[last], 1, 8));
    }
}

/// Only an outcome that counts records has averages.
#[test]
fn outcomes_without_records() {
    let list = [Fill::from([4, 8, 4, 8, BIAS as u64, 1, 0, 0, 0, 0, 0])];
    let refused = Outcome::Refused(tumghavi::Refusal::new(50));
    for outcome in [Outcome::Begun { deadline: 9 }, Outcome::Joined { units: 9 }, Outcome::Noted { fills: 0 }, refused]
    {
        assert_eq!(outcome.average(&list, 8), Average::None);
    }
    assert_eq!(Average::None.to_string(), "none");
    assert_eq!(Outcome::Placed { units: 0, fills: 1 }.average(&list, 8).to_string(), "0 0");
}
