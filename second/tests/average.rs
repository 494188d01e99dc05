//! M-102: "the average net price of each executed order, over the records that name it as order".
//!
//! On random tapes the average lines are worked out again here, from the printed fill lines alone.

mod common;

use common::*;
use second::average::{average, averages, Average};
use second::execution::{Contra, Fill, Rank};
use second::explain::explain;
use second::gen::random::Random;
use second::gen::PROFILES;
use second::live::{live, live_input};
use second::print::tapeprint;
use second::strategy::Cents;

// Lists of fills made by hand.

fn fill(order: u32, contra: u32, price: Cents, units: u32) -> Fill {
    Fill {
        number: 1,
        order,
        rank: Rank::R,
        contra: Contra::Entry(contra),
        price,
        units,
        leg_prices: None,
    }
}

/// The quotient and the remainder of order 1 with a fill for each price and units.
fn divided(fills: &[(Cents, u32)]) -> (i128, i128) {
    let fills: Vec<Fill> = fills.iter().map(|&(p, u)| fill(1, 2, p, u)).collect();
    let average = average(1, &fills).expect("units");
    (average.quotient(), average.remainder())
}

/// "A sum of -7 over 2 units is -4 remainder 1."
#[test]
fn a_sum_of_minus_7_over_2_units() {
    let fills = [fill(1, 2, -3, 1), fill(1, 3, -4, 1)];
    let expected = Average {
        order: 1,
        sum: -7,
        units: 2,
    };
    assert_eq!(average(1, &fills), Some(expected));
    assert_eq!((expected.quotient(), expected.remainder()), (-4, 1));
}

/// "Rounded toward minus infinity, and the remainder, from 0 to units less 1."
#[test]
fn signs_and_remainders() {
    let check = |fills: &[(Cents, u32)], quotient: i128, remainder: i128| {
        assert_eq!(divided(fills), (quotient, remainder), "{fills:?}");
    };
    check(&[(3, 1), (4, 1)], 3, 1);
    check(&[(5, 1)], 5, 0);
    check(&[(-5, 1)], -5, 0);
    check(&[(0, 9)], 0, 0);
    check(&[(1, 1), (-1, 1)], 0, 0);
    // A unit of one cent, and the others for nothing.
    check(&[(1, 1), (0, 2)], 0, 1);
    check(&[(2, 1), (0, 2)], 0, 2);
    check(&[(3, 1), (0, 2)], 1, 0);
    check(&[(-1, 1), (0, 2)], -1, 2);
    check(&[(-2, 1), (0, 2)], -1, 1);
    check(&[(-3, 1), (0, 2)], -1, 0);
    check(&[(-4, 1), (0, 2)], -2, 2);
    // Both signs in one sum.
    check(&[(-100, 3), (50, 5)], -7, 6);
    check(&[(100, 3), (-50, 5)], 6, 2);
    check(&[(-100, 5), (100, 5)], 0, 0);
}

#[test]
fn no_fills_are_too_much() {
    let most = [(Cents::MAX, u32::MAX); 2_000];
    assert_eq!(divided(&most), (Cents::MAX.into(), 0));
    let mut least = [(Cents::MIN, u32::MAX); 2_000];
    assert_eq!(divided(&least), (Cents::MIN.into(), 0));
    // A cent more for one unit is all but lost, and it is the remainder.
    least[7] = (Cents::MIN, u32::MAX - 1);
    let one = [&least[..], &[(Cents::MIN + 1, 1)]].concat();
    assert_eq!(divided(&one), (Cents::MIN.into(), 1));
    // A cent less for one unit is the next price with the greatest remainder.
    let one = [(Cents::MAX, u32::MAX), (Cents::MAX - 1, 1)];
    let greatest = i128::from(u32::MAX);
    assert_eq!(divided(&one), (i128::from(Cents::MAX) - 1, greatest));
}

#[test]
fn quotient_and_remainder_make_the_sum() {
    let random = &mut Random::new(102);
    for _ in 0..10_000 {
        let most = random.pick(&[3, 1_000, u32::MAX]);
        let fills: Vec<Fill> = (0..random.up_to(9))
            .map(|_| {
                let price = random.number() as Cents >> random.pick(&[0, 15, 29]);
                fill(1, 2, price, random.up_to(most))
            })
            .collect();
        let average = average(1, &fills).unwrap();
        let (quotient, remainder) = (average.quotient(), average.remainder());
        assert!((0..average.units).contains(&remainder), "{average:?}");
        assert_eq!(quotient * average.units + remainder, average.sum);
    }
}

/// "An order without fills in that message has no average."
#[test]
fn an_order_without_fills_has_none() {
    assert_eq!(average(1, &[]), None);
    assert_eq!(averages(&[]), []);
    // The contra of an order, and an id that is nowhere.
    let fills = [fill(1, 2, 100, 5)];
    assert_eq!(average(2, &fills), None);
    assert_eq!(average(3, &fills), None);
    // No such record is ever written.
    let nothing = [fill(1, 2, 100, 0)];
    assert_eq!(average(1, &nothing), None);
    assert_eq!(averages(&nothing), []);
}

/// "For each id in their order column, by first record": also where its records stand apart, and
/// whatever it is the contra of.
#[test]
fn averages_stand_by_first_record() {
    let fills = [
        fill(9, 3, 100, 1),
        fill(3, 9, -50, 2),
        fill(9, 4, 101, 2),
        fill(1, 9, 7, 7),
        fill(3, 1, -51, 1),
    ];
    let of = |order: u32, sum: i128, units: i128| Average { order, sum, units };
    let expected = [of(9, 302, 3), of(3, -151, 3), of(1, 49, 7)];
    assert_eq!(averages(&fills), expected);
    let each = expected.map(|average| (average.quotient(), average.remainder()));
    assert_eq!(each, [(100, 2), (-51, 2), (7, 0)]);
}

// Sessions made by hand.

#[test]
fn minus_7_over_2_on_a_tape() {
    spread().prints(
        &[sell(1, 1, -4), sell(2, 1, -3), buy(3, 2, 0)],
        &[
            "3 3 R 1 -4 1",
            "3 3 R 2 -3 1",
            "average 3 -4 1",
            "open 0 answers 0",
        ],
    );
}

/// "After the message's fills", all of them: the initiator and the order that ends its auction.
#[test]
fn averages_stand_after_all_fills_of_the_message() {
    spread().prints(
        &all(&[
            &market(),
            &[
                sell(3, 4, 125),
                buy(9, 6, 120).wish(),
                sell(5, 5, 119).response(),
                sell(6, 5, 120).response(),
                buy(4, 6, 130),
                cancel(8),
            ],
        ]),
        &[
            "7 9 C 5 119 5",
            "7 9 C 6 120 1",
            "7 4 R 3 125 4",
            "7 4 L 0 130 2",
            "average 9 119 1",
            "average 4 126 4",
            "refused 8 50",
            "open 0 answers 0",
        ],
    );
}

/// Order 3 is the initiator's contra, and then executes itself.
#[test]
fn records_that_name_an_order_as_contra_do_not_count() {
    let messages = all(&[
        &market(),
        &[
            buy(1, 2, 117),
            buy(2, 6, 120).wish(),
            sell(3, 10, 110),
            clock(500),
        ],
    ]);
    spread().prints(
        &messages,
        &[
            "6 2 C 3 110 6",
            "6 3 R 1 117 2",
            "average 2 110 0",
            "average 3 117 0",
            "open 1 answers 0",
        ],
    );
}

/// The greatest limits and units.
#[test]
fn the_greatest_sums_of_a_tape() {
    let most = 40_000_000;
    spread().prints(
        &[
            buy(1, 1, most - 1),
            buy(2, 999_998, most),
            sell(3, 999_999, -most),
            sell(4, 999_998, -most),
            sell(5, 1, 1 - most),
            buy(6, 999_999, most),
        ],
        &[
            "3 3 R 2 40000000 999998",
            "3 3 R 1 39999999 1",
            "average 3 39999999 999998",
            "6 6 R 4 -40000000 999998",
            "6 6 R 5 -39999999 1",
            "average 6 -40000000 1",
            "open 0 answers 0",
        ],
    );
}

// The average lines, worked out again.

/// What a printed fill line says that counts here.
struct Printed<'a> {
    number: u64,
    order: &'a str,
    contra: &'a str,
    price: i64,
    units: i64,
}

/// `None` for any other line.
fn fill_of(line: &str) -> Option<Printed<'_>> {
    let words: Vec<&str> = line.split(' ').collect();
    let [number, order, _, contra, price, units] = words[..] else {
        return None;
    };
    Some(Printed {
        number: number.parse().ok()?,
        order,
        contra,
        price: price.parse().ok()?,
        units: units.parse().ok()?,
    })
}

/// Whether two lines are fills of one message: its number is in both.
fn of_one_message(line: &str, next: &str) -> bool {
    match (fill_of(line), fill_of(next)) {
        (Some(fill), Some(next)) => fill.number == next.number,
        _ => false,
    }
}

fn is_average(line: &str) -> bool {
    line.starts_with("average ")
}

/// A quotient whose product is not above the sum, though the next one's is, and what is left.
fn divide(sum: i64, units: i64) -> (i64, i64) {
    let toward_zero = sum / units;
    let above = toward_zero * units > sum;
    let quotient = toward_zero - i64::from(above);
    (quotient, sum - quotient * units)
}

/// An order's average as worked out here.
struct Worked<'a> {
    order: &'a str,
    sum: i64,
    units: i64,
}

impl Worked<'_> {
    /// As tapeprint prints it.
    fn line(&self) -> String {
        let (quotient, remainder) = divide(self.sum, self.units);
        format!("average {} {quotient} {remainder}\n", self.order)
    }

    /// As `explain` says it, without the leading words.
    fn words(&self) -> String {
        let Worked { order, sum, units } = self;
        let (quotient, remainder) = divide(*sum, *units);
        format!("{order}: a sum of {sum} over {units} units is {quotient} remainder {remainder}")
    }
}

/// The averages of one message's fill lines; other lines have none.
fn work_out<'a>(lines: &[&'a str]) -> Vec<Worked<'a>> {
    let mut found: Vec<Worked> = Vec::new();
    for fill in lines.iter().filter_map(|line| fill_of(line)) {
        let sum = fill.price * fill.units;
        match found.iter_mut().find(|worked| worked.order == fill.order) {
            Some(worked) => {
                worked.sum += sum;
                worked.units += fill.units;
            }
            None => found.push(Worked {
                order: fill.order,
                sum,
                units: fill.units,
            }),
        }
    }
    found
}

/// A text with its average lines taken out, and put in again from its fill lines.
fn worked_out_again(text: &str) -> String {
    let lines: Vec<&str> = text.lines().filter(|line| !is_average(line)).collect();
    let mut again = String::new();
    for message in lines.chunk_by(|a, b| of_one_message(a, b)) {
        again.extend(message.iter().map(|line| format!("{line}\n")));
        again.extend(work_out(message).iter().map(Worked::line));
    }
    again
}

/// What stands in some texts.
#[derive(Default, Debug)]
struct Seen {
    texts: usize,
    averages: usize,
    /// Averages with a remainder above 0.
    remainders: usize,
    /// Those of them with a quotient below 0.
    negative_remainders: usize,
    /// Averages of an order that is a contra in the same message.
    also_contras: usize,
    /// Messages with two or more averages.
    several: usize,
}

impl Seen {
    /// Takes a text that has the right average lines.
    fn take(&mut self, name: &str, text: &str) {
        assert_eq!(text, worked_out_again(text), "{name}");
        self.texts += 1;
        // A message's fills, and the averages behind them.
        let lines: Vec<&str> = text.lines().collect();
        for message in lines.chunk_by(|a, b| of_one_message(a, b) || is_average(b)) {
            let averages: Vec<&str> = message.iter().copied().filter(|l| is_average(l)).collect();
            let fills: Vec<Printed> = message.iter().filter_map(|line| fill_of(line)).collect();
            self.several += usize::from(averages.len() >= 2);
            averages.iter().for_each(|line| self.count(line, &fills));
        }
    }

    fn count(&mut self, line: &str, fills: &[Printed]) {
        let words: Vec<&str> = line.split(' ').collect();
        let ["average", order, quotient, remainder] = words[..] else {
            panic!("{line}");
        };
        let left = remainder != "0";
        self.averages += 1;
        self.remainders += usize::from(left);
        self.negative_remainders += usize::from(left && quotient.starts_with('-'));
        self.also_contras += usize::from(fills.iter().any(|fill| fill.contra == order));
    }

    fn is_enough(&self) {
        println!("{self:?}");
        assert!(self.averages >= 15_000);
        assert!(self.remainders >= 3_000);
        assert!(self.negative_remainders >= 1_000);
        assert!(self.also_contras >= 1_000);
        assert!(self.several >= 3_000);
    }
}

/// Each profile's tapes of some seeds, with a name.
fn random_tapes() -> impl Iterator<Item = (String, Vec<u8>)> {
    PROFILES.iter().flat_map(|profile| {
        (4_000..4_030).map(|seed| (format!("{} {seed}", profile.name), profile.tape(seed)))
    })
}

#[test]
fn tapeprint_has_the_averages_of_its_fills() {
    let mut seen = Seen::default();
    for (name, tape) in random_tapes() {
        seen.take(&name, &tapeprint(&tape));
    }
    assert_eq!(seen.texts, 30 * PROFILES.len());
    seen.is_enough();
}

/// Without the lines of leg prices, which tapeprint does not have.
fn without_legs(text: &str) -> String {
    let lines = text.lines().filter(|line| !line.starts_with("legs "));
    lines.map(|line| format!("{line}\n")).collect()
}

#[test]
fn live_has_the_averages_of_its_fills() {
    let mut seen = Seen::default();
    for (name, tape) in random_tapes() {
        let mut answers = Vec::new();
        live(&live_input(&tape).unwrap_or(tape)[..], &mut answers).unwrap();
        seen.take(&name, &without_legs(&String::from_utf8(answers).unwrap()));
    }
    assert_eq!(seen.texts, 30 * PROFILES.len());
    seen.is_enough();
}

// The work itself, on texts made by hand.

/// Two messages, one straight after the other; order 3 has records in both.
const RIGHT: &str = "number order rank contra price units
4 9 C 5 -4 1
4 9 N 6 -3 1
4 3 R 9 10 2
average 9 -4 1
average 3 10 0
5 3 L 0 11 3
5 3 R 7 10 1
average 3 10 3
refused 7 50
open 1 answers 0
";

#[test]
fn right_lines_are_worked_out_again() {
    assert_eq!(worked_out_again(RIGHT), RIGHT);
    let without: Vec<&str> = RIGHT.lines().filter(|line| !is_average(line)).collect();
    assert_eq!(worked_out_again(&(without.join("\n") + "\n")), RIGHT);
    let mut seen = Seen::default();
    seen.take("by hand", RIGHT);
    assert_eq!([seen.averages, seen.several, seen.also_contras], [3, 1, 1]);
    assert_eq!([seen.remainders, seen.negative_remainders], [2, 1]);
    for other in ["refused 0 60\n", "opened\nnoted 0\nplaced 10 0\n"] {
        assert_eq!(worked_out_again(other), other);
    }
}

#[test]
fn wrong_lines_are_not() {
    let changes = [
        // Toward zero, the nearest, and a remainder of the wrong sign.
        ("average 9 -4 1", "average 9 -3 -1"),
        ("average 9 -4 1", "average 9 -3 1"),
        ("average 3 10 3", "average 3 11 -1"),
        // None, twice, and of a contra.
        ("average 9 -4 1\n", ""),
        ("average 3 10 3\n", "average 3 10 3\naverage 3 10 3\n"),
        ("average 3 10 3\n", "average 3 10 3\naverage 7 10 0\n"),
        // Another order, and another place.
        (
            "average 9 -4 1\naverage 3 10 0\n",
            "average 3 10 0\naverage 9 -4 1\n",
        ),
        (
            "4 3 R 9 10 2\naverage 9 -4 1\n",
            "average 9 -4 1\n4 3 R 9 10 2\n",
        ),
        (
            "average 3 10 3\nrefused 7 50\n",
            "refused 7 50\naverage 3 10 3\n",
        ),
        // Both messages in one.
        ("average 3 10 0\n5 3 L 0 11 3", "5 3 L 0 11 3"),
        ("average 3 10 3", "average 3 10 5"),
        // Another spelling.
        ("average 3 10 0", "average 3 10"),
        ("average 3 10 0", "average 3 10 +0"),
        ("average 3 10 0", "average order 3 10 0"),
    ];
    for (right, wrong) in changes {
        assert_eq!(RIGHT.matches(right).count(), 1, "{right}");
        let text = RIGHT.replace(right, wrong);
        assert_ne!(worked_out_again(&text), text, "{wrong}");
    }
}

// In words.

/// What `explain` says of averages, without the leading words.
fn told(text: &str) -> Vec<&str> {
    let lines = text.lines();
    lines
        .filter_map(|line| line.strip_prefix("  average of order "))
        .collect()
}

#[test]
fn explain_says_each_average_with_its_sum_and_units() {
    let messages = all(&[
        &market(),
        &[
            // It has its turn and no fills.
            sell(1, 3, 150),
            // These have no turn yet.
            buy(2, 6, 120).wish(),
            buy(3, 4, 119).wish(),
            sell(4, 7, 100),
            sell(5, 3, -20).response(),
            buy(5, 1, 90),
            // The queue's orders execute, and order 4 is a contra alone.
            clock(500),
            // It ends an auction and has no fills itself.
            buy(6, 2, 121).wish().at(500),
            buy(7, 2, 122).at(500),
            // Its id is open: it does not arrive.
            buy(7, 2, 122).at(500),
        ],
    ]);
    let text = explain(&spread().tape(&messages));
    assert_eq!(
        told(&text),
        [
            "1: none, it has no fills",
            "2: a sum of 240 over 6 units is 40 remainder 0",
            "3: a sum of 400 over 4 units is 100 remainder 0",
            "7: none, it has no fills",
        ]
    );
    // Behind the fills of all turns.
    let ended = text.split("\n\n").find(|part| part.contains("clock"));
    let ended: Vec<&str> = ended.unwrap().lines().collect();
    let last_fill = ended.iter().rposition(|line| line.contains("  fill: "));
    let averages = ended.iter().position(|line| line.contains("  average "));
    assert!(last_fill < averages);
    assert_eq!(averages, Some(ended.len() - 2));
}

/// On random tapes `explain` says the averages of the fills that tapeprint prints.
#[test]
fn explain_says_the_averages_of_the_printed_fills() {
    let (mut averages, mut nones) = (0, 0);
    for (name, tape) in random_tapes() {
        let text = explain(&tape);
        let (none, some): (Vec<&str>, Vec<&str>) = told(&text)
            .into_iter()
            .partition(|words| words.ends_with(": none, it has no fills"));
        let printed = tapeprint(&tape);
        let lines: Vec<&str> = printed.lines().collect();
        let messages = lines.chunk_by(|a, b| of_one_message(a, b));
        let worked = messages.flat_map(work_out);
        let expected: Vec<String> = worked.map(|worked| worked.words()).collect();
        assert_eq!(some, expected, "{name}");
        averages += some.len();
        nones += none.len();
    }
    println!("{averages} averages, {nones} orders without");
    assert!(averages >= 15_000);
    assert!(nones >= 7_000);
}
