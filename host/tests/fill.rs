//! What a fill record says, whatever its numbers, and which records are equal.

use tumghavi::{Average, Contra, Fill, Outcome, Rank};

type Numbers = [u64; Fill::NUMBERS];

/// An order's unit with another order at 0 cents, and four leg prices of which it has two.
const PLAIN: Numbers = [4, 8, 4, 10, 40_000_000, 1, 3, 10, 20, 30, 40];

const GREATEST: u64 = u32::MAX as u64;
const BOUND: u64 = 1 << 62;
const HALF: u64 = 1 << 63;

/// Numbers around those from which on a reader says something else.
const SOME: [u64; 21] = [
    0,
    1,
    2,
    3,
    4,
    5,
    6,
    39_999_999,
    40_000_000,
    GREATEST - 1,
    GREATEST,
    GREATEST + 1,
    GREATEST + 2,
    BOUND - 1,
    BOUND,
    BOUND + 1,
    HALF - 1,
    HALF,
    HALF + 39_999_999,
    HALF + 40_000_000,
    u64::MAX,
];

/// The plain record with another number at a place.
fn with(place: usize, number: u64) -> Fill {
    let mut numbers = PLAIN;
    numbers[place] = number;
    Fill::from(numbers)
}

// ---- what a record says

#[test]
fn prices() {
    let most = 4_611_686_018_387_387_904;
    for (number, cents) in [(0, -40_000_000), (39_999_999, -1), (40_000_000, 0), (BOUND - 1, most - 1)] {
        assert_eq!(with(4, number).price(), cents);
    }
    for number in SOME.into_iter().filter(|&number| number >= BOUND) {
        assert_eq!(with(4, number).price(), most, "{number}");
    }
}

#[test]
fn ids_and_units() {
    for number in SOME {
        assert_eq!(with(0, number).number(), number);
        assert_eq!(u64::from(with(1, number).order()), number.min(GREATEST));
        assert_eq!(u64::from(with(5, number).units()), number.min(GREATEST));
    }
}

#[test]
fn ranks() {
    let ranks = [Rank::L, Rank::C, Rank::N, Rank::T, Rank::R, Rank::R];
    for (number, rank) in (0..).zip(ranks).chain([(u64::MAX, Rank::R)]) {
        assert_eq!(with(2, number).rank(), rank, "{number}");
    }
}

#[test]
fn contras() {
    assert_eq!(with(3, 0).contra(), Contra::Legs);
    let ids = [(1, 0), (2, 1), (GREATEST, u32::MAX - 1), (GREATEST + 1, u32::MAX), (GREATEST + 2, u32::MAX)];
    for (number, id) in ids.into_iter().chain([(u64::MAX, u32::MAX)]) {
        assert_eq!(with(3, number).contra(), Contra::Entry(id), "{number}");
    }
}

/// The library reads order, price and units as a record says them: the average of one record is its price, if it has units.
#[test]
fn as_the_library_reads() {
    for (place, number) in [1, 4, 5].into_iter().flat_map(|place| SOME.map(|number| (place, number))) {
        let fill = with(place, number);
        let price = Average::Exact { quotient: fill.price(), remainder: 0 };
        let expected = if fill.units() == 0 { Average::None } else { price };
        assert_eq!(Outcome::Noted { fills: 1 }.average(&[fill], fill.order()), expected, "{place}, {number}");
    }
}

// ---- which records are equal

/// Two records that differ at one place are equal just where their words are the same.
#[test]
fn equal_where_they_say_the_same() {
    let mut other_numbers = 0;
    for place in 0..Fill::NUMBERS {
        for (a, b) in SOME.into_iter().flat_map(|a| SOME.map(|b| (a, b))) {
            let (one, other) = (with(place, a), with(place, b));
            let same = format!("{one:?}") == format!("{other:?}");
            assert_eq!(one == other, same, "place {place}, {a} and {b}");
            other_numbers += usize::from(same && a != b);
        }
    }
    assert!(other_numbers > 500, "{other_numbers}");
}

/// What stands behind the last leg price is no part of a record; the prices before it are, and how many they are.
#[test]
fn behind_the_last_leg_price() {
    let of = |legs: u64, prices: [u64; 4]| {
        let [p0, p1, p2, p3] = prices;
        Fill::from([4, 8, 4, 10, 40_000_000, 1, legs, p0, p1, p2, p3])
    };
    assert_eq!(of(0, [0; 4]), of(0, [220, 113, 7, 7]));
    assert_eq!(of(3, [220, 113, 0, 0]), of(3, [220, 113, 7, 7]));
    assert_eq!(of(5, [1, 2, 3, 4]), of(u64::MAX, [1, 2, 3, 4]));
    assert_ne!(of(0, [0; 4]), of(1, [0; 4]));
    assert_ne!(of(3, [220, 113, 0, 0]), of(3, [220, 114, 0, 0]));
    assert_ne!(of(3, [220, 113, 0, 0]), of(4, [220, 113, 0, 0]));
}

/// Numbers are given back as they are, also where they mean nothing.
#[test]
fn numbers_of_a_record() {
    for (place, number) in (0..Fill::NUMBERS).flat_map(|place| SOME.map(|number| (place, number))) {
        let numbers = Numbers::from(with(place, number));
        assert_eq!(numbers[place], number);
        assert_eq!(Numbers::from(Fill::from(numbers)), numbers);
    }
}
