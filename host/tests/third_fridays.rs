//! The library's third Fridays against the second program's: openings with every day of the century, and with any two digits for a day.

// No messages are sent.
#[allow(dead_code)]
mod common;

use second::engine;
use second::strategy::{third_friday, Leg, Settings};
use second::tape::Tape;
use second::text::make;
use tumghavi::{Engine, Opening, Refusal};

/// An opening of four legs that is accepted.
struct Accepted {
    legs: Vec<Leg>,
    settings: Settings,
}

impl Accepted {
    /// Document 01's own case, with its two calls as puts besides.
    fn own_case() -> Accepted {
        let tape = make(include_bytes!("../../second/sessions/own-case.txt")).expect("a session in text");
        let tape = Tape::read(&tape).expect("a tape");
        let mut legs: Vec<Leg> = tape.legs().collect();
        let put = |mut leg: Leg| {
            leg.symbol[12] = b'P';
            leg
        };
        legs.extend(tape.legs().map(put));
        Accepted { legs, settings: tape.header.settings }
    }

    /// The number that refuses an opening with a date in place of a leg's own: the same from both, for each leg of two, three and four.
    fn refusal(&self, year: u32, month: u32, day: u32) -> Option<u32> {
        let date = format!("{year:02}{month:02}{day:02}");
        let places = (2..=self.legs.len()).flat_map(|count| (0..count).map(move |at| (count, at)));
        let mut numbers = places.map(|(count, at)| {
            let mut legs = self.legs[..count].to_vec();
            legs[at].symbol[6..12].copy_from_slice(date.as_bytes());
            let opening = Opening { legs: &common::legs(&legs), settings: common::settings(&self.settings) };
            let proved = Engine::open(&opening).err().map(Refusal::number);
            let plain = engine::Engine::open(&legs, &self.settings).err().map(u32::from);
            assert_eq!(proved, plain, "{date}, leg {at} of {count}");
            proved
        });
        let number = numbers.next().expect("a leg");
        assert!(numbers.all(|other| other == number), "{date}");
        number
    }
}

/// None for an accepted date, 3 for any other.
fn refused_unless(accepted: bool) -> Option<u32> {
    (!accepted).then_some(3)
}

/// Counted from 1 January 2000, a Saturday: the seventh day is a Friday, and each seventh after it.
#[test]
fn every_day_of_the_century() {
    let own_case = Accepted::own_case();
    let (mut days_before, mut accepted) = (0, 0);
    for year in 0..100 {
        let february = if year % 4 == 0 { 29 } else { 28 };
        let lengths = [31, february, 31, 30, 31, 30, 31, 31, 30, 31, 30, 31];
        for (month, length) in (1..).zip(lengths) {
            for day in 1..=length {
                let is_friday = days_before % 7 == 6;
                let is_third = is_friday && (15..=21).contains(&day);
                let number = own_case.refusal(year, month, day);
                assert_eq!(number, refused_unless(is_third), "20{year:02}-{month:02}-{day:02}");
                accepted += u32::from(number.is_none());
                days_before += 1;
            }
        }
    }
    assert_eq!((days_before, accepted), (36_525, 1_200));
}

/// Days that no month has, 00 and 32 to 99, and those that a month has not, are refused as any other.
#[test]
fn any_two_digits_for_a_day() {
    let own_case = Accepted::own_case();
    let mut accepted = 0;
    for year in 0..100 {
        for month in 1..=12 {
            for day in 0..100 {
                let number = own_case.refusal(year, month, day);
                assert_eq!(number, refused_unless(day == third_friday(year, month)), "{year:02}{month:02}{day:02}");
                accepted += u32::from(number.is_none());
            }
        }
    }
    assert_eq!(accepted, 1_200);
}
