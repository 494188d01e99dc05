//! "Strategy and series": symbols, third Fridays, ratios, the class settings, and the opening's
//! refusals 1 to 7.

use crate::{refuse_if, Refusal};
use std::ops::RangeInclusive;
use std::sync::OnceLock;

/// "All in cents."
pub type Cents = i32;

/// "Sides are the letters B and S."
#[derive(Clone, Copy, PartialEq, Eq, Debug)]
pub enum Side {
    Buy,
    Sell,
}

impl Side {
    pub fn of_letter(letter: u8) -> Option<Side> {
        match letter {
            b'B' => Some(Side::Buy),
            b'S' => Some(Side::Sell),
            _ => None,
        }
    }

    pub fn opposite(self) -> Side {
        match self {
            Side::Buy => Side::Sell,
            Side::Sell => Side::Buy,
        }
    }

    /// Whether a limit of this side is strictly better than another of this side.
    pub fn better(self, limit: Cents, than: Cents) -> bool {
        match self {
            Side::Buy => limit > than,
            Side::Sell => limit < than,
        }
    }

    /// By how much a limit of this side misses a contra price; 0 or less where it reaches it.
    pub fn miss(self, limit: Cents, contra: Cents) -> Cents {
        match self {
            Side::Buy => contra - limit,
            Side::Sell => limit - contra,
        }
    }

    /// Whether a limit of this side is at or through a contra price.
    pub fn reaches(self, limit: Cents, contra: Cents) -> bool {
        self.miss(limit, contra) <= 0
    }
}

/// "A leg has a 21-byte symbol, a side B or S as seen by a buyer of the strategy, a ratio, and a
/// minimum price step (MPV)": the values as given, right or wrong.
#[derive(Clone, Copy, PartialEq, Eq, Debug)]
pub struct Leg {
    pub symbol: [u8; Leg::SYMBOL],
    pub side: u8,
    pub ratio: u8,
    pub mpv: u8,
}

impl Leg {
    pub const SYMBOL: usize = 21;
    const ROOT: usize = 6;
    const LEAST_RATIO: u8 = 1;
    const MOST_RATIO: u8 = 9;
    /// "For any two legs neither ratio is above three times the other."
    const MOST_TIMES: u8 = 3;
    /// "A minimum price step of 1, 5 or 10 cents", in the sequence of the settings' amounts.
    pub const MPVS: [u8; 3] = [1, 5, 10];

    pub fn root(&self) -> &[u8] {
        &self.symbol[..Leg::ROOT]
    }

    /// The two digits of the symbol at a place, as a number.
    fn two_digits(&self, place: usize) -> u32 {
        let digit = |at: usize| u32::from(self.symbol[at].wrapping_sub(b'0'));
        digit(place) * 10 + digit(place + 1)
    }

    pub fn year(&self) -> u32 {
        self.two_digits(6)
    }

    pub fn month(&self) -> u32 {
        self.two_digits(8)
    }

    pub fn day(&self) -> u32 {
        self.two_digits(10)
    }

    /// "Root of 1 to 6 capitals padded with spaces to 6, yymmdd meaning 20yy, C or P, strike as 8
    /// digits in thousandths of a dollar, not zero"; "a month outside 01 to 12 included".
    pub fn symbol_is_formed(&self) -> bool {
        let capitals = self
            .root()
            .iter()
            .take_while(|b| b.is_ascii_uppercase())
            .count();
        let padded = self.root()[capitals..].iter().all(|&b| b == b' ');
        let date = &self.symbol[6..12];
        let call_or_put = self.symbol[12];
        let strike = &self.symbol[13..];
        capitals >= 1
            && padded
            && date.iter().all(u8::is_ascii_digit)
            && (1..=12).contains(&self.month())
            && (call_or_put == b'C' || call_or_put == b'P')
            && strike.iter().all(u8::is_ascii_digit)
            && strike.iter().any(|&b| b != b'0')
    }

    /// "The date must be the third Friday of its month." Asked of a formed symbol.
    pub fn is_third_friday(&self) -> bool {
        self.day() == third_friday(self.year(), self.month())
    }
}

/// The third Friday of a month of 20yy. The days are counted once in a process.
pub fn third_friday(year: u32, month: u32) -> u32 {
    static COUNTED: OnceLock<Century> = OnceLock::new();
    COUNTED.get_or_init(walk_century)[year as usize][month as usize - 1]
}

/// A day of the month for each of the months of 2000 to 2099.
type Century = [[u32; 12]; 100];

/// "1 January 2000 was a Saturday", and from there day by day (M-104): the third Fridays met.
fn walk_century() -> Century {
    let mut third_fridays = [[0; 12]; 100];
    let mut weekday = Weekday::Saturday;
    for (year, months) in (2000..).zip(&mut third_fridays) {
        for (month, third_friday) in (1..).zip(months) {
            (*third_friday, weekday) = walk_month(weekday, days_of_month(year, month));
        }
    }
    third_fridays
}

/// From the weekday of a month's first day: its third Friday, and the weekday after its last day.
fn walk_month(first: Weekday, days: u32) -> (u32, Weekday) {
    let mut weekday = first;
    let mut fridays = Vec::new();
    for day in 1..=days {
        if weekday == Weekday::Friday {
            fridays.push(day);
        }
        weekday = weekday.next();
    }
    (fridays[2], weekday)
}

fn days_of_month(year: u32, month: u32) -> u32 {
    match month {
        2 if is_leap(year) => 29,
        2 => 28,
        4 | 6 | 9 | 11 => 30,
        _ => 31,
    }
}

/// The Gregorian rule: a year that 4 divides, but of those that 100 divides only one that 400 does.
fn is_leap(year: u32) -> bool {
    year.is_multiple_of(4) && (!year.is_multiple_of(100) || year.is_multiple_of(400))
}

#[derive(Clone, Copy, PartialEq, Eq)]
enum Weekday {
    Saturday,
    Sunday,
    Monday,
    Tuesday,
    Wednesday,
    Thursday,
    Friday,
}

impl Weekday {
    /// The weekday of the next day.
    fn next(self) -> Weekday {
        match self {
            Weekday::Saturday => Weekday::Sunday,
            Weekday::Sunday => Weekday::Monday,
            Weekday::Monday => Weekday::Tuesday,
            Weekday::Tuesday => Weekday::Wednesday,
            Weekday::Wednesday => Weekday::Thursday,
            Weekday::Thursday => Weekday::Friday,
            Weekday::Friday => Weekday::Saturday,
        }
    }
}

/// "Worked out by Euclid's rule, each step calling itself on a smaller pair."
pub fn greatest_common_divisor(a: u8, b: u8) -> u8 {
    if b == 0 {
        a
    } else {
        greatest_common_divisor(b, a % b)
    }
}

/// "Ratios are 1 to 9. For any two legs neither ratio is above three times the other. The greatest
/// common divisor of the ratios is 1."
pub fn ratios_fit(ratios: &[u8]) -> bool {
    let within = |r: &u8| (Leg::LEAST_RATIO..=Leg::MOST_RATIO).contains(r);
    let near = |a: u8| ratios.iter().all(|&b| a <= Leg::MOST_TIMES * b);
    ratios.iter().all(within)
        && ratios.iter().all(|&a| near(a))
        && ratios.iter().copied().fold(0, greatest_common_divisor) == 1
}

/// The class settings, the first number and the opening time, as given.
#[derive(Clone, Copy, PartialEq, Eq, Debug, Default)]
pub struct Settings {
    /// Milliseconds from an auction's beginning to its deadline.
    pub interval: u16,
    pub distance: u16,
    pub most_legs: u16,
    /// The filter's amounts for MPV 1, 5 and 10.
    pub amounts: [u16; 3],
    pub minimum: u32,
    pub first_number: u64,
    pub opening_time: u64,
}

impl Settings {
    pub const INTERVAL: RangeInclusive<u16> = 1..=1_000;
    pub const DISTANCE: RangeInclusive<u16> = 0..=999;
    pub const MOST_LEGS: RangeInclusive<u16> = 2..=4;
    pub const MINIMUM: RangeInclusive<u32> = 1..=999_999;
    pub const AMOUNT: RangeInclusive<u16> = 0..=999;
    /// The greatest arrival number and the greatest time.
    pub const MOST_NUMBER: u64 = 1_000_000_000_000_000;
    pub const MOST_TIME: u64 = 1_000_000_000_000_000;

    /// The first setting outside its range, with its value.
    pub fn outside(&self) -> Option<(&'static str, u64)> {
        let [one, five, ten] = self.amounts;
        let fits = |amount: u16| Settings::AMOUNT.contains(&amount);
        let settings: [(&str, u64, bool); 9] = [
            (
                "interval",
                self.interval.into(),
                Settings::INTERVAL.contains(&self.interval),
            ),
            (
                "distance",
                self.distance.into(),
                Settings::DISTANCE.contains(&self.distance),
            ),
            (
                "most legs",
                self.most_legs.into(),
                Settings::MOST_LEGS.contains(&self.most_legs),
            ),
            (
                "minimum",
                self.minimum.into(),
                Settings::MINIMUM.contains(&self.minimum),
            ),
            ("amount for MPV 1", one.into(), fits(one)),
            ("amount for MPV 5", five.into(), fits(five)),
            ("amount for MPV 10", ten.into(), fits(ten)),
            (
                "first number",
                self.first_number,
                self.first_number <= Settings::MOST_NUMBER,
            ),
            (
                "time",
                self.opening_time,
                self.opening_time <= Settings::MOST_TIME,
            ),
        ];
        let outside = settings.iter().find(|(_, _, fits)| !fits);
        outside.map(|&(name, value, _)| (name, value))
    }
}

/// A leg of an opened strategy.
#[derive(Clone, Copy, Debug)]
pub struct OpenLeg {
    pub side: Side,
    pub ratio: u8,
    /// The filter's amount set for the leg's MPV.
    pub amount: Cents,
}

/// An opened strategy: two to four legs that passed 1 to 6 and settings that passed 7.
#[derive(Clone, Debug)]
pub struct Strategy {
    pub legs: Vec<OpenLeg>,
    pub settings: Settings,
}

impl Strategy {
    pub const LEAST_LEGS: usize = 2;
    pub const MOST_LEGS: usize = 4;

    /// The row "Opening" of the table, read down: each number over all legs before the next.
    pub fn open(legs: &[Leg], settings: &Settings) -> Result<Strategy, Refusal> {
        let count_fits = (Strategy::LEAST_LEGS..=Strategy::MOST_LEGS).contains(&legs.len());
        refuse_if(!count_fits, 1)?;
        refuse_if(!legs.iter().all(Leg::symbol_is_formed), 2)?;
        refuse_if(!legs.iter().all(Leg::is_third_friday), 3)?;
        refuse_if(roots_differ(legs) || symbol_repeats(legs), 4)?;
        let mut ratios = [1; Strategy::MOST_LEGS];
        for (ratio, leg) in ratios.iter_mut().zip(legs) {
            *ratio = leg.ratio;
        }
        refuse_if(!ratios_fit(&ratios[..legs.len()]), 5)?;
        let opened: Option<Vec<OpenLeg>> = legs.iter().map(|l| open_leg(l, settings)).collect();
        let legs = opened.ok_or(6)?;
        refuse_if(settings.outside().is_some(), 7)?;
        Ok(Strategy {
            legs,
            settings: *settings,
        })
    }

    pub fn smallest_ratio(&self) -> Cents {
        let ratios = self.legs.iter().map(|leg| leg.ratio);
        Cents::from(ratios.min().unwrap_or(Leg::LEAST_RATIO))
    }
}

pub fn roots_differ(legs: &[Leg]) -> bool {
    legs.iter().any(|leg| leg.root() != legs[0].root())
}

pub fn symbol_repeats(legs: &[Leg]) -> bool {
    let repeats = |at: usize| legs[..at].iter().any(|l| l.symbol == legs[at].symbol);
    (0..legs.len()).any(repeats)
}

/// The leg with its side, and its MPV's amount; `None` meets 6.
fn open_leg(leg: &Leg, settings: &Settings) -> Option<OpenLeg> {
    let side = Side::of_letter(leg.side)?;
    let mpv = Leg::MPVS.iter().position(|&mpv| mpv == leg.mpv)?;
    Some(OpenLeg {
        side,
        ratio: leg.ratio,
        amount: Cents::from(settings.amounts[mpv]),
    })
}
