//! What is opened: the legs of a strategy, and the class settings.

use crate::message::Side;

/// A leg, right or wrong: a wrong one is refused when it is opened.
#[repr(C)]
#[derive(Clone, Copy, PartialEq, Eq, Debug)]
pub struct Leg {
    /// Root padded with spaces to 6, yymmdd, C or P, strike in 8 digits.
    pub symbol: [u8; 21],
    /// As seen by a buyer of the strategy.
    pub side: Side,
    /// 1 to 9.
    pub ratio: u8,
    /// The minimum price step, 1, 5 or 10 cents.
    pub mpv: u8,
}

impl Leg {
    const NONE: Leg = Leg { symbol: [0; 21], side: Side(0), ratio: 0, mpv: 0 };
}

/// The class settings, the first arrival number and the opening's time.
#[repr(C)]
#[derive(Clone, Copy, PartialEq, Eq, Debug, Default)]
pub struct Settings {
    /// The number that the first accepted message takes.
    pub first_number: u64,
    /// No message is before it.
    pub opening_time: u64,
    /// The least units of an order that can begin an auction.
    pub minimum: u32,
    /// How long an auction takes.
    pub interval: u16,
    /// How far from the best contra price an order that begins an auction may be, in cents.
    pub distance: u16,
    /// The most legs of a strategy that has auctions.
    pub most_legs: u16,
    /// The amounts of the price filter, for a minimum price step of 1, 5 and 10.
    pub amounts: [u16; 3],
}

/// What is opened.
#[derive(Clone, Copy, PartialEq, Eq, Debug)]
pub struct Opening<'a> {
    /// Two to four legs; any other number of them is refused with 1.
    pub legs: &'a [Leg],
    /// The settings.
    pub settings: Settings,
}

/// The same as the library takes it.
#[repr(C)]
pub struct OpeningRow {
    legs: [Leg; 4],
    count: usize,
    settings: Settings,
}

impl Opening<'_> {
    pub(crate) fn row(&self) -> OpeningRow {
        let mut legs = [Leg::NONE; 4];
        legs.iter_mut().zip(self.legs).for_each(|(to, leg)| *to = *leg);
        OpeningRow { legs, count: self.legs.len(), settings: self.settings }
    }
}
