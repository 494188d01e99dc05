//! Fill records, as the library writes them into the lent list.

use std::fmt;

/// A fill record. The list of them is what the library writes into: nothing is copied. Two records are equal where they say the
/// same, whatever stands behind their last leg prices, which means nothing.
#[repr(transparent)]
#[derive(Clone, Copy, Eq, Default)]
pub struct Fill([u64; Fill::NUMBERS]);

/// Who a fill was with, at its price.
#[derive(Clone, Copy, PartialEq, Eq, Debug, Hash)]
pub enum Rank {
    /// The legs.
    L,
    /// A customer's order or response, in an auction.
    C,
    /// Another's order or response, in an auction.
    N,
    /// Late legs, in an auction.
    T,
    /// An order by arrival, outside an auction.
    R,
}

/// The other side of a fill: the legs, or the order or response of an id.
#[derive(Clone, Copy, PartialEq, Eq, Debug, Hash)]
pub enum Contra {
    /// The legs.
    Legs,
    /// An order or a response.
    Entry(u32),
}

impl Fill {
    /// The numbers that the library writes for a record.
    pub const NUMBERS: usize = 11;

    /// The places that a fill list must have: no message has more records.
    pub const LEAST_PLACES: usize = 2_000;

    /// The prices of legs that a record has room for.
    const MOST_LEGS: u64 = 4;

    /// A place that nothing was written to.
    pub const BLANK: Fill = Fill([0; Fill::NUMBERS]);

    /// Prices are biased: cents and 40,000,000. One above the greatest counts as that.
    const BIAS: i64 = 40_000_000;
    const MOST_BIASED: u64 = 1 << 62;

    /// The arrival number of the message that brought the fill.
    pub fn number(&self) -> u64 {
        self.0[0]
    }

    /// The id of the order that was filled.
    pub fn order(&self) -> u32 {
        narrow(self.0[1])
    }

    /// Its rank.
    pub fn rank(&self) -> Rank {
        match self.0[2] {
            0 => Rank::L,
            1 => Rank::C,
            2 => Rank::N,
            3 => Rank::T,
            _ => Rank::R,
        }
    }

    /// Its other side.
    pub fn contra(&self) -> Contra {
        match self.0[3].checked_sub(1) {
            None => Contra::Legs,
            Some(id) => Contra::Entry(narrow(id)),
        }
    }

    /// Its net price, in cents.
    pub fn price(&self) -> i64 {
        self.0[4].min(Fill::MOST_BIASED) as i64 - Fill::BIAS
    }

    /// Its units.
    pub fn units(&self) -> u32 {
        narrow(self.0[5])
    }

    /// The price of each leg, in cents. A fill with the legs has the prices taken. Any other has prices inside each leg's local
    /// bid and ask as they stood just before it, whose net is its price; of several the lowest on leg 0, then on leg 1, and so on.
    /// It has none where some leg has no bid or no ask, some ask is over 50 cents above its bid, or no prices inside make the net.
    pub fn leg_prices(&self) -> Option<&[u64]> {
        let legs = self.0[6].checked_sub(1)?.min(Fill::MOST_LEGS);
        Some(&self.0[7..][..legs as usize])
    }
}

impl PartialEq for Fill {
    fn eq(&self, other: &Fill) -> bool {
        let said = |fill: &Fill| (fill.number(), fill.order(), fill.rank(), fill.contra(), fill.price(), fill.units());
        said(self) == said(other) && self.leg_prices() == other.leg_prices()
    }
}

/// The record that eleven numbers stand for, in the library's own form: any numbers do.
impl From<[u64; Fill::NUMBERS]> for Fill {
    fn from(numbers: [u64; Fill::NUMBERS]) -> Fill {
        Fill(numbers)
    }
}

/// Its numbers as they stand, those that mean nothing too.
impl From<Fill> for [u64; Fill::NUMBERS] {
    fn from(fill: Fill) -> [u64; Fill::NUMBERS] {
        fill.0
    }
}

/// A number of 32 bits; those above count as the greatest.
fn narrow(number: u64) -> u32 {
    number.min(u64::from(u32::MAX)) as u32
}

impl Contra {
    /// The id, 0 for the legs, as tapeprint prints it.
    pub fn id(self) -> u32 {
        match self {
            Contra::Legs => 0,
            Contra::Entry(id) => id,
        }
    }
}

impl fmt::Display for Rank {
    fn fmt(&self, f: &mut fmt::Formatter) -> fmt::Result {
        write!(f, "{self:?}")
    }
}

impl fmt::Display for Contra {
    fn fmt(&self, f: &mut fmt::Formatter) -> fmt::Result {
        write!(f, "{}", self.id())
    }
}

/// The line that tapeprint prints for it.
impl fmt::Display for Fill {
    fn fmt(&self, f: &mut fmt::Formatter) -> fmt::Result {
        let (number, order, rank, contra) = (self.number(), self.order(), self.rank(), self.contra());
        write!(f, "{number} {order} {rank} {contra} {} {}", self.price(), self.units())
    }
}

impl fmt::Debug for Fill {
    fn fmt(&self, f: &mut fmt::Formatter) -> fmt::Result {
        f.debug_struct("Fill")
            .field("number", &self.number())
            .field("order", &self.order())
            .field("rank", &self.rank())
            .field("contra", &self.contra())
            .field("price", &self.price())
            .field("units", &self.units())
            .field("leg_prices", &self.leg_prices())
            .finish()
    }
}
