//! The average price of an order.

use std::fmt;

/// The average net price of an order over the fill records of a message that name it as order.
#[derive(Clone, Copy, PartialEq, Eq, Debug, Hash)]
pub enum Average {
    /// The order has no fills there.
    None,
    /// The sum of price times units, divided by the units.
    Exact {
        /// In cents, rounded toward minus infinity.
        quotient: i64,
        /// From 0 to the units less 1.
        remainder: u64,
    },
}

/// An average as the library gives it.
#[repr(C)]
pub struct AverageRow {
    kind: u32,
    quotient: i64,
    remainder: u64,
}

impl AverageRow {
    const EXACT: u32 = 2;

    /// The library is proved to give one of two kinds: what is left is none.
    pub fn average(self) -> Average {
        match self.kind {
            AverageRow::EXACT => Average::Exact { quotient: self.quotient, remainder: self.remainder },
            _ => Average::None,
        }
    }
}

/// What stands behind the order in the line that tapeprint prints; it prints none for an order that has none.
impl fmt::Display for Average {
    fn fmt(&self, f: &mut fmt::Formatter) -> fmt::Result {
        match self {
            Average::None => f.write_str("none"),
            Average::Exact { quotient, remainder } => write!(f, "{quotient} {remainder}"),
        }
    }
}
