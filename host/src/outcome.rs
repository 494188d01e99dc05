//! What a message is answered with.

use crate::average::Average;
use crate::fill::Fill;
use crate::library;
use std::error::Error;
use std::fmt;

/// The answer to a message: one of six, each with its own numbers.
#[must_use]
#[derive(Clone, Copy, PartialEq, Eq, Debug)]
pub enum Outcome {
    /// Taken.
    Noted {
        /// How many fill records it has.
        fills: usize,
    },
    /// An order that neither began, joined nor ended an auction.
    Placed {
        /// Its units that are open.
        units: u64,
        /// How many fill records it has.
        fills: usize,
    },
    /// An order that began an auction.
    Begun {
        /// The time at which the auction ends.
        deadline: u64,
    },
    /// An order that joined the auction's queue.
    Joined {
        /// The units in the queue.
        units: u64,
    },
    /// A message that ended the auction.
    Ended {
        /// Why it ended.
        cause: Cause,
        /// How many fill records it has.
        fills: usize,
    },
    /// Turned back: nothing has changed.
    Refused(Refusal),
}

/// Why an auction ended.
#[derive(Clone, Copy, PartialEq, Eq, Debug, Hash)]
pub enum Cause {
    /// A clock at or after the deadline.
    Time,
    /// An order at a better limit than the initiator's.
    Order,
    /// A local quote better than the initiator's limit.
    Legs,
    /// The cancel of the last order in the queue.
    Cancel,
}

/// The number that an opening, a message or a tape is refused with; as words it is docs/NUMBERS.md's sentence.
#[derive(Clone, Copy, PartialEq, Eq, PartialOrd, Ord, Debug, Hash)]
pub struct Refusal(u32);

impl Outcome {
    /// How many fill records stand at the start of the list.
    pub fn fills(&self) -> usize {
        match *self {
            Outcome::Noted { fills } | Outcome::Placed { fills, .. } | Outcome::Ended { fills, .. } => fills,
            Outcome::Begun { .. } | Outcome::Joined { .. } | Outcome::Refused(_) => 0,
        }
    }

    /// The average price of an order over the message's fill records, which stand at the start of `fills`. Any list and any count
    /// are answered for: there is nothing behind the end of the list, and what is behind [`Fill::LEAST_PLACES`] is not looked at.
    ///
    /// ```
    /// use tumghavi::{Average, Fill, Outcome};
    ///
    /// // Order 8: one unit at -3 and one at -4; a third record is of another message.
    /// let at = |price: i64| Fill::from([4, 8, 0, 0, (40_000_000 + price) as u64, 1, 0, 0, 0, 0, 0]);
    /// let (fills, outcome) = ([at(-3), at(-4), at(100)], Outcome::Noted { fills: 2 });
    /// assert_eq!(outcome.average(&fills, 8), Average::Exact { quotient: -4, remainder: 1 });
    /// assert_eq!(outcome.average(&fills, 9), Average::None);
    /// ```
    pub fn average(&self, fills: &[Fill], order: u32) -> Average {
        library::average(fills, self.fills(), order).average()
    }
}

/// An outcome as the library gives it.
#[repr(C)]
pub struct OutcomeRow {
    kind: u32,
    cause: u32,
    number: u32,
    fills: u32,
    units: u64,
    deadline: u64,
}

impl OutcomeRow {
    const NOTED: u32 = 1;
    const PLACED: u32 = 2;
    const BEGUN: u32 = 3;
    const JOINED: u32 = 4;
    const ENDED: u32 = 5;
    const BY_TIME: u32 = 1;
    const BY_ORDER: u32 = 2;
    const BY_LEGS: u32 = 3;

    /// The library is proved to give one of six kinds, and one of four causes with an end: what is left is refused, and by a cancel.
    pub fn outcome(self) -> Outcome {
        let fills = self.fills as usize;
        match self.kind {
            OutcomeRow::NOTED => Outcome::Noted { fills },
            OutcomeRow::PLACED => Outcome::Placed { units: self.units, fills },
            OutcomeRow::BEGUN => Outcome::Begun { deadline: self.deadline },
            OutcomeRow::JOINED => Outcome::Joined { units: self.units },
            OutcomeRow::ENDED => Outcome::Ended { cause: self.cause(), fills },
            _ => Outcome::Refused(Refusal::new(self.number)),
        }
    }

    fn cause(&self) -> Cause {
        match self.cause {
            OutcomeRow::BY_TIME => Cause::Time,
            OutcomeRow::BY_ORDER => Cause::Order,
            OutcomeRow::BY_LEGS => Cause::Legs,
            _ => Cause::Cancel,
        }
    }
}

impl Refusal {
    /// The refusal of a number.
    pub const fn new(number: u32) -> Refusal {
        Refusal(number)
    }

    /// The number.
    pub fn number(self) -> u32 {
        self.0
    }

    fn words(self) -> &'static str {
        match self.0 {
            1 => "there are fewer than 2 or more than 4 legs",
            2 => "a symbol is malformed: a root that is not 1 to 6 capitals padded with spaces to 6, a date that is not six digits, a month outside 01 to 12, a type other than C or P, a strike that is not eight digits or is zero",
            3 => "a date is not the third Friday of its month",
            4 => "the roots differ, or a symbol repeats",
            5 => "a ratio is not 1 to 9, one is above three times another, or all have a common divisor",
            6 => "a leg's side is not B or S, or its minimum price step is not 1, 5 or 10",
            7 => "a setting is outside its bounds: interval 1 to 1,000, distance to 999, most legs 2 to 4, minimum 1 to 999,999, amounts to 999, first number and opening time to 10^15",
            10 => "the fill list has fewer than 2,000 places (or the arrays lent as the copy have another size than a copy's)",
            11 => "its time is above 10^15 or before the last accepted time",
            12 => "the next arrival number is above 10^15",
            13 => "an auction's deadline is reached and the message is not a clock",
            20 => "the strategy has no such leg",
            21 => "a local side is neither price 1 to 999,999 with size 1 to 999,999 nor both 0; a national price is above 999,999 or negative",
            22 => "both local sides are there and the bid is not below the ask",
            30 => "the side is not B or S, the account not 1 or 2, the limit outside -40,000,000 to 40,000,000, the id or participant 0, or the units not 1 to 999,999",
            31 => "the id is open, as an order or a response",
            32 => "32 orders are open",
            33 => "the limit is beyond the national contra price by more than the filter's amount times the smallest ratio",
            40 => "no auction is pending",
            41 => "a field is wrong, as in 30; a modification has no account",
            42 => "a new response: the id is open. A modification: no response of that id and participant",
            43 => "a new response: 32 are open",
            50 => "no open order has that id and participant",
            71 => "a reduce: the units are 0 or not below the open units",
            60 => "a tape has under 40 or over 65,535 bytes, or a section that is not empty overlaps the header or the other section or runs past the end",
            61 => "a message's kind is not 1 to 8, or the bytes handed over as a record are not 36. A tape is turned back as a whole; live and the library refuse the one record",
            70 => "the buffer that is lent for a tape's form is shorter than the form",
            _ => "no number of this engine",
        }
    }
}

impl fmt::Display for Cause {
    fn fmt(&self, f: &mut fmt::Formatter) -> fmt::Result {
        f.write_str(match self {
            Cause::Time => "time",
            Cause::Order => "order",
            Cause::Legs => "legs",
            Cause::Cancel => "cancel",
        })
    }
}

impl fmt::Display for Refusal {
    fn fmt(&self, f: &mut fmt::Formatter) -> fmt::Result {
        write!(f, "{}: {}", self.0, self.words())
    }
}

impl Error for Refusal {}

/// The line that live writes for it.
impl fmt::Display for Outcome {
    fn fmt(&self, f: &mut fmt::Formatter) -> fmt::Result {
        match self {
            Outcome::Noted { fills } => write!(f, "noted {fills}"),
            Outcome::Placed { units, fills } => write!(f, "placed {units} {fills}"),
            Outcome::Begun { deadline } => write!(f, "begun {deadline}"),
            Outcome::Joined { units } => write!(f, "joined {units}"),
            Outcome::Ended { cause, fills } => write!(f, "ended {cause} {fills}"),
            Outcome::Refused(refusal) => write!(f, "refused {}", refusal.number()),
        }
    }
}
