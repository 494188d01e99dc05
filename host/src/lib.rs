//! The proved auction engine for hosts in Rust: a copy of the engine held in the host's own memory and changed in place.
//!
//! [`Engine::open`] opens a strategy, [`Engine::step`] answers a message, with its fill records in a list that the host
//! lends, and [`Engine::record`] does so from the 36 bytes of a message record; [`Outcome::average`] is the average price of
//! an order over those records. Every value of every field is answered: a wrong one is refused with a number ([`Refusal`]),
//! and a refused message changes nothing. Nothing here panics.
//!
//! The own case of document 01: ten units of a seller of fifteen go to the legs, and five to the buyer who rests.
//!
//! ```
//! use tumghavi::{Account, Average, Contra, Engine, Fill, Leg, Message, Opening, Outcome, Rank, Settings, Side};
//!
//! let leg = |symbol, side| Leg { symbol, side, ratio: 1, mpv: 5 };
//! let legs = [leg(*b"XYZ   260116C00020000", Side::BUY), leg(*b"XYZ   260116C00025000", Side::SELL)];
//! let settings = Settings {
//!     first_number: 1,
//!     opening_time: 0,
//!     minimum: 1,
//!     interval: 500,
//!     distance: 0,
//!     most_legs: 4,
//!     amounts: [10, 15, 30],
//! };
//! let mut engine = Engine::open(&Opening { legs: &legs, settings })?;
//!
//! let quote = |leg, bid, ask| Message::Local { time: 0, leg, bid, bid_size: 10, ask, ask_size: 10 };
//! let order = |id, participant, side, units| Message::Order {
//!     time: 0,
//!     side,
//!     account: Account::CUSTOMER,
//!     wish: false,
//!     id,
//!     participant,
//!     units,
//!     price: 100,
//! };
//! let mut fills = vec![Fill::BLANK; Fill::LEAST_PLACES];
//! assert_eq!(engine.step(&quote(0, 220, 240), &mut fills), Outcome::Noted { fills: 0 });
//! assert_eq!(engine.step(&quote(1, 110, 120), &mut fills), Outcome::Noted { fills: 0 });
//! assert_eq!(engine.step(&order(7, 1, Side::BUY, 10), &mut fills), Outcome::Placed { units: 10, fills: 0 });
//!
//! let outcome = engine.step(&order(8, 2, Side::SELL, 15), &mut fills);
//! assert_eq!(outcome, Outcome::Placed { units: 0, fills: 2 });
//! assert_eq!(fills[0].to_string(), "4 8 L 0 100 10");
//! assert_eq!(fills[1].to_string(), "4 8 R 7 100 5");
//! assert_eq!((fills[1].rank(), fills[1].contra(), fills[1].units()), (Rank::R, Contra::Entry(7), 5));
//! // The legs' bid and ask that the seller took are gone, so that the second fill has no leg prices.
//! assert_eq!(fills[0].leg_prices(), Some(&[220, 120][..]));
//! assert_eq!(fills[1].leg_prices(), None);
//! assert_eq!(outcome.average(&fills, 8), Average::Exact { quotient: 100, remainder: 0 });
//! // Order 7 was only the other side.
//! assert_eq!(outcome.average(&fills, 7), Average::None);
//!
//! let cancel = Message::Cancel { time: 0, id: 9, participant: 1 };
//! let Outcome::Refused(refusal) = engine.step(&cancel, &mut fills) else { panic!() };
//! assert_eq!(refusal.to_string(), "50: no open order has that id and participant");
//! assert_eq!((engine.open_orders(), engine.open_responses()), (1, 0));
//! # Ok::<(), tumghavi::Refusal>(())
//! ```

#![deny(unsafe_code, missing_docs)]
#![forbid(unsafe_op_in_unsafe_fn, unused_must_use)]

mod average;
mod engine;
mod fill;
#[allow(unsafe_code)]
mod library;
mod message;
mod opening;
mod outcome;

pub use average::Average;
pub use engine::Engine;
pub use fill::{Contra, Fill, Rank};
pub use message::{Account, Message, Record, Side};
pub use opening::{Leg, Opening, Settings};
pub use outcome::{Cause, Outcome, Refusal};

/// The bytes that tapeprint prints for a tape, as many as `out` has room for, from its start on, and how many they are.
/// What stands behind them in `out` is as it was. Any bytes are a tape: one that is damaged or refused prints the line that says so.
/// Its fill list stands on the stack, of which it and [`print()`] need 200,000 bytes; an opening or a message needs less than 16,000.
pub fn print_into(tape: &[u8], out: &mut [u8]) -> usize {
    library::print(tape, out)
}

/// All that tapeprint prints for a tape.
pub fn print(tape: &[u8]) -> Vec<u8> {
    let mut out = vec![0; 4096];
    loop {
        let written = print_into(tape, &mut out);
        if written < out.len() {
            out.truncate(written);
            return out;
        }
        let room = out.len() * 4;
        out.resize(room, 0);
    }
}

/// Writes the form of a tape, the same bytes for all tapes of one meaning, to the start of `out`, and says how many they are:
/// legs at 40, messages straight after, fields that a kind does not use 0, a wish 1. What stands behind them in `out` is as it was.
///
/// A tape that tapeprint turns back with 60 or 61 has no form; for any other, an `out` too short is refused with 70. Under each
/// of the three every byte of `out` is as it was. A form is never longer than its tape: as many bytes are never too short.
///
/// ```
/// use tumghavi::{form, Refusal};
///
/// // No legs, four bytes of a gap, and a clock, which has no side.
/// let mut tape = [0; 80];
/// tape[..8].copy_from_slice(&[0, 0, 9, 0, 1, 0, 44, 0]);
/// tape[40..46].copy_from_slice(&[5, 5, 5, 5, 7, b'B']);
///
/// let mut out = [9; 80];
/// assert_eq!(form(&tape, &mut out), Ok(76));
/// assert_eq!(out[..8], [0, 0, 40, 0, 1, 0, 40, 0]);
/// assert_eq!(out[40..42], [7, 0]);
/// assert_eq!(out[76..], [9; 4]);
/// assert_eq!(form(&tape, &mut out[..75]), Err(Refusal::new(70)));
/// ```
pub fn form(tape: &[u8], out: &mut [u8]) -> Result<usize, Refusal> {
    match library::form(tape, out) {
        library::Reply { number: 0, size } => Ok(size),
        library::Reply { number, .. } => Err(Refusal::new(number)),
    }
}
