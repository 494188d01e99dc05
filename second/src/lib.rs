//! The complex order auction of document 01, told again from the papers alone.
//!
//! The modules follow the document: [`strategy`] (Strategy and series, with M-104), [`market`]
//! (Prices), [`book`] and [`engine`] (Order and auction life, Where a message is turned back, with
//! M-105), [`execution`] (Execution, with M-103), [`tape`] and [`print`] (Tape); [`form`] is the
//! written form of a tape (M-100), [`average`] an executed order's average price (M-102),
//! [`legprices`] the price of each leg in a fill (M-106), and [`live`] runs a session that never has
//! to be a tape. Nothing here reads or writes anything but its arguments; the binary does that.

pub mod average;
pub mod book;
pub mod engine;
pub mod execution;
pub mod explain;
pub mod form;
pub mod gen;
pub mod legprices;
pub mod live;
pub mod market;
pub mod message;
pub mod print;
pub mod strategy;
pub mod tape;
pub mod text;

/// A number of the table "Where a message is turned back".
pub type Refusal = u8;

/// One line of that table: the number applies if the condition does.
fn refuse_if(condition: bool, number: Refusal) -> Result<(), Refusal> {
    if condition {
        Err(number)
    } else {
        Ok(())
    }
}
