//! Messages. Whatever a feed can send can be said: a wrong value is refused with its number.

use std::fmt;

/// A side as its letter, right or wrong.
#[repr(transparent)]
#[derive(Clone, Copy, PartialEq, Eq, Hash)]
pub struct Side(
    /// B or S, or a byte that is refused.
    pub u8,
);

impl Side {
    /// The letter B.
    pub const BUY: Side = Side(b'B');
    /// The letter S.
    pub const SELL: Side = Side(b'S');
}

/// An account as its number, right or wrong.
#[repr(transparent)]
#[derive(Clone, Copy, PartialEq, Eq, Hash)]
pub struct Account(
    /// 1 or 2, or a number that is refused.
    pub u8,
);

impl Account {
    /// A customer, 1.
    pub const CUSTOMER: Account = Account(1);
    /// Not a customer, 2.
    pub const OTHER: Account = Account(2);
}

/// A message. Prices are in cents, legs count from 0, and price and size both 0 mean that a quote's side is absent.
#[derive(Clone, Copy, PartialEq, Eq, Debug)]
#[allow(missing_docs)]
pub enum Message {
    /// A leg's local quote.
    Local { time: u64, leg: u8, bid: i32, bid_size: u32, ask: i32, ask_size: u32 },
    /// A leg's national quote.
    National { time: u64, leg: u8, bid: i32, ask: i32 },
    /// An order, with its wish for an auction.
    Order { time: u64, side: Side, account: Account, wish: bool, id: u32, participant: u32, units: u32, price: i32 },
    /// A response to the auction that is pending.
    Response { time: u64, side: Side, account: Account, id: u32, participant: u32, units: u32, price: i32 },
    /// A response's new side, units and price.
    Modify { time: u64, side: Side, id: u32, participant: u32, units: u32, price: i32 },
    /// The cancel of an order.
    Cancel { time: u64, id: u32, participant: u32 },
    /// A clock.
    Clock { time: u64 },
    /// An order's new open units.
    Reduce { time: u64, id: u32, participant: u32, units: u32 },
    /// The fields of a record as they stand, of any kind or none.
    Record(Record),
}

/// The fields of a message record. Those that its kind does not use are ignored; a kind that is none is refused with 61.
#[repr(C)]
#[derive(Clone, Copy, PartialEq, Eq, Debug, Default)]
pub struct Record {
    /// One of the eight below.
    pub kind: u8,
    /// The letter B or S.
    pub side: u8,
    /// 1 customer, 2 not.
    pub account: u8,
    /// An order's auction wish, 0 for no, or a quote's leg.
    pub wish_or_leg: u8,
    /// Of the order or response.
    pub id: u32,
    /// Whose it is.
    pub participant: u32,
    /// Units, those still open of an order that is reduced, or a quote's bid size.
    pub units: u32,
    /// The limit, or a quote's bid.
    pub price: i32,
    /// A quote's ask.
    pub ask: i32,
    /// A quote's ask size.
    pub ask_size: u32,
    /// The message's time.
    pub time: u64,
}

impl Record {
    /// The bytes of a message record.
    pub const SIZE: usize = 36;

    /// The kind of a local quote.
    pub const LOCAL: u8 = 1;
    /// Of a national quote.
    pub const NATIONAL: u8 = 2;
    /// Of an order.
    pub const ORDER: u8 = 3;
    /// Of a response.
    pub const RESPONSE: u8 = 4;
    /// Of a modification.
    pub const MODIFY: u8 = 5;
    /// Of a cancel.
    pub const CANCEL: u8 = 6;
    /// Of a clock.
    pub const CLOCK: u8 = 7;
    /// Of a reduce.
    pub const REDUCE: u8 = 8;

    /// A record of a kind at a time, with nothing else in it.
    fn new(kind: u8, time: u64) -> Record {
        Record { kind, time, ..Record::default() }
    }
}

impl Message {
    /// The fields of its record.
    pub fn record(&self) -> Record {
        match *self {
            Message::Local { time, leg, bid, bid_size, ask, ask_size } => {
                let record = Record::new(Record::LOCAL, time);
                Record { wish_or_leg: leg, units: bid_size, price: bid, ask, ask_size, ..record }
            }
            Message::National { time, leg, bid, ask } => {
                Record { wish_or_leg: leg, price: bid, ask, ..Record::new(Record::NATIONAL, time) }
            }
            Message::Order {
                time,
                side: Side(side),
                account: Account(account),
                wish,
                id,
                participant,
                units,
                price,
            } => {
                let record = Record::new(Record::ORDER, time);
                Record { side, account, wish_or_leg: wish.into(), id, participant, units, price, ..record }
            }
            Message::Response { time, side: Side(side), account: Account(account), id, participant, units, price } => {
                Record { side, account, id, participant, units, price, ..Record::new(Record::RESPONSE, time) }
            }
            Message::Modify { time, side: Side(side), id, participant, units, price } => {
                Record { side, id, participant, units, price, ..Record::new(Record::MODIFY, time) }
            }
            Message::Cancel { time, id, participant } => {
                Record { id, participant, ..Record::new(Record::CANCEL, time) }
            }
            Message::Clock { time } => Record::new(Record::CLOCK, time),
            Message::Reduce { time, id, participant, units } => {
                Record { id, participant, units, ..Record::new(Record::REDUCE, time) }
            }
            Message::Record(record) => record,
        }
    }
}

impl fmt::Display for Side {
    fn fmt(&self, f: &mut fmt::Formatter) -> fmt::Result {
        match *self {
            Side::BUY => write!(f, "buy"),
            Side::SELL => write!(f, "sell"),
            Side(byte) => write!(f, "no side ({byte})"),
        }
    }
}

impl fmt::Debug for Side {
    fn fmt(&self, f: &mut fmt::Formatter) -> fmt::Result {
        write!(f, "{self}")
    }
}

impl fmt::Display for Account {
    fn fmt(&self, f: &mut fmt::Formatter) -> fmt::Result {
        match *self {
            Account::CUSTOMER => write!(f, "customer"),
            Account::OTHER => write!(f, "not a customer"),
            Account(number) => write!(f, "no account ({number})"),
        }
    }
}

impl fmt::Debug for Account {
    fn fmt(&self, f: &mut fmt::Formatter) -> fmt::Result {
        write!(f, "{self}")
    }
}
