//! A message: its time, and what it asks with the fields its kind uses, right or wrong.

use crate::market::{LocalSide, Quote};
use crate::strategy::Cents;

#[derive(Clone, Copy, PartialEq, Eq, Debug)]
pub struct Message {
    pub time: u64,
    pub request: Request,
}

#[derive(Clone, Copy, PartialEq, Eq, Debug)]
pub enum Request {
    Local {
        leg: u8,
        quote: Quote<LocalSide>,
    },
    National {
        leg: u8,
        quote: Quote<Cents>,
    },
    Order {
        terms: Terms,
        account: u8,
        wish: bool,
    },
    Response {
        terms: Terms,
        account: u8,
    },
    Modify {
        terms: Terms,
    },
    Cancel {
        id: u32,
        participant: u32,
    },
    Reduce {
        id: u32,
        participant: u32,
        /// The new open units.
        units: u32,
    },
    Clock,
}

/// What orders, responses and modifications have in common.
#[derive(Clone, Copy, PartialEq, Eq, Debug)]
pub struct Terms {
    pub side: u8,
    pub id: u32,
    pub participant: u32,
    pub units: u32,
    pub price: Cents,
}
