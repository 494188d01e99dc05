//! What is open: held, live and queue orders, and the responses of a pending auction.

use crate::strategy::{Cents, Side};
use std::ops::RangeInclusive;

/// "Account (1 customer, 2 not)."
#[derive(Clone, Copy, PartialEq, Eq, Debug)]
pub enum Account {
    Customer,
    NonCustomer,
}

impl Account {
    pub fn of_number(number: u8) -> Option<Account> {
        match number {
            1 => Some(Account::Customer),
            2 => Some(Account::NonCustomer),
            _ => None,
        }
    }
}

/// "An open order is held, live or in the auction queue." The other entries are responses.
#[derive(Clone, Copy, PartialEq, Eq, Debug)]
pub enum Standing {
    Held,
    Live,
    Queue,
    Response,
}

/// An open order or response.
#[derive(Clone, Copy, PartialEq, Eq, Debug)]
pub struct Entry {
    pub id: u32,
    pub participant: u32,
    pub side: Side,
    pub account: Account,
    /// The limit of an order, the price of a response.
    pub limit: Cents,
    /// The units still open.
    pub units: u32,
    pub arrival: u64,
    pub standing: Standing,
}

impl Entry {
    pub const UNITS: RangeInclusive<u32> = 1..=999_999;
    /// "Net limits run from -40,000,000 to 40,000,000, zero included."
    pub const LIMIT: RangeInclusive<Cents> = -40_000_000..=40_000_000;

    pub fn is_order(&self) -> bool {
        self.standing != Standing::Response
    }
}

/// The open entries, by arrival number. An id is open in one entry at most.
#[derive(Clone, Debug, Default)]
pub struct Book {
    entries: Vec<Entry>,
}

impl Book {
    pub const MOST_ORDERS: usize = 32;
    pub const MOST_RESPONSES: usize = 32;
    pub const MOST_ENTRIES: usize = Book::MOST_ORDERS + Book::MOST_RESPONSES;

    pub fn new() -> Book {
        Book {
            entries: Vec::with_capacity(Book::MOST_ENTRIES),
        }
    }

    pub fn entries(&self) -> &[Entry] {
        &self.entries
    }

    pub fn entry_mut(&mut self, at: usize) -> &mut Entry {
        &mut self.entries[at]
    }

    pub fn orders(&self) -> impl Iterator<Item = &Entry> {
        self.entries.iter().filter(|e| e.is_order())
    }

    pub fn responses(&self) -> impl Iterator<Item = &Entry> {
        self.entries.iter().filter(|e| !e.is_order())
    }

    pub fn is_open(&self, id: u32) -> bool {
        self.entries.iter().any(|e| e.id == id)
    }

    /// The place of the open order of that id and participant.
    pub fn find_order(&self, id: u32, participant: u32) -> Option<usize> {
        self.position(|e| e.is_order() && e.id == id && e.participant == participant)
    }

    /// The place of the open response of that id and participant.
    pub fn find_response(&self, id: u32, participant: u32) -> Option<usize> {
        self.position(|e| !e.is_order() && e.id == id && e.participant == participant)
    }

    /// The place of the entry that arrived first among those asked for.
    pub fn position(&self, asked: impl Fn(&Entry) -> bool) -> Option<usize> {
        self.entries.iter().position(asked)
    }

    /// The place of the best entry by price, then arrival, among those asked for, which are of one
    /// side.
    pub fn best(&self, asked: impl Fn(&Entry) -> bool) -> Option<usize> {
        let mut best: Option<usize> = None;
        for (at, entry) in self.entries.iter().enumerate().filter(|(_, e)| asked(e)) {
            if best.is_none_or(|b| entry.side.better(entry.limit, self.entries[b].limit)) {
                best = Some(at);
            }
        }
        best
    }

    /// Adds an entry with the greatest arrival number so far.
    pub fn add(&mut self, entry: Entry) {
        self.entries.push(entry);
    }

    pub fn remove(&mut self, at: usize) -> Entry {
        self.entries.remove(at)
    }

    /// "Ids are free again once their entry is filled ..., and so is its place."
    pub fn remove_filled(&mut self) {
        self.entries.retain(|e| e.units > 0);
    }

    /// "All responses expire."
    pub fn expire_responses(&mut self) {
        self.entries.retain(Entry::is_order);
    }
}
