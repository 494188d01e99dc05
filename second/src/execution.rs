//! "Execution": one turn of an order against what is open to it. Each record carries its leg prices
//! (M-106).

use crate::book::{Account, Book, Entry, Standing};
use crate::legprices::{leg_prices, prices_taken, LegPrices};
use crate::market::{Derived, Market};
use crate::strategy::{Cents, Side, Strategy};

/// The ranks of a fill at one price.
#[derive(Clone, Copy, PartialEq, Eq, Debug)]
pub enum Rank {
    /// Legs.
    L,
    /// Customer orders and responses, in an auction.
    C,
    /// Non-customer orders and responses, in an auction.
    N,
    /// Late legs, in an auction.
    T,
    /// Orders by arrival, outside an auction.
    R,
}

impl Rank {
    pub fn letter(self) -> char {
        match self {
            Rank::L => 'L',
            Rank::C => 'C',
            Rank::N => 'N',
            Rank::T => 'T',
            Rank::R => 'R',
        }
    }
}

/// "A contra is either the legs or an open entry with its id."
#[derive(Clone, Copy, PartialEq, Eq, Debug)]
pub enum Contra {
    Legs,
    Entry(u32),
}

/// A fill record.
#[derive(Clone, Copy, PartialEq, Eq, Debug)]
pub struct Fill {
    /// The message's arrival number.
    pub number: u64,
    pub order: u32,
    pub rank: Rank,
    pub contra: Contra,
    pub price: Cents,
    pub units: u32,
    /// `None` says "no leg prices".
    pub leg_prices: Option<LegPrices>,
}

impl Fill {
    /// What the places of a new fill list hold.
    pub const BLANK: Fill = Fill {
        number: 0,
        order: 0,
        rank: Rank::L,
        contra: Contra::Legs,
        price: 0,
        units: 0,
        leg_prices: None,
    };
}

/// "The fill list is a lent list of fill records"; "places past the count are unchanged".
pub struct FillList<'a> {
    places: &'a mut [Fill],
    count: usize,
}

impl<'a> FillList<'a> {
    /// A list under this many places meets 10.
    pub const LEAST_PLACES: usize = 2_000;

    pub fn new(places: &'a mut [Fill]) -> FillList<'a> {
        FillList { places, count: 0 }
    }

    pub fn count(&self) -> usize {
        self.count
    }

    fn push(&mut self, fill: Fill) {
        self.places[self.count] = fill;
        self.count += 1;
    }

    fn since(&self, first: usize) -> &[Fill] {
        &self.places[first..self.count]
    }
}

/// The derived contra price when an auction began, and how many of its units are rank L (M-103).
#[derive(Clone, Copy, PartialEq, Eq, Debug)]
pub struct Start {
    pub price: Cents,
    /// "The smallest number of units it has shown since the start"; at the end, less what queue
    /// orders took from rank L.
    pub units: u32,
}

impl Start {
    /// Reads the derived contra price as it stands. "If the price moved away and came back, that
    /// number is 0."
    pub fn read(&mut self, derived: Option<Derived>) {
        let shown = derived.filter(|derived| derived.price == self.price);
        self.units = self.units.min(shown.map_or(0, |derived| derived.units));
    }
}

/// "A turn is each execution there: from the queue, on going live, in the legs' pass."
#[derive(Clone, Copy, PartialEq, Eq, Debug)]
pub enum Mode {
    /// `None` where no derived contra price existed when the auction began.
    Queue {
        start: Option<Start>,
    },
    GoingLive,
    LegsPass,
}

impl Mode {
    /// "Open to a queue order: legs, live and held opposite orders, opposite responses. Open to a
    /// held order: legs and live opposite orders. In the legs' pass: legs."
    fn opens(self, order: Side, entry: &Entry) -> bool {
        let standing = match self {
            Mode::Queue { .. } => entry.standing != Standing::Queue,
            Mode::GoingLive => entry.standing == Standing::Live,
            Mode::LegsPass => false,
        };
        standing && entry.side == order.opposite() && entry.units > 0
    }

    /// How many of the legs' units are rank L for an order of a side; the others are T. "Legs are
    /// late if their price is better, for the order, than the same derived price when the auction
    /// began, or none existed then"; where it is equal, "only the smallest number of units it has
    /// shown since the start is rank L, and the remaining units are T".
    fn units_of_rank_l(self, order: Side, legs: &Derived) -> u32 {
        let contra = order.opposite();
        match self {
            Mode::Queue { start: None } => 0,
            Mode::Queue { start: Some(start) } if contra.better(legs.price, start.price) => 0,
            Mode::Queue { start: Some(start) } if legs.price == start.price => start.units,
            _ => legs.units,
        }
    }

    /// "What one queue order takes from rank L is gone for the next."
    fn lower_rank_l(&mut self, price: Cents, units: u32) {
        match self {
            Mode::Queue { start: Some(start) } if start.price == price => start.units -= units,
            _ => {}
        }
    }
}

/// Shares an amount by size: "amount × size ÷ total, rounded down; leftover units go one each to
/// the largest remainders, ties to earlier arrival". Sizes stand by arrival; the amount is at most
/// their total.
pub fn share(amount: u32, sizes: &[u32], shares: &mut [u32]) {
    let total: u64 = sizes.iter().map(|&size| u64::from(size)).sum();
    let mut remainders = [(0, 0); Book::MOST_ENTRIES];
    let mut leftover = amount;
    for (at, &size) in sizes.iter().enumerate() {
        let product = u64::from(amount) * u64::from(size);
        shares[at] = (product / total) as u32;
        leftover -= shares[at];
        remainders[at] = (product % total, at);
    }
    let remainders = &mut remainders[..sizes.len()];
    remainders.sort_unstable_by(|a, b| b.0.cmp(&a.0).then(a.1.cmp(&b.1)));
    for &(_, at) in remainders.iter().take(leftover as usize) {
        shares[at] += 1;
    }
}

/// One sharing by size, told to a watcher.
pub struct Sharing<'a> {
    pub price: Cents,
    pub rank: Rank,
    pub amount: u32,
    pub ids: &'a [u32],
    pub sizes: &'a [u32],
    pub shares: &'a [u32],
}

/// Somebody who looks on while orders execute, and changes nothing.
pub trait Watch {
    fn turn_begins(&mut self, _turn: &Turn) {}
    fn shared(&mut self, _sharing: &Sharing) {}
    fn turn_ends(&mut self, _records: &[Fill]) {}
}

/// Nobody looks on.
impl Watch for () {}

/// A turn of the order at a place in the book.
pub struct Turn<'a> {
    pub strategy: &'a Strategy,
    pub market: &'a mut Market,
    pub book: &'a mut Book,
    /// The order's place in the book.
    pub at: usize,
    pub mode: &'a mut Mode,
    /// The message's arrival number.
    pub number: u64,
}

impl Turn<'_> {
    pub fn order(&self) -> &Entry {
        &self.book.entries()[self.at]
    }

    /// The legs as open to the order, where they have a derived price.
    pub fn legs(&self) -> Option<Derived> {
        self.market.derived_contra(self.strategy, self.order().side)
    }

    /// The entries open to the order, by arrival.
    pub fn entries(&self) -> impl Iterator<Item = &Entry> {
        let side = self.order().side;
        let opens = move |entry: &&Entry| self.mode.opens(side, entry);
        self.book.entries().iter().filter(opens)
    }

    /// How many of the legs' units are rank L, and how many T.
    pub fn legs_ranks(&self, legs: &Derived) -> (u32, u32) {
        let early = self.mode.units_of_rank_l(self.order().side, legs);
        (early, legs.units - early)
    }

    pub fn entry_rank(&self, entry: &Entry) -> Rank {
        match (*self.mode, entry.account) {
            (Mode::Queue { .. }, Account::Customer) => Rank::C,
            (Mode::Queue { .. }, Account::NonCustomer) => Rank::N,
            (Mode::GoingLive | Mode::LegsPass, _) => Rank::R,
        }
    }

    /// "Price by price, best first, at the contra's price, within the limit."
    pub fn run(&mut self, fills: &mut FillList, watch: &mut impl Watch) {
        watch.turn_begins(self);
        let first = fills.count();
        while self.order().units > 0 {
            let Some(price) = self.best_price() else {
                break;
            };
            self.execute_at(price, fills, watch);
        }
        watch.turn_ends(fills.since(first));
    }

    /// The best price open to the order within its limit.
    fn best_price(&self) -> Option<Cents> {
        let order = self.order();
        let contra = order.side.opposite();
        let mut best = self.legs().map(|legs| legs.price);
        for entry in self.entries() {
            if best.is_none_or(|price| contra.better(entry.limit, price)) {
                best = Some(entry.limit);
            }
        }
        best.filter(|&price| order.side.reaches(order.limit, price))
    }

    /// "In an auction, at one price: rank L, legs; C, customer orders and responses; N,
    /// non-customer ones; T, late legs." "Outside an auction: L, then rank R, orders by arrival."
    fn execute_at(&mut self, price: Cents, fills: &mut FillList, watch: &mut impl Watch) {
        self.take_legs(price, Rank::L, fills);
        match self.mode {
            Mode::Queue { .. } => {
                self.share_rank(price, Rank::C, fills, watch);
                self.share_rank(price, Rank::N, fills, watch);
            }
            Mode::GoingLive => self.take_by_arrival(price, fills),
            Mode::LegsPass => {}
        }
        self.take_legs(price, Rank::T, fills);
    }

    /// The legs' units of rank L or T at a price.
    fn take_legs(&mut self, price: Cents, rank: Rank, fills: &mut FillList) {
        let Some(legs) = self.legs().filter(|legs| legs.price == price) else {
            return;
        };
        let (early, late) = self.legs_ranks(&legs);
        let open = if rank == Rank::L { early } else { late };
        let order = self.order();
        let (side, units) = (order.side, order.units.min(open));
        if units > 0 {
            self.record(rank, Contra::Legs, price, units, fills);
            self.market.take(self.strategy, side, units);
        }
        if rank == Rank::L {
            self.mode.lower_rank_l(price, units);
        }
    }

    /// "C and N are shared by size, the amount being the lesser of the order's open units and the
    /// rank's total."
    fn share_rank(
        &mut self,
        price: Cents,
        rank: Rank,
        fills: &mut FillList,
        watch: &mut impl Watch,
    ) {
        let mut places = [0; Book::MOST_ENTRIES];
        let mut ids = [0; Book::MOST_ENTRIES];
        let mut sizes = [0; Book::MOST_ENTRIES];
        let mut shares = [0; Book::MOST_ENTRIES];
        let side = self.order().side;
        let mut count = 0;
        let mut total = 0;
        for (place, entry) in self.book.entries().iter().enumerate() {
            let here = self.mode.opens(side, entry) && entry.limit == price;
            if here && self.entry_rank(entry) == rank {
                places[count] = place;
                ids[count] = entry.id;
                sizes[count] = entry.units;
                total += entry.units;
                count += 1;
            }
        }
        let amount = self.order().units.min(total);
        if amount == 0 {
            return;
        }
        share(amount, &sizes[..count], &mut shares);
        watch.shared(&Sharing {
            price,
            rank,
            amount,
            ids: &ids[..count],
            sizes: &sizes[..count],
            shares: &shares[..count],
        });
        for (&place, &units) in places[..count].iter().zip(&shares) {
            self.take_entry(place, rank, price, units, fills);
        }
    }

    fn take_by_arrival(&mut self, price: Cents, fills: &mut FillList) {
        let side = self.order().side;
        for place in 0..self.book.entries().len() {
            let entry = &self.book.entries()[place];
            if self.mode.opens(side, entry) && entry.limit == price {
                let units = entry.units.min(self.order().units);
                self.take_entry(place, Rank::R, price, units, fills);
            }
        }
    }

    /// "A share of 0 has none", no record.
    fn take_entry(
        &mut self,
        place: usize,
        rank: Rank,
        price: Cents,
        units: u32,
        fills: &mut FillList,
    ) {
        if units > 0 {
            let entry = self.book.entry_mut(place);
            entry.units -= units;
            let contra = Contra::Entry(entry.id);
            self.record(rank, contra, price, units, fills);
        }
    }

    /// Writes a record, before the legs give what they do for it: its leg prices are of the quotes
    /// "as they stood just before the fill".
    fn record(
        &mut self,
        rank: Rank,
        contra: Contra,
        price: Cents,
        units: u32,
        fills: &mut FillList,
    ) {
        let leg_prices = match contra {
            Contra::Legs => Some(prices_taken(self.strategy, self.market, self.order().side)),
            Contra::Entry(_) => leg_prices(self.strategy, self.market, price),
        };
        let order = self.book.entry_mut(self.at);
        order.units -= units;
        fills.push(Fill {
            number: self.number,
            order: order.id,
            rank,
            contra,
            price,
            units,
            leg_prices,
        });
    }
}
