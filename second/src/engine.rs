//! "Order and auction life", the six outcomes, and "Where a message is turned back"; cancel and
//! reduce during an auction (M-105).

use crate::book::{Account, Book, Entry, Standing};
use crate::execution::{Fill, FillList, Mode, Start, Turn, Watch};
use crate::market::{national_side_fits, Derived, LocalSide, Market, Quote};
use crate::message::{Message, Request, Terms};
use crate::strategy::{Cents, Leg, Settings, Side, Strategy};
use crate::{refuse_if, Refusal};

/// "The answer to a message is one of six outcomes, each with its own numbers."
#[derive(Clone, Copy, PartialEq, Eq, Debug)]
pub enum Outcome {
    Noted { fills: usize },
    Placed { units: u32, fills: usize },
    Begun { deadline: u64 },
    Joined { queue_units: u32 },
    Ended { cause: Cause, fills: usize },
    Refused { number: Refusal },
}

impl Outcome {
    /// How many places of the fill list were written.
    pub fn fill_count(&self) -> usize {
        match *self {
            Outcome::Noted { fills }
            | Outcome::Placed { fills, .. }
            | Outcome::Ended { fills, .. } => fills,
            Outcome::Begun { .. } | Outcome::Joined { .. } | Outcome::Refused { .. } => 0,
        }
    }
}

/// Why an auction ended.
#[derive(Clone, Copy, PartialEq, Eq, Debug)]
pub enum Cause {
    Time,
    Order,
    Legs,
    Cancel,
}

impl Cause {
    pub fn word(self) -> &'static str {
        match self {
            Cause::Time => "time",
            Cause::Order => "order",
            Cause::Legs => "legs",
            Cause::Cancel => "cancel",
        }
    }
}

/// A pending auction.
#[derive(Clone, Copy, PartialEq, Eq, Debug)]
pub struct Auction {
    /// The initiator's id, side and limit.
    pub initiator: u32,
    pub side: Side,
    pub limit: Cents,
    pub deadline: u64,
    /// The derived contra price when the auction began, with the least units it has shown since.
    pub start: Option<Start>,
}

/// An opened strategy with its quotes, its open entries and its auction.
#[derive(Clone, Debug)]
pub struct Engine {
    strategy: Strategy,
    market: Market,
    book: Book,
    auction: Option<Auction>,
    next_number: u64,
    last_time: u64,
}

/// A message that no line of the table refuses, with its values as the rules take them.
enum Accepted {
    Local { leg: usize, quote: Quote<LocalSide> },
    National { leg: usize, quote: Quote<Cents> },
    Order { entry: Entry, wish: bool },
    Response { entry: Entry },
    Modify { at: usize, side: Side, terms: Terms },
    Cancel { at: usize },
    Reduce { at: usize, units: u32 },
    Clock,
}

impl Engine {
    /// "A refused opening gives no state." An opened one "starts with all leg sides absent,
    /// nothing open, no auction".
    pub fn open(legs: &[Leg], settings: &Settings) -> Result<Engine, Refusal> {
        Ok(Engine {
            strategy: Strategy::open(legs, settings)?,
            market: Market::default(),
            book: Book::new(),
            auction: None,
            next_number: settings.first_number,
            last_time: settings.opening_time,
        })
    }

    pub fn strategy(&self) -> &Strategy {
        &self.strategy
    }

    pub fn market(&self) -> &Market {
        &self.market
    }

    pub fn book(&self) -> &Book {
        &self.book
    }

    pub fn auction(&self) -> Option<&Auction> {
        self.auction.as_ref()
    }

    pub fn next_number(&self) -> u64 {
        self.next_number
    }

    pub fn last_time(&self) -> u64 {
        self.last_time
    }

    /// Answers a message, with its fill records in the lent list.
    pub fn apply(&mut self, message: &Message, fills: &mut [Fill]) -> Outcome {
        self.apply_watched(message, fills, &mut ())
    }

    /// The same, with somebody looking on.
    pub fn apply_watched(
        &mut self,
        message: &Message,
        fills: &mut [Fill],
        watch: &mut impl Watch,
    ) -> Outcome {
        match self.check(message, fills.len()) {
            Err(number) => Outcome::Refused { number },
            Ok(accepted) => {
                let outcome = self.accept(message.time, accepted, FillList::new(fills), watch);
                self.read_starting_price();
                outcome
            }
        }
    }

    // Where a message is turned back: "first that applies, reading down".

    fn check(&self, message: &Message, places: usize) -> Result<Accepted, Refusal> {
        self.check_every(message, places)?;
        match message.request {
            Request::Local { leg, quote } => self.check_local(leg, quote),
            Request::National { leg, quote } => self.check_national(leg, quote),
            Request::Order {
                terms,
                account,
                wish,
            } => self.check_order(&terms, account, wish),
            Request::Response { terms, account } => self.check_response(&terms, account),
            Request::Modify { terms } => self.check_modify(&terms),
            Request::Cancel { id, participant } => self.check_cancel(id, participant),
            Request::Reduce {
                id,
                participant,
                units,
            } => self.check_reduce(id, participant, units),
            Request::Clock => Ok(Accepted::Clock),
        }
    }

    fn check_every(&self, message: &Message, places: usize) -> Result<(), Refusal> {
        let time = message.time;
        let is_clock = message.request == Request::Clock;
        refuse_if(places < FillList::LEAST_PLACES, 10)?;
        refuse_if(time > Settings::MOST_TIME || time < self.last_time, 11)?;
        refuse_if(self.next_number > Settings::MOST_NUMBER, 12)?;
        refuse_if(self.deadline_reached(time) && !is_clock, 13)
    }

    fn check_local(&self, leg: u8, quote: Quote<LocalSide>) -> Result<Accepted, Refusal> {
        let leg = usize::from(leg);
        let both = !quote.bid.is_absent() && !quote.ask.is_absent();
        refuse_if(leg >= self.strategy.legs.len(), 20)?;
        refuse_if(!quote.bid.fits() || !quote.ask.fits(), 21)?;
        refuse_if(both && quote.bid.price >= quote.ask.price, 22)?;
        Ok(Accepted::Local { leg, quote })
    }

    fn check_national(&self, leg: u8, quote: Quote<Cents>) -> Result<Accepted, Refusal> {
        let leg = usize::from(leg);
        let fits = national_side_fits(quote.bid) && national_side_fits(quote.ask);
        refuse_if(leg >= self.strategy.legs.len(), 20)?;
        refuse_if(!fits, 21)?;
        Ok(Accepted::National { leg, quote })
    }

    fn check_order(&self, terms: &Terms, account: u8, wish: bool) -> Result<Accepted, Refusal> {
        let entry = self.entry(terms, account, Standing::Held).ok_or(30)?;
        refuse_if(self.book.is_open(terms.id), 31)?;
        refuse_if(self.book.orders().count() >= Book::MOST_ORDERS, 32)?;
        let filter = self.market.filter(&self.strategy, entry.side);
        refuse_if(
            filter.is_some_and(|f| f.refuses(entry.side, entry.limit)),
            33,
        )?;
        Ok(Accepted::Order { entry, wish })
    }

    fn check_response(&self, terms: &Terms, account: u8) -> Result<Accepted, Refusal> {
        refuse_if(self.auction.is_none(), 40)?;
        let entry = self.entry(terms, account, Standing::Response).ok_or(41)?;
        refuse_if(self.book.is_open(terms.id), 42)?;
        refuse_if(self.book.responses().count() >= Book::MOST_RESPONSES, 43)?;
        Ok(Accepted::Response { entry })
    }

    fn check_modify(&self, terms: &Terms) -> Result<Accepted, Refusal> {
        refuse_if(self.auction.is_none(), 40)?;
        let side = side_of_fitting(terms).ok_or(41)?;
        let found = self.book.find_response(terms.id, terms.participant);
        let at = found.ok_or(42)?;
        Ok(Accepted::Modify {
            at,
            side,
            terms: *terms,
        })
    }

    fn check_cancel(&self, id: u32, participant: u32) -> Result<Accepted, Refusal> {
        let at = self.book.find_order(id, participant).ok_or(50)?;
        Ok(Accepted::Cancel { at })
    }

    /// "71, after 50, meets a reduce whose units are 0 or not below the open units."
    fn check_reduce(&self, id: u32, participant: u32, units: u32) -> Result<Accepted, Refusal> {
        let at = self.book.find_order(id, participant).ok_or(50)?;
        refuse_if(units == 0 || units >= self.book.entries()[at].units, 71)?;
        Ok(Accepted::Reduce { at, units })
    }

    fn deadline_reached(&self, time: u64) -> bool {
        self.auction.is_some_and(|a| time >= a.deadline)
    }

    /// The entry that terms and account make with the next arrival number; `None` meets 30 or 41.
    fn entry(&self, terms: &Terms, account: u8, standing: Standing) -> Option<Entry> {
        Some(Entry {
            id: terms.id,
            participant: terms.participant,
            side: side_of_fitting(terms)?,
            account: Account::of_number(account)?,
            limit: terms.price,
            units: terms.units,
            arrival: self.next_number,
            standing,
        })
    }

    // Order and auction life.

    fn accept(
        &mut self,
        time: u64,
        accepted: Accepted,
        mut fills: FillList,
        watch: &mut impl Watch,
    ) -> Outcome {
        // "Each accepted message takes the next arrival number."
        self.next_number += 1;
        self.last_time = time;
        match accepted {
            Accepted::Local { leg, quote } => {
                self.market.local[leg] = quote;
                if self.own_side_is_better() {
                    return self.end_auction(Cause::Legs, &mut fills, watch);
                }
            }
            Accepted::National { leg, quote } => self.market.national[leg] = quote,
            Accepted::Order { entry, wish } => {
                return self.accept_order(entry, wish, time, &mut fills, watch)
            }
            Accepted::Response { entry } => self.book.add(entry),
            Accepted::Modify { at, side, terms } => self.modify(at, side, &terms),
            Accepted::Cancel { at } => {
                let cancelled = self.book.remove(at);
                if self.is_initiator(&cancelled) && !self.name_next_initiator() {
                    // "If none is left, the auction ends."
                    return self.end_auction(Cause::Cancel, &mut fills, watch);
                }
            }
            // "A reduced order keeps its arrival number", and all else.
            Accepted::Reduce { at, units } => self.book.entry_mut(at).units = units,
            Accepted::Clock => {
                if self.deadline_reached(time) {
                    return self.end_auction(Cause::Time, &mut fills, watch);
                }
            }
        }
        self.steps_without_auction(&mut fills, watch);
        Outcome::Noted {
            fills: fills.count(),
        }
    }

    /// "A new order is held", unless it begins, joins or ends an auction.
    fn accept_order(
        &mut self,
        mut entry: Entry,
        wish: bool,
        time: u64,
        fills: &mut FillList,
        watch: &mut impl Watch,
    ) -> Outcome {
        let asks_and_may = wish && self.is_eligible(&entry);
        match self.auction {
            // "An eligible order with no auction pending begins one."
            None if asks_and_may => {
                entry.standing = Standing::Queue;
                self.book.add(entry);
                self.begin_auction(&entry, time)
            }
            // "Same side, better than the initiator's limit: the auction ends, that order held."
            Some(auction)
                if entry.side == auction.side && entry.side.better(entry.limit, auction.limit) =>
            {
                self.book.add(entry);
                self.end_auction(Cause::Order, fills, watch)
            }
            // "Same side, equal or worse, asking and eligible: it joins the queue."
            Some(auction) if entry.side == auction.side && asks_and_may => {
                entry.standing = Standing::Queue;
                self.book.add(entry);
                Outcome::Joined {
                    queue_units: self.queue_units(),
                }
            }
            // "All others are held."
            _ => {
                self.book.add(entry);
                self.steps_without_auction(fills, watch);
                let open = self.book.find_order(entry.id, entry.participant);
                Outcome::Placed {
                    units: open.map_or(0, |at| self.book.entries()[at].units),
                    fills: fills.count(),
                }
            }
        }
    }

    /// "It is eligible if its units reach the class minimum, the strategy has at most the class's
    /// leg count, its limit is strictly better than every other open same-side order outside the
    /// queue, and a best contra price (derived, or live order) exists that the limit reaches or
    /// misses by at most the class distance."
    fn is_eligible(&self, order: &Entry) -> bool {
        let settings = &self.strategy.settings;
        let mut others = self
            .book
            .orders()
            .filter(|o| o.side == order.side && o.standing != Standing::Queue);
        order.units >= settings.minimum
            && self.strategy.legs.len() <= usize::from(settings.most_legs)
            && others.all(|o| order.side.better(order.limit, o.limit))
            && self.best_contra_price(order.side).is_some_and(|contra| {
                order.side.miss(order.limit, contra) <= Cents::from(settings.distance)
            })
    }

    /// The best contra price for orders of a side: "derived, or live order".
    pub fn best_contra_price(&self, side: Side) -> Option<Cents> {
        let contra = side.opposite();
        let live = self
            .book
            .best(|e| e.standing == Standing::Live && e.side == contra)
            .map(|at| self.book.entries()[at].limit);
        let derived = self.market.derived_contra(&self.strategy, side);
        match (derived.map(|d| d.price), live) {
            (Some(a), Some(b)) => Some(if contra.better(a, b) { a } else { b }),
            (a, b) => a.or(b),
        }
    }

    /// "Ending at its time plus the interval, both in milliseconds. It is the initiator."
    fn begin_auction(&mut self, initiator: &Entry, time: u64) -> Outcome {
        let deadline = time + u64::from(self.strategy.settings.interval);
        let derived = self.market.derived_contra(&self.strategy, initiator.side);
        self.auction = Some(Auction {
            initiator: initiator.id,
            side: initiator.side,
            limit: initiator.limit,
            deadline,
            start: derived.map(|Derived { price, units }| Start { price, units }),
        });
        Outcome::Begun { deadline }
    }

    /// What the starting price shows is read as the auction begins, after each later accepted
    /// message, and as its end begins.
    fn read_starting_price(&mut self) {
        if let Some(auction) = &mut self.auction {
            let derived = self.market.derived_contra(&self.strategy, auction.side);
            if let Some(start) = &mut auction.start {
                start.read(derived);
            }
        }
    }

    fn is_initiator(&self, order: &Entry) -> bool {
        self.auction.is_some_and(|a| a.initiator == order.id)
    }

    /// "If the initiator is cancelled, the next queue order by price, then arrival, becomes the
    /// initiator with the same deadline and starting leg price." False if none is left.
    fn name_next_initiator(&mut self) -> bool {
        let next = self.best_of_the_queue();
        if let (Some(auction), Some(at)) = (&mut self.auction, next) {
            let next = &self.book.entries()[at];
            auction.initiator = next.id;
            auction.limit = next.limit;
        }
        next.is_some()
    }

    /// The place of the first queue order by price, then arrival.
    fn best_of_the_queue(&self) -> Option<usize> {
        self.book.best(|e| e.standing == Standing::Queue)
    }

    fn queue_units(&self) -> u32 {
        let queue = self.book.orders().filter(|o| o.standing == Standing::Queue);
        queue.map(|o| o.units).sum()
    }

    /// "The derived price on the initiator's own side is strictly better than its limit."
    fn own_side_is_better(&self) -> bool {
        self.auction.is_some_and(|auction| {
            let contra = auction.side.opposite();
            let own = self.market.derived_contra(&self.strategy, contra);
            own.is_some_and(|own| auction.side.better(own.price, auction.limit))
        })
    }

    /// "A response may be modified in side, price and units, taking the new arrival number and
    /// keeping its account."
    fn modify(&mut self, at: usize, side: Side, terms: &Terms) {
        let response = self.book.remove(at);
        self.book.add(Entry {
            side,
            limit: terms.price,
            units: terms.units,
            arrival: self.number(),
            ..response
        });
    }

    /// The arrival number of the message being accepted.
    fn number(&self) -> u64 {
        self.next_number - 1
    }

    /// "At the end queue orders execute by price, then arrival; remainders are held; all responses
    /// expire; then the steps for no pending auction run." After a cancel the queue is empty.
    fn end_auction(
        &mut self,
        cause: Cause,
        fills: &mut FillList,
        watch: &mut impl Watch,
    ) -> Outcome {
        self.read_starting_price();
        let start = self.auction.take().and_then(|auction| auction.start);
        let mut mode = Mode::Queue { start };
        while let Some(at) = self.best_of_the_queue() {
            self.turn(at, &mut mode, Standing::Held, fills, watch);
        }
        self.book.expire_responses();
        self.steps_without_auction(fills, watch);
        Outcome::Ended {
            cause,
            fills: fills.count(),
        }
    }

    /// "With no auction pending, after each accepted message: held orders become live in arrival
    /// order, each executing first; then live orders at or through the derived contra price
    /// execute against the legs, buyers before sellers, best price first, then arrival."
    fn steps_without_auction(&mut self, fills: &mut FillList, watch: &mut impl Watch) {
        if self.auction.is_some() {
            return;
        }
        while let Some(at) = self.book.position(|e| e.standing == Standing::Held) {
            self.turn(at, &mut Mode::GoingLive, Standing::Live, fills, watch);
        }
        for side in [Side::Buy, Side::Sell] {
            while let Some(at) = self.best_at_the_legs(side) {
                self.turn(at, &mut Mode::LegsPass, Standing::Live, fills, watch);
            }
        }
    }

    /// The best live order of a side that is at or through the derived contra price.
    fn best_at_the_legs(&self, side: Side) -> Option<usize> {
        let contra = self.market.derived_contra(&self.strategy, side)?.price;
        self.book.best(|e| {
            e.standing == Standing::Live && e.side == side && side.reaches(e.limit, contra)
        })
    }

    /// A turn of the order at a place; its remainder stands as said.
    fn turn(
        &mut self,
        at: usize,
        mode: &mut Mode,
        remainder: Standing,
        fills: &mut FillList,
        watch: &mut impl Watch,
    ) {
        let mut turn = Turn {
            number: self.number(),
            strategy: &self.strategy,
            market: &mut self.market,
            book: &mut self.book,
            at,
            mode,
        };
        turn.run(fills, watch);
        self.book.entry_mut(at).standing = remainder;
        self.book.remove_filled();
    }
}

/// The side of terms with "side, limit, id, participant" and units as they must be; else `None`:
/// the account is looked at apart, as a modification does not use it.
fn side_of_fitting(terms: &Terms) -> Option<Side> {
    let fit = terms.id != 0
        && terms.participant != 0
        && Entry::LIMIT.contains(&terms.price)
        && Entry::UNITS.contains(&terms.units);
    Side::of_letter(terms.side).filter(|_| fit)
}
