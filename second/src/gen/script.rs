//! A session written message by message, with the engine running along.

use super::random::Random;
use crate::book::{Entry, Standing};
use crate::engine::{Engine, Outcome};
use crate::execution::{Fill, FillList};
use crate::market::{Derived, LocalSide, Quote};
use crate::strategy::{ratios_fit, third_friday, Cents, Leg, Settings, Side};
use crate::tape::{write_tape, Header, Record, Tape};
use std::ops::RangeInclusive;

fn letter_of(side: Side) -> u8 {
    match side {
        Side::Buy => b'B',
        Side::Sell => b'S',
    }
}

/// The nearest price that a leg's side may have.
fn as_price(price: Cents) -> Cents {
    price.clamp(*LocalSide::PRICE.start(), *LocalSide::PRICE.end())
}

/// The nearest limit that an order may have.
fn as_limit(price: Cents) -> Cents {
    price.clamp(*Entry::LIMIT.start(), *Entry::LIMIT.end())
}

/// What a session's values look like.
#[derive(Clone)]
pub struct Plan {
    pub legs: RangeInclusive<i64>,
    /// The legs' prices stand around a price in this range.
    pub middle: RangeInclusive<Cents>,
    /// A quote strays from that price by at most this.
    pub width: Cents,
    pub most_size: u32,
    pub most_units: u32,
    /// A limit strays from the contra price by at most this.
    pub stray: Cents,
    pub most_id: u32,
    /// Milliseconds between messages, at most.
    pub step: u64,
    pub settings: Settings,
}

impl Plan {
    pub fn usual(random: &mut Random) -> Plan {
        Plan {
            legs: 2..=3,
            middle: 20..=300,
            width: 6,
            most_size: 40,
            most_units: 12,
            stray: 6,
            most_id: 60,
            step: 20,
            settings: Settings {
                interval: random.within(50..=1_000) as u16,
                distance: random.within(0..=8) as u16,
                most_legs: 4,
                amounts: [10, 15, 30],
                minimum: random.up_to(3),
                first_number: random.below(100),
                opening_time: random.below(10_000),
            },
        }
    }
}

/// Two to four legs that pass, all with one root and one date.
pub fn some_legs(random: &mut Random, count: i64) -> Vec<Leg> {
    let root = random.pick(&[b"A     ", b"XYZ   ", b"SPXW  ", b"ABCDEF"]);
    let (year, month) = (random.below(100) as u32, random.up_to(12));
    let day = third_friday(year, month);
    let ratios = loop {
        let ratios: Vec<u8> = (0..count).map(|_| random.within(1..=4) as u8).collect();
        if ratios_fit(&ratios) {
            break ratios;
        }
    };
    let leg = |(at, &ratio): (usize, &u8)| {
        let strike = 10_000 + 2_500 * at + 500 * random.below(5) as usize;
        let letter = random.pick(&['C', 'P']);
        let series = format!("{year:02}{month:02}{day:02}{letter}{strike:08}");
        let mut symbol = [0; Leg::SYMBOL];
        symbol[..root.len()].copy_from_slice(root);
        symbol[root.len()..].copy_from_slice(series.as_bytes());
        Leg {
            symbol,
            side: random.pick(b"BS"),
            ratio,
            mpv: random.pick(&Leg::MPVS),
        }
    };
    ratios.iter().enumerate().map(leg).collect()
}

/// Gives the legs ratios of a range that pass.
pub fn change_ratios(random: &mut Random, legs: &mut [Leg], range: RangeInclusive<i64>) {
    loop {
        let ratio = |_| random.within(range.clone()) as u8;
        let ratios: Vec<u8> = (0..legs.len()).map(ratio).collect();
        if ratios_fit(&ratios) {
            let each = legs.iter_mut().zip(ratios);
            each.for_each(|(leg, ratio)| leg.ratio = ratio);
            return;
        }
    }
}

/// A session being written. The engine runs along, so that the next message can fit what is open.
pub struct Script {
    pub random: Random,
    pub plan: Plan,
    pub legs: Vec<Leg>,
    pub middles: Vec<Cents>,
    pub records: Vec<Record>,
    pub engine: Engine,
    pub fills: Vec<Fill>,
    pub time: u64,
}

impl Script {
    pub fn open(random: &mut Random, plan: Plan) -> Script {
        let legs = loop {
            let count = random.within(plan.legs.clone());
            let legs = some_legs(random, count);
            if Engine::open(&legs, &plan.settings).is_ok() {
                break legs;
            }
        };
        Script::open_with(random, plan, legs).expect("the loop above has opened it")
    }

    /// `None` if the opening is refused.
    pub fn open_with(random: &mut Random, plan: Plan, legs: Vec<Leg>) -> Option<Script> {
        let engine = Engine::open(&legs, &plan.settings).ok()?;
        Some(Script {
            middles: legs
                .iter()
                .map(|_| random.price(plan.middle.clone()))
                .collect(),
            time: plan.settings.opening_time,
            random: Random::new(random.number()),
            plan,
            legs,
            records: Vec::new(),
            engine,
            fills: vec![Fill::BLANK; FillList::LEAST_PLACES],
        })
    }

    pub fn most_records(&self) -> usize {
        (Tape::MOST_BYTES - Header::BYTES - self.legs.len() * Leg::BYTES) / Record::BYTES
    }

    pub fn tape(&self) -> Vec<u8> {
        write_tape(&self.plan.settings, &self.legs, &self.records)
            .expect("send stops at the most records")
    }

    /// Sends a record of a kind; a tape that is full takes no more.
    pub fn send(&mut self, record: Record) -> Option<Outcome> {
        if self.records.len() >= self.most_records() {
            return None;
        }
        self.records.push(record);
        let message = record.message()?;
        let outcome = self.engine.apply(&message, &mut self.fills);
        self.time = self.engine.last_time();
        Some(outcome)
    }

    /// A time a little later, before the deadline if there is one.
    pub fn soon(&mut self) -> u64 {
        let time = self.time + self.random.below(self.plan.step + 1);
        let deadline = self.engine.auction().map(|auction| auction.deadline);
        let latest = deadline.map_or(Settings::MOST_TIME, |deadline| deadline - 1);
        time.min(latest).min(Settings::MOST_TIME)
    }

    pub fn leg_of(&mut self) -> usize {
        self.random.below(self.legs.len() as u64) as usize
    }

    pub fn size_of(&mut self) -> u32 {
        self.random.up_to(self.plan.most_size)
    }

    pub fn units_of(&mut self) -> u32 {
        self.random.up_to(self.plan.most_units)
    }

    // Quotes.

    pub fn quote(&mut self, leg: usize, bid: Cents, ask: Cents) -> Record {
        let bid = as_price(bid).min(LocalSide::PRICE.end() - 1);
        Record {
            kind: 1,
            wish_or_leg: leg as u8,
            units: self.size_of(),
            price: bid,
            ask: as_price(ask).max(bid + 1),
            ask_size: self.size_of(),
            time: self.soon(),
            ..Record::default()
        }
    }

    /// A local quote as given.
    pub fn local_as(&mut self, leg: usize, quote: Quote<LocalSide>) {
        let record = Record {
            kind: 1,
            wish_or_leg: leg as u8,
            units: quote.bid.size,
            price: quote.bid.price,
            ask: quote.ask.price,
            ask_size: quote.ask.size,
            time: self.soon(),
            ..Record::default()
        };
        self.send(record);
    }

    /// A local quote of both sides around the leg's middle.
    pub fn local(&mut self, leg: usize) {
        let width = self.plan.width;
        let bid = self.middles[leg] - self.random.price(1..=width);
        let ask = self.middles[leg] + self.random.price(0..=width);
        let mut record = self.quote(leg, bid, ask);
        if self.random.once_in(12) {
            (record.price, record.units) = (0, 0);
        }
        if self.random.once_in(12) {
            (record.ask, record.ask_size) = (0, 0);
        }
        self.send(record);
    }

    /// Both sides of every leg, with units enough for the derived prices.
    pub fn local_all(&mut self) {
        for leg in 0..self.legs.len() {
            let width = self.plan.width;
            let bid = self.middles[leg] - self.random.price(1..=width);
            let ask = self.middles[leg] + self.random.price(0..=width);
            let mut record = self.quote(leg, bid, ask);
            let least = u32::from(self.legs[leg].ratio) * self.plan.most_units / 2;
            let enough = |size: u32| size.max(least).max(9).min(*LocalSide::SIZE.end());
            record.units = enough(record.units);
            record.ask_size = enough(record.ask_size);
            self.send(record);
        }
    }

    pub fn national(&mut self, leg: usize) {
        let width = self.plan.width;
        let mut around = |price: Cents| price + self.random.price(-width..=width);
        let bid = as_price(around(self.middles[leg] - 2));
        let ask = as_price(around(self.middles[leg] + 2));
        let absent = self.random.once_in(15);
        let record = Record {
            kind: 2,
            wish_or_leg: leg as u8,
            price: if absent { 0 } else { bid },
            ask,
            time: self.soon(),
            ..Record::default()
        };
        self.send(record);
    }

    // Orders and responses.

    /// An id that is not open, if a few tries find one.
    pub fn new_id(&mut self) -> u32 {
        for _ in 0..20 {
            let id = self.random.up_to(self.plan.most_id);
            if !self.engine.book().is_open(id) {
                return id;
            }
        }
        self.random.up_to(self.plan.most_id)
    }

    /// An id's participant is always the same.
    pub fn participant_of(id: u32) -> u32 {
        id % 5 + 1
    }

    /// The derived price that an order of the side would meet.
    pub fn derived(&self, side: Side) -> Option<Derived> {
        let engine = &self.engine;
        engine.market().derived_contra(engine.strategy(), side)
    }

    /// A price around what an order of the side would meet.
    pub fn price_near(&mut self, side: Side) -> Cents {
        let stray = self.plan.stray;
        let contra = self.engine.best_contra_price(side);
        let centre = contra.unwrap_or_else(|| self.net_of_middles());
        let price = centre + self.random.price(-stray..=stray);
        as_limit(price)
    }

    pub fn net_of_middles(&self) -> Cents {
        let legs = self.legs.iter().zip(&self.middles);
        legs.map(|(leg, middle)| {
            let sign = if leg.side == b'B' { 1 } else { -1 };
            sign * Cents::from(leg.ratio) * middle
        })
        .sum()
    }

    /// An order or a response with a new id, a moment from now.
    fn entry_record(&mut self, kind: u8, side: Side, price: Cents, units: u32) -> Record {
        let id = self.new_id();
        Record {
            kind,
            side: letter_of(side),
            account: self.random.account(),
            id,
            participant: Self::participant_of(id),
            units,
            price,
            time: self.soon(),
            ..Record::default()
        }
    }

    pub fn order_at(
        &mut self,
        side: Side,
        price: Cents,
        units: u32,
        wish: bool,
    ) -> Option<Outcome> {
        let record = Record {
            wish_or_leg: u8::from(wish),
            ..self.entry_record(3, side, price, units)
        };
        self.send(record)
    }

    pub fn order(&mut self, wish: bool) {
        let side = self.random.side();
        let price = self.price_near(side);
        let units = self.units_of();
        self.order_at(side, price, units, wish);
    }

    pub fn response_at(&mut self, side: Side, price: Cents, units: u32) {
        let record = self.entry_record(4, side, price, units);
        self.send(record);
    }

    /// A response, mostly to the initiator's opposite side, around its limit.
    pub fn response(&mut self) {
        let auction = self.engine.auction().copied();
        let (side, centre) = match auction {
            Some(auction) => (auction.side.opposite(), auction.limit),
            None => (self.random.side(), 0),
        };
        let side = if self.random.once_in(6) {
            side.opposite()
        } else {
            side
        };
        let stray = self.plan.stray;
        let price = as_limit(centre + self.random.price(-stray..=stray / 2));
        let units = self.units_of();
        self.response_at(side, price, units);
    }

    /// An open entry among those asked for.
    pub fn any_open(&mut self, asked: impl Fn(&Entry) -> bool) -> Option<Entry> {
        let entries = self.engine.book().entries().iter();
        let found: Vec<Entry> = entries.filter(|e| asked(e)).copied().collect();
        if found.is_empty() {
            return None;
        }
        Some(self.random.pick(&found))
    }

    pub fn modify(&mut self) {
        let Some(response) = self.any_open(|e| !e.is_order()) else {
            return;
        };
        let side = if self.random.once_in(4) {
            response.side.opposite()
        } else {
            response.side
        };
        let record = Record {
            kind: 5,
            side: letter_of(side),
            id: response.id,
            participant: response.participant,
            units: self.units_of(),
            price: as_limit(response.limit + self.random.price(-3..=3)),
            time: self.soon(),
            ..Record::default()
        };
        self.send(record);
    }

    /// Cancels an order outside the queue; without one, an id that is not open.
    pub fn cancel(&mut self) {
        let order = self.any_open(|e| e.standing == Standing::Held || e.standing == Standing::Live);
        let (id, participant) = match order {
            Some(order) => (order.id, order.participant),
            None => {
                let id = self.new_id();
                (id, Self::participant_of(id))
            }
        };
        self.cancel_of(id, participant);
    }

    /// Cancels an order in the queue.
    pub fn cancel_queued(&mut self) {
        if let Some(order) = self.any_open(|e| e.standing == Standing::Queue) {
            self.cancel_of(order.id, order.participant);
        }
    }

    pub fn cancel_of(&mut self, id: u32, participant: u32) {
        let record = Record {
            kind: 6,
            id,
            participant,
            time: self.soon(),
            ..Record::default()
        };
        self.send(record);
    }

    /// Reduces an open order. One of a single unit cannot be reduced: it meets 71.
    pub fn reduce(&mut self) {
        if let Some(order) = self.any_open(Entry::is_order) {
            let units = self.random.up_to((order.units - 1).max(1));
            self.reduce_to(&order, units);
        }
    }

    pub fn reduce_to(&mut self, order: &Entry, units: u32) {
        let record = Record {
            kind: 8,
            id: order.id,
            participant: order.participant,
            units,
            time: self.soon(),
            ..Record::default()
        };
        self.send(record);
    }

    pub fn clock_at(&mut self, time: u64) -> Option<Outcome> {
        self.send(Record {
            kind: 7,
            time,
            ..Record::default()
        })
    }

    // Auctions.

    /// A market, and an order that asks for an auction at a price that has one; true if it began.
    pub fn begin(&mut self, units: u32) -> bool {
        if self.engine.auction().is_some() {
            return true;
        }
        self.local_all();
        let side = self.random.side();
        let Some(contra) = self.engine.best_contra_price(side) else {
            return false;
        };
        let miss = self
            .random
            .price(-4..=Cents::from(self.plan.settings.distance.min(9)));
        let price = match side {
            Side::Buy => contra - miss,
            Side::Sell => contra + miss,
        };
        let begun = self.order_at(side, as_limit(price), units, true);
        matches!(begun, Some(Outcome::Begun { .. }))
    }

    /// An order on the initiator's side, equal to its limit or worse by a little.
    pub fn join(&mut self, wish: bool) {
        let Some(auction) = self.engine.auction().copied() else {
            return;
        };
        let worse = self.random.price(0..=3);
        let price = match auction.side {
            Side::Buy => auction.limit - worse,
            Side::Sell => auction.limit + worse,
        };
        let units = self.units_of();
        self.order_at(auction.side, as_limit(price), units, wish);
    }

    pub fn end_by_time(&mut self) {
        if let Some(auction) = self.engine.auction().copied() {
            let late = self.random.below(3);
            self.clock_at(auction.deadline + late);
        }
    }

    /// An order better than the initiator's limit.
    pub fn end_by_order(&mut self) {
        if let Some(auction) = self.engine.auction().copied() {
            let better = self.random.price(1..=4);
            let price = match auction.side {
                Side::Buy => auction.limit + better,
                Side::Sell => auction.limit - better,
            };
            let units = self.units_of();
            let wish = self.random.once_in(2);
            self.order_at(auction.side, as_limit(price), units, wish);
        }
    }

    /// Quotes that bring the derived price on the initiator's own side past its limit.
    pub fn end_by_legs(&mut self) {
        let Some(auction) = self.engine.auction().copied() else {
            return;
        };
        for leg in 0..self.legs.len() {
            if self.engine.auction().is_none() {
                return;
            }
            // A buyer's own side is the derived bid: dearer B legs, cheaper S legs.
            let leg_buys = self.legs[leg].side == b'B';
            let dearer = leg_buys == (auction.side == Side::Buy);
            let move_by = self.random.price(4..=14) * if dearer { 1 } else { -1 };
            let bid = self.middles[leg] + move_by;
            let width = self.plan.width;
            let ask = bid + self.random.price(1..=width);
            let record = self.quote(leg, bid, ask);
            self.send(record);
        }
    }

    /// A quote that makes the derived contra price better for the initiator by a little.
    pub fn improve_legs(&mut self) {
        let leg = self.leg_of();
        let better = self.random.price(1..=2);
        self.improve_leg(leg, better);
    }

    /// A quote that makes a leg's price better for the initiator by so many cents.
    pub fn improve_leg(&mut self, leg: usize, better: Cents) {
        let Some(auction) = self.engine.auction().copied() else {
            return;
        };
        let uses_ask = (self.legs[leg].side == b'B') == (auction.side == Side::Buy);
        let shown = self.engine.market().local[leg];
        // The other side gives way, so that the initiator's own side does not end the auction.
        let (bid, ask) = if uses_ask {
            (shown.ask.price - better - 4, shown.ask.price - better)
        } else {
            (shown.bid.price + better, shown.bid.price + better + 4)
        };
        if shown.bid.price > 0 && shown.ask.price > 0 {
            let record = self.quote(leg, bid, ask);
            self.send(record);
        }
    }

    pub fn queue_length(&self) -> usize {
        let orders = self.engine.book().orders();
        orders.filter(|o| o.standing == Standing::Queue).count()
    }

    /// The whole queue is cancelled, one order after another.
    pub fn end_by_cancel(&mut self) {
        for _ in 0..self.queue_length() {
            self.cancel_queued();
        }
    }

    pub fn end_somehow(&mut self) {
        match self.random.below(16) {
            0..=3 => self.end_by_order(),
            4..=7 => self.end_by_legs(),
            8 => self.end_by_cancel(),
            _ => self.end_by_time(),
        }
        self.end_by_time();
    }

    /// Any message that is likely to be accepted.
    pub fn anything(&mut self) {
        match self.random.below(22) {
            0..=3 => {
                let leg = self.leg_of();
                self.local(leg);
            }
            4 => {
                let leg = self.leg_of();
                self.national(leg);
            }
            5..=7 => self.order(false),
            8..=9 => self.order(true),
            10..=13 if self.engine.auction().is_some() => self.response(),
            14 => self.modify(),
            15 => self.cancel(),
            16 => {
                let time = self.soon();
                self.clock_at(time);
            }
            17 => self.end_somehow(),
            18 => self.join(true),
            19 => {
                self.begin_any();
            }
            20 => self.reduce(),
            21 if self.queue_length() > 1 => self.cancel_queued(),
            _ => self.order(true),
        }
    }

    pub fn begin_any(&mut self) -> bool {
        let units = self.units_of().max(self.plan.settings.minimum);
        self.begin(units)
    }

    /// A message that is to be refused with a number, if the state allows it.
    pub fn refused_with(&mut self, number: u8) {
        let time = self.soon();
        let side = self.random.side();
        let price = self.price_near(side);
        let fresh = self.new_id();
        let usual = Record {
            kind: 3,
            side: letter_of(side),
            account: self.random.account(),
            id: fresh,
            participant: Self::participant_of(fresh),
            units: self.units_of(),
            price,
            time,
            ..Record::default()
        };
        let open_order = self.any_open(Entry::is_order);
        let open_response = self.any_open(|e| !e.is_order());
        let leg = self.leg_of();
        let middle = self.middles[leg];
        let quote = self.quote(leg, middle - 1, middle + 1);
        let past = self.random.once_in(2);
        let record = match number {
            11 => Record {
                time: match (past, time) {
                    (true, 1..) => self.random.below(self.time.max(1)),
                    _ => Settings::MOST_TIME + 1 + self.random.below(u64::MAX / 2),
                },
                ..usual
            },
            13 => match (self.engine.auction(), open_order) {
                (Some(auction), Some(order)) => Record {
                    kind: self.random.pick(&[3, 6, 8]),
                    id: order.id,
                    participant: order.participant,
                    time: auction.deadline + self.random.below(3),
                    ..usual
                },
                _ => usual,
            },
            20 => Record {
                wish_or_leg: self.legs.len() as u8 + self.random.below(3) as u8,
                ..quote
            },
            21 => self.spoiled_quote(quote),
            22 => Record {
                ask: quote.price - self.random.price(0..=3).min(quote.price - 1),
                ..quote
            },
            30 => self.spoiled_terms(usual),
            31 => Record {
                id: open_order.or(open_response).map_or(fresh, |e| e.id),
                ..usual
            },
            33 => Record {
                price: price + if side == Side::Buy { 2_000 } else { -2_000 },
                ..usual
            },
            40 => Record {
                kind: self.random.pick(&[4, 5]),
                ..usual
            },
            41 => {
                let record = self.spoiled_terms(usual);
                Record { kind: 4, ..record }
            }
            42 => match open_response {
                Some(response) if past => Record {
                    kind: 5,
                    id: response.id,
                    participant: response.participant + 1,
                    ..usual
                },
                _ => Record {
                    kind: 4,
                    id: open_order.map_or(fresh, |e| e.id),
                    ..usual
                },
            },
            43 => Record { kind: 4, ..usual },
            50 => {
                let wrong = match (self.random.below(3), open_order, open_response) {
                    (0, Some(order), _) => (order.id, order.participant + 1),
                    (1, _, Some(response)) => (response.id, response.participant),
                    _ => (fresh, usual.participant),
                };
                Record {
                    kind: self.random.pick(&[6, 8]),
                    id: wrong.0,
                    participant: wrong.1,
                    ..usual
                }
            }
            _ => match open_order {
                Some(order) => Record {
                    kind: 8,
                    id: order.id,
                    participant: order.participant,
                    units: self.not_below(order.units),
                    ..usual
                },
                None => Record { kind: 8, ..usual },
            },
        };
        self.send(record);
    }

    /// Units that no order is reduced to while it has so many.
    pub fn not_below(&mut self, open: u32) -> u32 {
        let most = *Entry::UNITS.end();
        self.random
            .pick(&[0, open, open + 1, most, most + 1, u32::MAX])
    }

    /// One value of a quote outside its range.
    pub fn spoiled_quote(&mut self, quote: Record) -> Record {
        let bad_price = self
            .random
            .pick(&[-1, 0, 1_000_000, Cents::MIN, Cents::MAX]);
        let bad_size = self.random.pick(&[0, 1_000_000, u32::MAX]);
        match self.random.below(5) {
            0 => Record {
                price: bad_price,
                ..quote
            },
            1 => Record {
                ask: bad_price,
                ..quote
            },
            2 => Record {
                units: bad_size,
                ..quote
            },
            3 => Record {
                ask_size: bad_size,
                ..quote
            },
            _ => Record {
                kind: 2,
                ask: self.random.pick(&[-1, 1_000_000, Cents::MIN, Cents::MAX]),
                ..quote
            },
        }
    }

    /// One value of an order or response outside its range.
    pub fn spoiled_terms(&mut self, usual: Record) -> Record {
        match self.random.below(6) {
            0 => Record {
                side: self.random.pick(b"bsX\0"),
                ..usual
            },
            1 => Record {
                account: self.random.pick(&[0, 3, 255]),
                ..usual
            },
            2 => Record {
                price: self
                    .random
                    .pick(&[40_000_001, -40_000_001, Cents::MIN, Cents::MAX]),
                ..usual
            },
            3 => Record { id: 0, ..usual },
            4 => Record {
                participant: 0,
                ..usual
            },
            _ => Record {
                units: self.random.pick(&[0, 1_000_000, u32::MAX]),
                ..usual
            },
        }
    }
}
