//! The profile of M-106: quotes around 50 cents wide, nets that the ratios skip, and sides that are
//! absent or emptied before the next record.

use super::random::Random;
use super::script::{change_ratios, some_legs, Plan, Script};
use crate::market::{LocalSide, Quote};
use crate::strategy::{Cents, Side};

pub fn legprices(random: &mut Random) -> Vec<u8> {
    let mut plan = Plan::usual(random);
    // A leg of a few cents is not wide, though its bid is absent.
    plan.middle = if random.once_in(3) { 5..=40 } else { 80..=300 };
    plan.most_units = 8;
    plan.step = 3;
    plan.settings.distance = 999;
    plan.settings.minimum = 1;
    let count = random.within(2..=4);
    let mut legs = some_legs(random, count);
    if !random.once_in(4) {
        change_ratios(random, &mut legs, 2..=9);
    }
    let mut script = Script::open_with(random, plan, legs).expect("the ratios pass");
    for _ in 0..14 {
        one_market(&mut script);
    }
    script.tape()
}

/// What the quotes of the legs are like.
#[derive(Clone, Copy)]
enum Story {
    /// A few cents wide, so that many nets are skipped.
    Narrow,
    /// At most 50 cents wide, one leg 49 or 50.
    Fitting,
    /// One leg 51 or 52 cents wide.
    Wide,
    /// A side is absent.
    Lacking,
}

/// Some more often than others.
const STORIES: [Story; 9] = [
    Story::Narrow,
    Story::Narrow,
    Story::Narrow,
    Story::Fitting,
    Story::Fitting,
    Story::Fitting,
    Story::Wide,
    Story::Wide,
    Story::Lacking,
];

fn one_market(script: &mut Script) {
    // What the last market left is mostly cancelled.
    let left = script.engine.book().orders().count() as u64;
    for _ in script.random.below(2)..left {
        script.cancel();
    }
    let story = script.random.pick(&STORIES);
    let nets = quote_legs(script, story);
    if script.random.once_in(3) {
        in_the_book(script, &nets);
    } else {
        in_an_auction(script, &nets);
    }
}

/// The least and the greatest net of the legs' bids and asks.
struct Nets {
    least: Cents,
    greatest: Cents,
}

impl Nets {
    /// What an order of the side would pay or get from the legs.
    fn contra(&self, side: Side) -> Cents {
        match side {
            Side::Buy => self.greatest,
            Side::Sell => self.least,
        }
    }

    /// The same, so many cents worse for the order.
    fn behind(&self, side: Side, cents: Cents) -> Cents {
        match side {
            Side::Buy => self.greatest + cents,
            Side::Sell => self.least - cents,
        }
    }

    /// At an end, near it where nets are skipped, between, or outside.
    fn any(&self, random: &mut Random) -> Cents {
        match random.below(9) {
            0 => self.least,
            1 => self.greatest,
            2 => self.least + random.price(1..=12),
            3 => self.greatest - random.price(1..=12),
            4 => random.pick(&[self.least - 1, self.greatest + 1]),
            _ => random.price(self.least..=self.greatest),
        }
    }
}

/// A quote of every leg. An absent side counts with the price it would have.
fn quote_legs(script: &mut Script, story: Story) -> Nets {
    let odd = script.leg_of();
    let mut nets = Nets {
        least: 0,
        greatest: 0,
    };
    for leg in 0..script.legs.len() {
        let width = match story {
            Story::Fitting if leg == odd => script.random.pick(&[49, 50, 50]),
            Story::Wide if leg == odd => script.random.pick(&[51, 51, 52]),
            Story::Fitting | Story::Wide => script.random.pick(&[1, 2, 20, 49, 50]),
            Story::Narrow | Story::Lacking => script.random.price(1..=4),
        };
        let mut quote = quote_of(script, leg, width);
        let ratio = Cents::from(script.legs[leg].ratio);
        let (bid, ask) = (ratio * quote.bid.price, ratio * quote.ask.price);
        let (least, greatest) = match script.legs[leg].side {
            b'B' => (bid, ask),
            _ => (-ask, -bid),
        };
        nets.least += least;
        nets.greatest += greatest;
        if matches!(story, Story::Lacking) && leg == odd {
            lose_side(script, &mut quote);
        }
        script.local_as(leg, quote);
    }
    nets
}

/// Around the leg's middle, with contracts for a few units.
fn quote_of(script: &mut Script, leg: usize, width: Cents) -> Quote<LocalSide> {
    let bid = (script.middles[leg] - script.random.price(0..=width)).max(1);
    Quote {
        bid: LocalSide {
            price: bid,
            size: size_of(script, leg),
        },
        ask: LocalSide {
            price: bid + width,
            size: size_of(script, leg),
        },
    }
}

/// Contracts for a few units, and often some over: a side that gives all its units is then not
/// absent.
fn size_of(script: &mut Script, leg: usize) -> u32 {
    let ratio = u32::from(script.legs[leg].ratio);
    let over = script.random.below(u64::from(ratio)) as u32;
    ratio * script.random.up_to(6) + over
}

fn lose_side(script: &mut Script, quote: &mut Quote<LocalSide>) {
    match script.random.side() {
        Side::Buy => quote.bid = LocalSide::default(),
        Side::Sell => quote.ask = LocalSide::default(),
    }
}

/// Orders that rest at several prices, and one that takes them and the legs.
fn in_the_book(script: &mut Script, nets: &Nets) {
    for _ in 0..1 + script.random.below(2) {
        let side = script.random.side();
        for _ in 0..2 + script.random.below(4) {
            meet(script, nets, side, false);
        }
        let limit = nets.behind(side, script.random.price(-2..=4));
        let units = 4 + script.units_of();
        script.order_at(side, limit, units, false);
    }
}

/// Queue orders, and those that they execute with; the legs' prices and units may change.
fn in_an_auction(script: &mut Script, nets: &Nets) {
    let side = script.random.side();
    let limit = match script.random.below(3) {
        0 => nets.any(&mut script.random),
        _ => nets.behind(side, script.random.price(0..=4)),
    };
    let units = 2 + script.units_of();
    script.order_at(side, limit, units, true);
    for _ in 0..script.random.below(3) {
        script.join(true);
    }
    for _ in 0..2 + script.random.below(5) {
        meet(script, nets, side, true);
    }
    if script.random.once_in(3) {
        let leg = script.leg_of();
        change(script, leg);
    }
    match script.random.below(8) {
        0..=1 => script.end_by_order(),
        2 => script.end_by_cancel(),
        _ => {}
    }
    script.end_by_time();
}

/// Somebody for an order of the side to execute with, often at the legs' own price.
fn meet(script: &mut Script, nets: &Nets, side: Side, respond: bool) {
    let price = match script.random.below(4) {
        0 => nets.contra(side),
        _ => nets.any(&mut script.random),
    };
    let units = script.random.up_to(4);
    if respond && !script.random.once_in(4) {
        script.response_at(side.opposite(), price, units);
    } else {
        script.order_at(side.opposite(), price, units, false);
    }
}

/// A leg gets other units, and another width or one side less.
fn change(script: &mut Script, leg: usize) {
    let mut quote = script.engine.market().local[leg];
    match script.random.below(4) {
        0 => lose_side(script, &mut quote),
        1 if !quote.bid.is_absent() => quote.ask.price = quote.bid.price + 51,
        2 if !quote.bid.is_absent() => quote.ask.price = quote.bid.price + 50,
        _ => {}
    }
    for side in [&mut quote.bid, &mut quote.ask] {
        if side.price > 0 {
            side.size = size_of(script, leg);
        }
    }
    script.local_as(leg, quote);
}
