//! The profile of M-103: legs whose size and price change during an auction.

use super::random::Random;
use super::script::{Plan, Script};
use super::sessions::session;
use crate::market::{LocalSide, Quote};
use crate::strategy::{Cents, Side, Strategy};

pub fn legsize(random: &mut Random) -> Vec<u8> {
    let mut plan = Plan::usual(random);
    plan.middle = 40..=300;
    plan.most_units = 12;
    plan.step = 3;
    plan.settings.distance = 40;
    plan.settings.minimum = 1;
    session(random, plan, 12, one_auction).tape()
}

/// What the legs show before an auction begins.
struct Shown {
    /// The initiator's side.
    side: Side,
    /// The derived contra price and its units.
    price: Cents,
    units: u32,
    quotes: [Quote<LocalSide>; Strategy::MOST_LEGS],
}

impl Shown {
    /// A price so many cents beyond the derived one, so that a limit there reaches it.
    fn beyond(&self, cents: Cents) -> Cents {
        match self.side {
            Side::Buy => self.price + cents,
            Side::Sell => self.price - cents,
        }
    }
}

/// What happens to the legs in an auction.
#[derive(Clone, Copy)]
enum Story {
    /// Units are added.
    Added,
    /// Units are taken away, and may come back.
    Lowered,
    /// The price moves away and comes back.
    Away,
    /// The price moves and stays there, better or worse.
    Moved,
    /// There is no derived price for a while.
    Gone,
    /// There is no derived price at the start.
    Hidden,
    /// The initiator misses the legs, and a quote of its own side ends the auction.
    Ending,
}

/// Some more often than others.
const STORIES: [Story; 12] = [
    Story::Added,
    Story::Added,
    Story::Added,
    Story::Lowered,
    Story::Lowered,
    Story::Lowered,
    Story::Away,
    Story::Moved,
    Story::Moved,
    Story::Gone,
    Story::Hidden,
    Story::Ending,
];

fn one_auction(script: &mut Script) {
    // An order left open could stop the initiator.
    for _ in 0..script.engine.book().orders().count() {
        script.cancel();
    }
    let Some(start) = open_legs(script) else {
        return;
    };
    let story = script.random.pick(&STORIES);
    begin(script, &start, story);
    if script.engine.auction().is_none() {
        return;
    }
    for _ in 0..1 + script.random.below(3) {
        for _ in 0..script.random.below(3) {
            meet(script, &start);
        }
        let another = script.random.once_in(8);
        let now = if another {
            script.random.pick(&STORIES)
        } else {
            story
        };
        change(script, &start, now);
    }
    match (story, script.random.below(6)) {
        (Story::Ending, 1..) => end_by_own_side(script, &start),
        (_, 0) => script.end_by_order(),
        _ => {}
    }
    script.end_by_time();
}

/// A market with a few units for a side.
fn open_legs(script: &mut Script) -> Option<Shown> {
    script.local_all();
    let side = script.random.side();
    let mut start = Shown {
        side,
        price: script.derived(side)?.price,
        units: 1 + script.random.up_to(9),
        quotes: script.engine.market().local,
    };
    show_all(script, &start, start.units);
    start.units = script.derived(side)?.units;
    start.quotes = script.engine.market().local;
    Some(start)
}

/// The initiator and mostly more queue orders.
fn begin(script: &mut Script, start: &Shown, story: Story) {
    let hidden = matches!(story, Story::Hidden);
    let units = script.units_of();
    if hidden {
        // The contra price that the initiator needs.
        script.order_at(start.side.opposite(), start.beyond(9), units, false);
        hide(script, start, 0);
    }
    let ratios = script.legs.iter().map(|leg| Cents::from(leg.ratio));
    let cents = match story {
        // So that the own side is better once it is one cent from the other in each leg.
        Story::Ending => -1 - ratios.sum::<Cents>(),
        _ => script.random.price(0..=8),
    };
    let units = script.units_of();
    script.order_at(start.side, start.beyond(cents), units, true);
    for _ in 0..script.random.below(4) {
        script.join(true);
    }
    if hidden {
        show_all(script, start, start.units);
    }
}

/// Somebody for the legs to share a price with, or one more queue order.
fn meet(script: &mut Script, start: &Shown) {
    let units = script.random.up_to(2);
    match script.random.below(6) {
        0 => script.response(),
        1 => {
            script.order_at(start.side.opposite(), start.price, units, false);
        }
        2 => script.join(true),
        _ => script.response_at(start.side.opposite(), start.price, units),
    }
}

fn change(script: &mut Script, start: &Shown, story: Story) {
    let leg = script.leg_of();
    match story {
        Story::Added => {
            let more = start.units + script.random.up_to(5);
            show_all(script, start, more);
        }
        Story::Lowered => {
            let fewer = script.random.up_to(start.units);
            show(script, start, leg, fewer);
            if script.random.once_in(2) {
                show_all(script, start, start.units);
            }
        }
        Story::Away => {
            shift(script, start, leg);
            show_all(script, start, start.units);
        }
        Story::Moved => shift(script, start, leg),
        Story::Gone => {
            hide(script, start, leg);
            show_all(script, start, start.units);
        }
        Story::Hidden | Story::Ending => show(script, start, leg, start.units),
    }
}

/// A leg as at the start, but for the side that the initiator meets.
fn requote(script: &mut Script, start: &Shown, leg: usize, change: impl Fn(&mut LocalSide)) {
    let mut quote = start.quotes[leg];
    let open_leg = script.engine.strategy().legs[leg];
    change(quote.used_by_mut(start.side, &open_leg));
    script.local_as(leg, quote);
}

/// So many units there, and a few contracts over.
fn show(script: &mut Script, start: &Shown, leg: usize, units: u32) {
    let ratio = u32::from(script.legs[leg].ratio);
    let size = ratio * units + script.random.below(ratio.into()) as u32;
    requote(script, start, leg, |side| side.size = size);
}

/// So many units in every leg, and in some of them more.
fn show_all(script: &mut Script, start: &Shown, units: u32) {
    for leg in 0..script.legs.len() {
        let more = script.random.below(3) as u32;
        show(script, start, leg, units + more);
    }
}

/// One contract too few there for a unit.
fn hide(script: &mut Script, start: &Shown, leg: usize) {
    let size = u32::from(script.legs[leg].ratio) - 1;
    requote(script, start, leg, |side| match size {
        0 => *side = LocalSide::default(),
        _ => side.size = size,
    });
}

/// Another price there.
fn shift(script: &mut Script, start: &Shown, leg: usize) {
    let cents = script.random.pick(&[-2, -1, 1, 2]);
    requote(script, start, leg, |side| side.price += cents);
}

/// The own side of each leg comes to one cent from the other, whose units change.
fn end_by_own_side(script: &mut Script, start: &Shown) {
    for leg in 0..script.legs.len() {
        let mut quote = start.quotes[leg];
        let open_leg = script.engine.strategy().legs[leg];
        let units = script.random.up_to(start.units);
        quote.used_by_mut(start.side, &open_leg).size = u32::from(open_leg.ratio) * units;
        if open_leg.side == start.side {
            quote.bid.price = quote.ask.price - 1;
        } else {
            quote.ask.price = quote.bid.price + 1;
        }
        script.local_as(leg, quote);
    }
}
