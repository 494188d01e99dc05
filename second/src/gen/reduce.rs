//! The profile of M-105: orders cancelled and reduced, in the queue and outside it.

use super::random::Random;
use super::script::{Plan, Script};
use super::sessions::session;
use crate::book::{Entry, Standing};
use crate::market::{LocalSide, Quote};
use crate::strategy::{Cents, Side, Strategy};

pub fn reduce(random: &mut Random) -> Vec<u8> {
    let mut plan = Plan::usual(random);
    plan.middle = 40..=300;
    plan.width = 3;
    plan.step = 3;
    plan.settings.distance = 60;
    plan.settings.minimum = random.pick(&[1, 1, 4]);
    session(random, plan, 12, one_auction).tape()
}

/// What happens to the orders of an auction.
#[derive(Clone, Copy)]
enum Story {
    /// The initiator is cancelled, and the next one's limit decides what ends the auction.
    Next,
    /// The same, until the derived price on the own side is better than the initiator.
    OwnSide,
    /// Orders behind the initiator are cancelled, in the queue and outside it.
    Others,
    /// All queue orders are cancelled, one after another.
    Whole,
    /// Orders are reduced, in the queue and outside it.
    Reduced,
    /// Cancels and reduces are turned back.
    TurnedBack,
}

/// Some more often than others.
const STORIES: [Story; 10] = [
    Story::Next,
    Story::Next,
    Story::OwnSide,
    Story::Others,
    Story::Whole,
    Story::Whole,
    Story::Whole,
    Story::Reduced,
    Story::TurnedBack,
    Story::TurnedBack,
];

fn one_auction(script: &mut Script) {
    clear(script);
    let story = script.random.pick(&STORIES);
    let Some(first) = begin(script, story) else {
        return;
    };
    for _ in 0..2 + script.random.below(4) {
        meet(script, &first);
    }
    match story {
        Story::Next => next_initiator(script, &first),
        Story::OwnSide => behind_own_side(script, &first),
        Story::Others => cancel_others(script),
        Story::Whole => cancel_all(script, &first),
        Story::Reduced => reduce_some(script),
        Story::TurnedBack => turned_back(script),
    }
    if script.random.once_in(2) {
        script.reduce();
    }
    script.end_somehow();
}

/// What the last auction left is reduced, and mostly cancelled.
fn clear(script: &mut Script) {
    for _ in 0..script.random.below(3) {
        script.reduce();
    }
    let left = script.engine.book().orders().count() as u64;
    for _ in script.random.below(3)..left {
        script.cancel();
    }
}

/// The first initiator of an auction, and the legs as they stood then.
struct First {
    side: Side,
    limit: Cents,
    quotes: [Quote<LocalSide>; Strategy::MOST_LEGS],
}

/// A price so many cents beyond another, so that a limit there is better.
fn beyond(side: Side, price: Cents, cents: Cents) -> Cents {
    match side {
        Side::Buy => price + cents,
        Side::Sell => price - cents,
    }
}

/// Units that reach the class minimum.
fn enough_units(script: &mut Script) -> u32 {
    script.units_of().max(script.plan.settings.minimum)
}

/// A market, an order that rests behind it, an initiator and more queue orders.
fn begin(script: &mut Script, story: Story) -> Option<First> {
    script.local_all();
    let side = script.random.side();
    let contra = script.derived(side)?.price;
    let own = script.derived(side.opposite())?.price;
    // Near the legs, or behind all that follow.
    let rests = match story {
        Story::Whole => beyond(side, contra, script.random.price(-9..=-2)),
        _ => beyond(side, own, script.random.price(-9..=-4)),
    };
    let units = script.units_of();
    script.order_at(side, rests, units, false);
    let limit = beyond(side, contra, script.random.price(2..=9));
    let units = enough_units(script);
    script.order_at(side, limit, units, true);
    script.engine.auction()?;
    for _ in 0..1 + script.random.below(5) {
        let limit = match script.random.below(3) {
            0 => limit,
            _ => beyond(side, limit, script.random.price(-8..=0)),
        };
        let units = enough_units(script);
        script.order_at(side, limit, units, true);
    }
    if let Story::OwnSide = story {
        let behind = beyond(side, own, script.random.price(-3..=-1));
        let units = enough_units(script);
        script.order_at(side, behind, units, true);
    }
    Some(First {
        side,
        limit,
        quotes: script.engine.market().local,
    })
}

/// Somebody to share with, to go live or to expire at the end.
fn meet(script: &mut Script, first: &First) {
    let price = beyond(first.side, first.limit, script.random.price(-10..=1));
    let units = script.units_of();
    match script.random.below(6) {
        0 => script.response(),
        1 => script.response_at(first.side.opposite(), price, units),
        2..=3 => {
            script.order_at(first.side.opposite(), price, units, false);
        }
        4 => {
            // Not better than the initiator, and in the way of later ones that ask.
            let worse = beyond(first.side, first.limit, script.random.price(-9..=0));
            script.order_at(first.side, worse, units, false);
        }
        _ => script.improve_legs(),
    }
}

/// The initiator as it is open.
fn initiator(script: &mut Script) -> Option<Entry> {
    let id = script.engine.auction()?.initiator;
    script.any_open(|e| e.id == id)
}

fn cancel_initiator(script: &mut Script) {
    if let Some(order) = initiator(script) {
        script.cancel_of(order.id, order.participant);
    }
}

fn next_initiator(script: &mut Script, first: &First) {
    let most = script.queue_length() as u64;
    for _ in 0..1 + script.random.below(most.max(1)) {
        cancel_initiator(script);
        if script.random.once_in(3) {
            script.join(true);
        }
    }
    let Some(auction) = script.engine.auction().copied() else {
        return;
    };
    match script.random.below(4) {
        0..=1 => {
            // Better than the initiator, and not better than the first one.
            let between = beyond(auction.side, auction.limit, 1);
            if auction.side.reaches(first.limit, between) {
                let units = script.units_of();
                script.order_at(auction.side, between, units, false);
            }
        }
        2 => script.join(true),
        _ => script.end_by_order(),
    }
}

/// The own side ends nothing until a local quote comes, though it is none that changes anything.
fn behind_own_side(script: &mut Script, first: &First) {
    for leg in 0..script.legs.len() {
        script.local_as(leg, first.quotes[leg]);
    }
    for _ in 1..script.queue_length() {
        cancel_initiator(script);
    }
    if script.random.once_in(3) {
        let units = script.units_of();
        script.order_at(first.side.opposite(), first.limit, units, false);
    }
    let leg = script.leg_of();
    script.local_as(leg, first.quotes[leg]);
}

fn cancel_others(script: &mut Script) {
    for _ in 0..3 + script.random.below(3) {
        let first = script.engine.auction().map_or(0, |a| a.initiator);
        let behind = |e: &Entry| e.standing == Standing::Queue && e.id != first;
        match script.any_open(behind) {
            Some(order) if script.random.once_in(2) => {
                script.cancel_of(order.id, order.participant)
            }
            _ => script.cancel(),
        }
    }
}

/// The last cancel lets held orders and the resting one meet the legs and each other.
fn cancel_all(script: &mut Script, first: &First) {
    if script.random.once_in(2) {
        let leg = script.leg_of();
        script.improve_leg(leg, 12);
    }
    for _ in 0..script.queue_length() {
        script.cancel_queued();
        if script.random.once_in(4) {
            meet(script, first);
        }
    }
}

/// Any order by a little or to one unit, and some again.
fn reduce_some(script: &mut Script) {
    for _ in 0..4 + script.random.below(5) {
        let order = match script.random.below(4) {
            0 => initiator(script),
            1 => script.any_open(|e| e.standing == Standing::Held),
            _ => script.any_open(|e| e.is_order() && e.units > 1),
        };
        if let Some(order) = order {
            let units = script.random.pick(&[1, order.units / 2, order.units - 1]);
            script.reduce_to(&order, units);
        }
    }
}

/// 71, 50 and 13, each in several ways.
fn turned_back(script: &mut Script) {
    for _ in 0..5 + script.random.below(6) {
        let number = script.random.pick(&[71, 71, 50, 50, 13]);
        script.refused_with(number);
    }
}
