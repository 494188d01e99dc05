//! The profiles that stress the messages.

use super::random::Random;
use super::script::{change_ratios, some_legs, Plan, Script};
use crate::book::Book;
use crate::strategy::{Cents, Settings, Side};
use crate::tape::{write_tape, Record, KINDS};

/// A session of a plan, with `each` called so many times.
pub fn session(random: &mut Random, plan: Plan, times: u64, each: fn(&mut Script)) -> Script {
    let mut script = Script::open(random, plan);
    for _ in 0..times {
        each(&mut script);
    }
    script
}

/// One whole auction with some of everything in it.
fn one_auction(script: &mut Script) {
    for _ in 0..script.random.below(4) {
        script.order(false);
    }
    if !script.begin_any() {
        return;
    }
    for _ in 0..script.random.below(9) {
        match script.random.below(10) {
            0..=4 => script.response(),
            5 => script.join(true),
            6 => script.order(false),
            7 => {
                let leg = script.leg_of();
                script.local(leg);
            }
            8 => script.modify(),
            _ => script.cancel(),
        }
    }
    script.end_somehow();
}

pub fn auction(random: &mut Random) -> Vec<u8> {
    let plan = Plan::usual(random);
    let times = 2 + random.below(6);
    session(random, plan, times, one_auction).tape()
}

pub fn mix(random: &mut Random) -> Vec<u8> {
    let plan = Plan::usual(random);
    let times = 40 + random.below(120);
    session(random, plan, times, mixed).tape()
}

fn mixed(script: &mut Script) {
    if script.random.once_in(15) {
        wrong_one(script);
    } else {
        script.anything();
    }
}

pub fn bad_kind(random: &mut Random) -> Vec<u8> {
    let plan = Plan::usual(random);
    let times = 2 + random.below(20);
    let mut script = session(random, plan, times, Script::anything);
    script.order(false);
    spoil_kind(&mut script);
    script.tape()
}

/// Makes one of the messages, of which there are some, meet 61.
pub fn spoil_kind(script: &mut Script) {
    let kind = match script.random.below(3) {
        0 => 0,
        1 => 9 + script.random.below(2) as u8,
        _ => 9 + script.random.below(247) as u8,
    };
    let at = script.random.below(script.records.len() as u64) as usize;
    script.records[at].kind = kind;
}

pub fn bad_open(random: &mut Random) -> Vec<u8> {
    let plan = Plan::usual(random);
    let mut script = session(random, plan, 5, Script::anything);
    let faults = 1 + u64::from(script.random.once_in(4));
    for _ in 0..faults {
        spoil_opening(&mut script);
    }
    script.tape()
}

/// Makes the opening meet one of 1 to 7.
pub fn spoil_opening(script: &mut Script) {
    let random = &mut script.random;
    let legs = &mut script.legs;
    let settings = &mut script.plan.settings;
    let at = random.below(legs.len() as u64) as usize;
    match random.within(1..=7) {
        1 => {
            let first = legs[0];
            let count = random.pick(&[1, 5, 6]);
            legs.resize(count, first);
        }
        2 => {
            let wrong = [
                (0, b' '),
                (2, b'a'),
                (3, b'1'),
                (5, b'_'),
                (6, b'x'),
                (8, b'2'),
                (12, b'c'),
                (13, b' '),
                (20, 0),
            ];
            let (place, byte) = random.pick(&wrong);
            legs[at].symbol[place] = byte;
        }
        3 => {
            let day = random.pick(&[*b"00", *b"01", *b"14", *b"22", *b"31", *b"99"]);
            legs[at].symbol[10..12].copy_from_slice(&day);
        }
        4 if random.once_in(2) => legs[at].symbol[0] = b'Q',
        4 => {
            let first = legs[0];
            legs.truncate(1);
            legs.push(first);
        }
        5 => legs[at].ratio = random.pick(&[0, 9, 10, 255]),
        6 if random.once_in(2) => legs[at].side = random.pick(b"bsX\0"),
        6 => legs[at].mpv = random.pick(&[0, 2, 11, 255]),
        _ => match random.below(8) {
            0 => settings.interval = random.pick(&[0, 1_001, u16::MAX]),
            1 => settings.distance = random.pick(&[1_000, u16::MAX]),
            2 => settings.most_legs = random.pick(&[0, 1, 5, u16::MAX]),
            3 => settings.minimum = random.pick(&[0, 1_000_000, u32::MAX]),
            4 => settings.first_number = random.pick(&[Settings::MOST_NUMBER + 1, u64::MAX]),
            5 => settings.opening_time = random.pick(&[Settings::MOST_TIME + 1, u64::MAX]),
            _ => {
                let amount = random.below(3) as usize;
                settings.amounts[amount] = random.pick(&[1_000, u16::MAX]);
            }
        },
    }
}

pub fn big_numbers(random: &mut Random) -> Vec<u8> {
    let usual = Plan::usual(random);
    let settings = Settings {
        interval: random.pick(&[1, 1_000]),
        distance: random.pick(&[0, 999]),
        amounts: [999; 3],
        minimum: random.pick(&[1, 500_000, 999_999]),
        ..usual.settings
    };
    let plan = Plan {
        legs: 2..=4,
        middle: random.pick(&[1, 999_000])..=999_998,
        width: random.pick(&[1, 500, 200_000]),
        most_size: 999_999,
        most_units: 999_999,
        stray: random.pick(&[5, 1_000, 3_000_000]),
        most_id: u32::MAX,
        settings,
        ..usual
    };
    session(random, plan, 90, |script| {
        if script.random.once_in(6) {
            let side = script.random.side();
            let price = script.random.pick(&[-40_000_000, 0, 40_000_000]);
            let wish = script.random.once_in(2);
            script.order_at(side, price, 999_999, wish);
        } else {
            script.anything();
        }
    })
    .tape()
}

pub fn book(random: &mut Random) -> Vec<u8> {
    let plan = Plan::usual(random);
    let times = 40 + random.below(80);
    session(random, plan, times, |script| {
        match script.random.below(10) {
            0..=2 => {
                let leg = script.leg_of();
                script.local(leg);
            }
            3 => script.cancel(),
            4 => script.local_all(),
            _ => script.order(false),
        }
    })
    .tape()
}

pub fn deadline(random: &mut Random) -> Vec<u8> {
    let plan = Plan::usual(random);
    session(random, plan, 7, |script| {
        if !script.begin_any() {
            return;
        }
        for _ in 0..script.random.below(4) {
            script.response();
        }
        let Some(auction) = script.engine.auction().copied() else {
            return;
        };
        script.time = auction.deadline - 1;
        script.response();
        for _ in 0..script.random.below(4) {
            script.refused_with(13);
        }
        script.clock_at(auction.deadline - 1);
        script.response();
        if script.random.once_in(2) {
            script.reduce();
        }
        if script.random.once_in(4) {
            script.cancel_queued();
        }
        let after = script.random.below(2) * script.random.below(1_000);
        script.clock_at(auction.deadline + after);
    })
    .tape()
}

pub fn endings(random: &mut Random) -> Vec<u8> {
    let plan = Plan::usual(random);
    session(random, plan, 6, |script| {
        if !script.begin_any() {
            return;
        }
        for _ in 0..script.random.below(5) {
            match script.random.below(4) {
                0 => script.join(true),
                1 => script.join(false),
                2 => script.order(false),
                _ => script.response(),
            }
        }
        match script.random.below(4) {
            0 => script.end_by_time(),
            1 => script.end_by_order(),
            2 => script.end_by_cancel(),
            _ => script.end_by_legs(),
        }
        script.end_by_time();
    })
    .tape()
}

pub fn filter(random: &mut Random) -> Vec<u8> {
    let plan = Plan {
        legs: 2..=4,
        stray: 60,
        ..Plan::usual(random)
    };
    session(random, plan, 60, |script| {
        if script.random.once_in(4) {
            let leg = script.leg_of();
            script.national(leg);
        } else if script.random.once_in(8) {
            for leg in 0..script.legs.len() {
                script.national(leg);
            }
        } else {
            order_at_the_filter(script);
        }
    })
    .tape()
}

/// An order whose limit is beyond the national contra price by about the filter's distance.
fn order_at_the_filter(script: &mut Script) {
    let side = script.random.side();
    let engine = &script.engine;
    let Some(filter) = engine.market().filter(engine.strategy(), side) else {
        script.order(false);
        return;
    };
    let beyond = filter.amount * filter.smallest_ratio + script.random.price(-2..=2);
    let price = match side {
        Side::Buy => filter.contra + beyond,
        Side::Sell => filter.contra - beyond,
    };
    let units = script.units_of();
    script.order_at(side, price, units, false);
    if script.random.once_in(2) {
        script.cancel();
    }
}

/// Orders far from each other, so that they stay open, until one meets 32.
fn fill_book(script: &mut Script) {
    for _ in 0..=Book::MOST_ORDERS {
        let side = script.random.side();
        let net = script.net_of_middles();
        let away = script.random.price(40..=60);
        let price = match side {
            Side::Buy => net - away,
            Side::Sell => net + away,
        };
        let units = script.units_of();
        script.order_at(side, price, units, false);
    }
}

/// Responses until one meets 43.
fn fill_responses(script: &mut Script) {
    for _ in 0..=Book::MOST_RESPONSES {
        script.response();
    }
}

pub fn full_book(random: &mut Random) -> Vec<u8> {
    let plan = Plan {
        most_id: 200,
        step: 2,
        ..Plan::usual(random)
    };
    session(random, plan, 2, |script| {
        if script.random.once_in(2) {
            script.begin_any();
        }
        fill_book(script);
        for _ in 0..12 {
            match script.random.below(4) {
                0 => script.cancel(),
                1 => script.response(),
                _ => script.order(false),
            }
        }
        script.end_by_time();
    })
    .tape()
}

pub fn full_responses(random: &mut Random) -> Vec<u8> {
    let plan = Plan {
        most_id: 200,
        step: 2,
        ..Plan::usual(random)
    };
    session(random, plan, 3, |script| {
        if !script.begin_any() {
            return;
        }
        fill_responses(script);
        for _ in 0..6 {
            script.modify();
        }
        script.join(true);
        script.end_somehow();
    })
    .tape()
}

pub fn last_number(random: &mut Random) -> Vec<u8> {
    let mut plan = Plan::usual(random);
    plan.settings.first_number = Settings::MOST_NUMBER - random.below(40);
    session(random, plan, 25, mixed).tape()
}

pub fn last_time(random: &mut Random) -> Vec<u8> {
    let mut plan = Plan::usual(random);
    plan.step = 3;
    plan.settings.opening_time = Settings::MOST_TIME - random.below(60);
    session(random, plan, 25, |script| {
        if script.random.once_in(6) {
            let time = Settings::MOST_TIME + script.random.below(2);
            script.clock_at(time);
        } else {
            mixed(script);
        }
    })
    .tape()
}

pub fn late(random: &mut Random) -> Vec<u8> {
    let mut plan = Plan::usual(random);
    plan.width = 2;
    plan.stray = 3;
    plan.most_units = 6;
    plan.settings.distance = 9;
    session(random, plan, 6, late_auction).tape()
}

/// An auction that begins at the legs' price, or with no such price, and whose legs improve.
fn late_auction(script: &mut Script) {
    for _ in 0..3 {
        script.cancel();
    }
    script.local_all();
    let side = script.random.side();
    let Some(start) = script.derived(side) else {
        return;
    };
    let beyond = |cents: Cents| match side {
        Side::Buy => start.price + cents,
        Side::Sell => start.price - cents,
    };
    let units = script.units_of();
    script.order_at(side.opposite(), beyond(4), units, false);
    let hidden = script.random.once_in(3);
    if hidden {
        let mut nothing = script.quote(0, 1, 2);
        (nothing.price, nothing.units) = (0, 0);
        (nothing.ask, nothing.ask_size) = (0, 0);
        script.send(nothing);
    }
    let limit = beyond(script.random.price(0..=3));
    script.order_at(side, limit, script.plan.most_units * 3, true);
    if hidden {
        script.local_all();
    }
    for _ in 0..2 + script.random.below(5) {
        match script.random.below(4) {
            0 => script.response(),
            1 => script.improve_legs(),
            2 => script.join(true),
            _ => response_at_the_legs(script, side),
        }
    }
    script.end_by_time();
}

/// A response at the derived contra price as it stands, so that legs and entries meet there.
fn response_at_the_legs(script: &mut Script, initiator: Side) {
    match script.derived(initiator) {
        Some(legs) => {
            let units = script.units_of();
            script.response_at(initiator.opposite(), legs.price, units);
        }
        None => script.response(),
    }
}

pub fn modify(random: &mut Random) -> Vec<u8> {
    let plan = Plan::usual(random);
    session(random, plan, 4, |script| {
        if !script.begin_any() {
            return;
        }
        for _ in 0..4 + script.random.below(5) {
            script.response();
        }
        for _ in 0..4 + script.random.below(8) {
            script.modify();
        }
        if script.random.once_in(2) {
            script.refused_with(42);
        }
        script.end_somehow();
    })
    .tape()
}

pub fn multileg(random: &mut Random) -> Vec<u8> {
    let mut plan = Plan::usual(random);
    plan.legs = 3..=4;
    plan.settings.most_legs = random.pick(&[2, 3, 4, 4, 4]);
    plan.most_size = 90;
    plan.width = 3;
    let times = 3 + random.below(4);
    session(random, plan, times, |script| {
        one_auction(script);
        for _ in 0..6 {
            script.anything();
        }
    })
    .tape()
}

pub fn negative(random: &mut Random) -> Vec<u8> {
    let plan = Plan::usual(random);
    let mut legs = some_legs(random, 2);
    legs[0].side = b'B';
    legs[1].side = b'S';
    let count = 4 + random.below(4);
    let Some(mut script) = Script::open_with(random, plan, legs) else {
        return Vec::new();
    };
    // The S leg costs as much as the B leg, or more.
    let level = script.random.price(20..=60);
    let ratios = [script.legs[0].ratio, script.legs[1].ratio].map(Cents::from);
    let below = script.random.price(0..=30);
    script.middles = vec![level, level * ratios[0] / ratios[1] + below];
    for _ in 0..count {
        one_auction(&mut script);
        for _ in 0..5 {
            script.anything();
        }
    }
    script.tape()
}

pub fn noise(random: &mut Random) -> Vec<u8> {
    let plan = Plan::usual(random);
    let times = 60 + random.below(60);
    session(random, plan, times, noisy).tape()
}

/// A message of any kind with a few random bytes, or one that is likely to be accepted.
pub fn noisy(script: &mut Script) {
    if script.random.once_in(3) {
        script.anything();
        return;
    }
    let start = Record {
        kind: script.random.pick(&KINDS.map(|kind| kind.number)),
        side: script.random.pick(b"BS"),
        account: script.random.pick(&[1, 2]),
        wish_or_leg: script.random.below(3) as u8,
        id: script.random.up_to(9),
        participant: script.random.up_to(5),
        units: script.random.up_to(30),
        price: script.random.price(-300..=300),
        ask: script.random.price(0..=300),
        ask_size: script.random.up_to(30),
        time: script.soon(),
    };
    let mut bytes = Vec::with_capacity(Record::BYTES);
    start.write(&mut bytes);
    for _ in 0..script.random.below(3) {
        let at = 1 + script.random.below(Record::BYTES as u64 - 1) as usize;
        bytes[at] = script.random.number() as u8;
    }
    let spoiled = Record::read(&bytes);
    script.send(spoiled);
}

pub fn pro_rata(random: &mut Random) -> Vec<u8> {
    let plan = Plan {
        most_units: random.pick(&[3, 7, 30, 500]),
        step: 2,
        ..Plan::usual(random)
    };
    session(random, plan, 5, |script| {
        let units = script.plan.most_units * 4;
        if !script.begin(units) {
            return;
        }
        let Some(auction) = script.engine.auction().copied() else {
            return;
        };
        let same = script.units_of();
        for _ in 0..4 + script.random.below(14) {
            let units = if script.random.once_in(2) {
                same
            } else {
                script.units_of()
            };
            if script.random.once_in(5) {
                script.order_at(auction.side.opposite(), auction.limit, units, false);
            } else {
                script.response_at(auction.side.opposite(), auction.limit, units);
            }
        }
        script.modify();
        script.join(true);
        script.end_somehow();
    })
    .tape()
}

pub fn queue(random: &mut Random) -> Vec<u8> {
    let mut plan = Plan::usual(random);
    plan.settings.distance = 20;
    plan.step = 4;
    session(random, plan, 4, |script| {
        if !script.begin_any() {
            return;
        }
        for _ in 0..4 + script.random.below(10) {
            match script.random.below(8) {
                0 => script.response(),
                1 => script.order(false),
                2 if script.queue_length() > 1 => script.cancel_queued(),
                3 => script.reduce(),
                _ => script.join(true),
            }
        }
        for _ in 0..script.random.below(6) {
            script.response();
        }
        script.end_somehow();
    })
    .tape()
}

pub fn ratios(random: &mut Random) -> Vec<u8> {
    let mut plan = Plan::usual(random);
    plan.most_size = 90;
    let count = random.within(2..=4);
    let mut legs = some_legs(random, count);
    for leg in &mut legs {
        leg.ratio = random.within(1..=9) as u8;
    }
    if random.once_in(2) {
        change_ratios(random, &mut legs, 1..=9);
    }
    let settings = plan.settings;
    match Script::open_with(random, plan, legs.clone()) {
        Some(mut script) => {
            for _ in 0..4 {
                one_auction(&mut script);
                script.local_all();
                script.order(false);
            }
            script.tape()
        }
        None => write_tape(&settings, &legs, &[]).unwrap_or_default(),
    }
}

pub fn times(random: &mut Random) -> Vec<u8> {
    let mut plan = Plan::usual(random);
    plan.step = random.pick(&[0, 1, 400]);
    session(random, plan, 60, |script| {
        if script.random.once_in(5) {
            script.refused_with(11);
        } else if script.random.once_in(12) {
            let time = script
                .random
                .pick(&[0, Settings::MOST_TIME + 1, 1 << 63, u64::MAX]);
            script.clock_at(time);
        } else {
            script.anything();
        }
    })
    .tape()
}

pub fn long(random: &mut Random) -> Vec<u8> {
    let plan = Plan {
        most_id: 500,
        ..Plan::usual(random)
    };
    let mut script = Script::open(random, plan);
    while script.records.len() < script.most_records() {
        mixed(&mut script);
    }
    script.tape()
}

/// The numbers that one message can be refused with; 12 and 32 need a session for it.
const REFUSABLE: [u8; 14] = [11, 13, 20, 21, 22, 30, 31, 33, 40, 41, 42, 43, 50, 71];

fn wrong_one(script: &mut Script) {
    let number = script.random.pick(&REFUSABLE);
    script.refused_with(number);
}

pub fn wrong(random: &mut Random) -> Vec<u8> {
    let mut plan = Plan::usual(random);
    plan.most_id = 200;
    if random.once_in(4) {
        plan.settings.first_number = Settings::MOST_NUMBER - 100;
    }
    session(random, plan, 120, |script| match script.random.below(8) {
        0 => script.anything(),
        1 => {
            script.begin_any();
        }
        2 => {
            let leg = script.leg_of();
            script.national(leg);
        }
        3 if script.random.once_in(16) => fill_book(script),
        4 if script.random.once_in(16) => fill_responses(script),
        _ => wrong_one(script),
    })
    .tape()
}
