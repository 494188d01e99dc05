//! One turn against all ways: the records fill the most units that any way fills, and are the
//! cheapest of the ways that fill as many.
//!
//! "A way gives each entry open to the order, and the legs where they have a derived price, 0 or
//! more units, together at most the order's; it costs or brings the sum of price × units."

use second::book::Entry;
use second::engine::Engine;
use second::execution::{share, Contra, Fill, FillList, Mode, Turn, Watch};
use second::gen::random::Random;
use second::market::{LocalSide, Quote};
use second::message::{Message, Request, Terms};
use second::strategy::{Leg, Settings, Side};
use std::collections::HashSet;

/// What one contra offers.
#[derive(Clone, Copy, Debug)]
struct Offer {
    contra: Contra,
    price: i32,
    units: u32,
}

/// The most units and the least cost of all ways, tried one by one. What a seller brings counts
/// as a negative cost.
fn best_way(offers: &[Offer], open: u32, side: Side) -> (u32, i64) {
    let Some((first, rest)) = offers.split_first() else {
        return (0, 0);
    };
    let sign = if side == Side::Buy { 1 } else { -1 };
    let mut best = (0, i64::MAX);
    for units in 0..=first.units.min(open) {
        let (more, cost) = best_way(rest, open - units, side);
        let way = (
            units + more,
            cost + sign * i64::from(first.price) * i64::from(units),
        );
        if way.0 > best.0 || way.0 == best.0 && way.1 < best.1 {
            best = way;
        }
    }
    best
}

#[derive(Default)]
struct Judge {
    order: Option<Entry>,
    offers: Vec<Offer>,
    judged: u32,
    filled: u32,
    modes: HashSet<&'static str>,
}

impl Watch for Judge {
    fn turn_begins(&mut self, turn: &Turn) {
        let order = *turn.order();
        let mut offers = Vec::new();
        if let Some(legs) = turn.legs() {
            offers.push(Offer {
                contra: Contra::Legs,
                price: legs.price,
                units: legs.units,
            });
        }
        offers.extend(turn.entries().map(|entry| Offer {
            contra: Contra::Entry(entry.id),
            price: entry.limit,
            units: entry.units,
        }));
        offers.retain(|offer| order.side.reaches(order.limit, offer.price));
        self.order = Some(order);
        self.offers = offers;
        self.modes.insert(match turn.mode {
            Mode::Queue { .. } => "queue",
            Mode::GoingLive => "going live",
            Mode::LegsPass => "legs' pass",
        });
    }

    fn turn_ends(&mut self, records: &[Fill]) {
        let order = self.order.expect("a turn has begun");
        let sign = if order.side == Side::Buy { 1 } else { -1 };
        let units: u32 = records.iter().map(|fill| fill.units).sum();
        let cost: i64 = records
            .iter()
            .map(|fill| sign * i64::from(fill.price) * i64::from(fill.units))
            .sum();
        let best = best_way(&self.offers, order.units, order.side);
        assert_eq!(
            (units, cost),
            best,
            "{order:?} {:?} {records:?}",
            self.offers
        );
        // The records are themselves a way.
        for offer in &self.offers {
            let given = records.iter().filter(|fill| fill.contra == offer.contra);
            assert!(given.clone().all(|fill| fill.price == offer.price));
            assert!(given.map(|fill| fill.units).sum::<u32>() <= offer.units);
        }
        self.judged += 1;
        self.filled += u32::from(units > 0);
    }
}

/// A session of few and small entries, so that all ways can be tried.
fn small_session(random: &mut Random, judge: &mut Judge) {
    let leg = |strike: &str, side: u8, ratio: u8| Leg {
        symbol: format!("XYZ   260116C{strike}")
            .into_bytes()
            .try_into()
            .unwrap(),
        side,
        ratio,
        mpv: 1,
    };
    let ratio = 1 + random.below(2) as u8;
    let legs = [leg("00020000", b'B', 1), leg("00025000", b'S', ratio)];
    let settings = Settings {
        interval: 10,
        distance: 9,
        most_legs: 2,
        amounts: [0; 3],
        minimum: 1,
        first_number: 1,
        opening_time: 0,
    };
    let mut engine = Engine::open(&legs, &settings).unwrap();
    let mut fills = vec![Fill::BLANK; FillList::LEAST_PLACES];
    let mut time = 0;
    for id in 1..=14 {
        let price = random.within(-3..=5) as i32;
        let terms = Terms {
            side: random.pick(b"BS"),
            id,
            participant: 1,
            units: 1 + random.below(4) as u32,
            price,
        };
        let account = random.pick(&[1, 2]);
        let request = match random.below(8) {
            0..=1 => {
                let low = 10 + random.within(0..=3) as i32;
                let side = |price| LocalSide {
                    price,
                    size: 1 + (price as u32 * 7 + id) % 5,
                };
                Request::Local {
                    leg: random.below(2) as u8,
                    quote: Quote {
                        bid: side(low),
                        ask: side(low + 1 + (id % 3) as i32),
                    },
                }
            }
            2..=3 if engine.auction().is_some() => Request::Response { terms, account },
            4 => Request::Clock,
            5 if random.once_in(4) => Request::Cancel {
                id: random.up_to(id),
                participant: 1,
            },
            5 if random.once_in(2) => Request::Reduce {
                id: random.up_to(id),
                participant: 1,
                units: random.up_to(3),
            },
            _ => Request::Order {
                terms,
                account,
                wish: random.once_in(2),
            },
        };
        if request == Request::Clock {
            time = engine.auction().map_or(time, |auction| auction.deadline);
        }
        engine.apply_watched(&Message { time, request }, &mut fills, judge);
    }
}

#[test]
fn no_way_fills_more_or_costs_less() {
    let mut random = Random::new(5);
    let mut judge = Judge::default();
    for _ in 0..3_000 {
        small_session(&mut random, &mut judge);
    }
    println!("{} turns judged, {} with fills", judge.judged, judge.filled);
    assert!(judge.filled > 2_000);
    assert_eq!(judge.modes.len(), 3);
}

/// The sharing, against its sentence taken word by word.
#[test]
fn shares_are_within_one_unit_of_the_exact_ones_and_the_largest_remainders_go_first() {
    let mut random = Random::new(6);
    for _ in 0..20_000 {
        let count = 1 + random.below(7) as usize;
        let most = random.pick(&[3, 10, 999_999]);
        let sizes: Vec<u32> = (0..count).map(|_| 1 + random.below(most) as u32).collect();
        let total: u64 = sizes.iter().map(|&size| u64::from(size)).sum();
        let amount = 1 + random.below(total.min(999_999)) as u32;
        let mut shares = vec![0; count];
        share(amount, &sizes, &mut shares);
        assert_eq!(shares.iter().sum::<u32>(), amount);
        let product = |at: usize| u64::from(amount) * u64::from(sizes[at]);
        let got_one = |at: usize| u64::from(shares[at]) - product(at) / total;
        for at in 0..count {
            assert!(shares[at] <= sizes[at]);
            assert!(got_one(at) <= 1);
            for other in 0..count {
                let (mine, its) = (product(at) % total, product(other) % total);
                let before = mine > its || mine == its && at < other;
                assert!(!before || got_one(at) >= got_one(other));
            }
        }
    }
}
