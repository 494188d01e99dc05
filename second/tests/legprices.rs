//! M-106: "for each fill against an order or response we now give a price per leg, inside that leg's
//! local bid and ask as they stood just before the fill, ends included, whose net is exactly the
//! fill's price".
//!
//! On random tapes the leg prices are worked out again here, from the nets that the later legs make
//! and from quotes that are kept here.

mod common;

use common::*;
use second::engine::{Engine, Outcome};
use second::execution::{Contra, Fill, FillList};
use second::explain::explain;
use second::gen::random::Random;
use second::gen::{gen, PROFILES};
use second::legprices::{leg_prices, LegPrices};
use second::live::{live, live_input};
use second::market::{LocalSide, Market, Quote};
use second::message::Request;
use second::print::{tapelegs, tapeprint};
use second::strategy::{ratios_fit, Cents, Leg, OpenLeg, Side, Strategy};
use second::tape::{Record, Tape};
use std::collections::HashSet;

// Sessions made by hand.

/// The fills of the messages are these, each with its leg prices.
fn shows(session: &Session, messages: &[Record], lines: &[&str]) {
    let text: String = lines.iter().map(|line| format!("{line}\n")).collect();
    assert_eq!(tapelegs(&session.tape(messages)), text);
}

/// A buyer and a seller of one unit at a price, behind some quotes.
fn meeting(quotes: &[Record], price: Cents) -> Vec<Record> {
    all(&[quotes, &[sell(1, 1, price), buy(2, 1, price)]])
}

/// What a fill of that buyer and seller shows of the legs.
fn at(session: &Session, quotes: &[Record], price: Cents) -> String {
    let text = tapelegs(&session.tape(&meeting(quotes, price)));
    let (fill, legs) = text.trim_end().split_once(" | ").expect("one fill");
    let number = quotes.len() + 2;
    assert_eq!(fill, format!("{number} 2 R 1 {price} 1"));
    legs.to_string()
}

/// Sides and ratios of legs.
fn legs(of: &[(char, u8)]) -> Session {
    let strikes = ["00020000", "00025000", "00030000", "00035000"];
    let each = of.iter().zip(strikes).map(|(&(side, ratio), strike)| {
        let symbol = format!("XYZ   260116C{strike}");
        leg(&symbol, side, ratio, 5)
    });
    spread().legs(&each.collect::<Vec<Leg>>())
}

/// B 2 and S 3 with a single contract on each side: there are bids and asks but no derived prices.
fn two_to_three() -> (Session, [Record; 2]) {
    let quotes = [local(0, 100, 1, 101, 1), local(1, 50, 1, 51, 1)];
    (legs(&[('B', 2), ('S', 3)]), quotes)
}

/// The own case: the legs' record empties both sides it uses.
#[test]
fn the_own_case_has_the_prices_taken_and_then_none() {
    let messages = [
        local(0, 220, 10, 240, 10),
        local(1, 110, 10, 120, 10),
        buy(7, 10, 100),
        sell(8, 15, 100).of(2),
    ];
    let lines = ["4 8 L 0 100 10 | 220 120", "4 8 R 7 100 5 | none"];
    shows(&spread(), &messages, &lines);
}

/// "More than 50 cents above": on either leg, at any net between.
#[test]
fn fifty_cents_wide_has_prices_and_51_has_none() {
    let quotes = |first: Cents, second: Cents| {
        [
            local(0, 200, 10, 200 + first, 10),
            local(1, 100, 10, 100 + second, 10),
        ]
    };
    assert_eq!(at(&spread(), &quotes(49, 9), 110), "210 100");
    assert_eq!(at(&spread(), &quotes(50, 9), 110), "210 100");
    assert_eq!(at(&spread(), &quotes(51, 9), 110), "none");
    assert_eq!(at(&spread(), &quotes(9, 50), 90), "200 110");
    assert_eq!(at(&spread(), &quotes(9, 51), 90), "none");
    assert_eq!(at(&spread(), &quotes(50, 50), 100), "200 100");
    assert_eq!(at(&spread(), &quotes(51, 51), 100), "none");
    assert_eq!(at(&spread(), &quotes(300, 9), 110), "none");
}

/// "Ends included": all nets from the least to the greatest of one cent's width, and those beyond.
#[test]
fn the_ends_are_included_and_the_nets_that_ratios_skip_are_not() {
    let (session, quotes) = two_to_three();
    let expected = [
        (46, "none"),
        (47, "100 51"),
        (48, "none"),
        (49, "101 51"),
        (50, "100 50"),
        (51, "none"),
        (52, "101 50"),
        (53, "none"),
    ];
    for (price, legs) in expected {
        assert_eq!(at(&session, &quotes, price), legs, "{price}");
    }
}

/// Wider quotes of the same ratios skip the nets next to both ends alone.
#[test]
fn only_nets_near_the_ends_are_skipped_where_quotes_are_wide() {
    let session = legs(&[('B', 2), ('S', 3)]);
    let quotes = [local(0, 100, 1, 150, 1), local(1, 50, 1, 100, 1)];
    let (least, greatest) = (200 - 300, 300 - 150);
    for price in least - 2..=greatest + 2 {
        let outside = price < least || price > greatest;
        let next_to_an_end = price == least + 1 || price == greatest - 1;
        let none = outside || next_to_an_end;
        assert_eq!(at(&session, &quotes, price) == "none", none, "{price}");
    }
}

/// "The lowest price on leg 0 is taken, then on leg 1, and so on", whatever the legs' sides.
#[test]
fn the_lowest_on_leg_0_then_on_leg_1_is_taken() {
    let quotes = |count: u8| -> Vec<Record> {
        let each = (0..count).map(|leg| local(leg, 100, 1, 110, 1));
        each.collect()
    };
    // A contract too few for a unit: there is no derived price to trade with.
    let two = |first: char, second: char| legs(&[(first, 2), (second, 3)]);
    // 2 × 100 + 3 × 110, and not 2 × 106 + 3 × 106.
    assert_eq!(at(&two('B', 'B'), &quotes(2), 530), "100 110");
    assert_eq!(at(&two('B', 'B'), &quotes(2), 531), "102 109");
    assert_eq!(at(&two('B', 'S'), &quotes(2), -100), "100 100");
    assert_eq!(at(&two('B', 'S'), &quotes(2), -97), "103 101");
    assert_eq!(at(&two('S', 'B'), &quotes(2), 97), "103 101");
    assert_eq!(at(&two('S', 'S'), &quotes(2), -531), "102 109");
    let three = legs(&[('B', 2), ('S', 2), ('B', 3)]);
    assert_eq!(at(&three, &quotes(3), 300), "100 100 100");
    // Leg 0 at its bid, and then leg 1 as low as leg 2 lets it be.
    assert_eq!(at(&three, &quotes(3), 310), "100 101 104");
    // Leg 0 cannot stay at its bid.
    assert_eq!(at(&three, &quotes(3), 332), "101 100 110");
    let four = legs(&[('S', 2), ('B', 2), ('S', 3), ('B', 3)]);
    assert_eq!(at(&four, &quotes(4), 0), "100 100 100 100");
    assert_eq!(at(&four, &quotes(4), 1), "100 102 101 100");
    assert_eq!(at(&four, &quotes(4), -1), "100 101 101 100");
    assert_eq!(at(&four, &quotes(4), -48), "109 100 110 100");
    assert_eq!(at(&four, &quotes(4), -49), "none");
    assert_eq!(at(&four, &quotes(4), -50), "110 100 110 100");
}

/// "Exactly if a leg lacks a side", of any leg, though a net that does not need it would do. No leg
/// is 50 cents wide, whatever an absent side counts as.
#[test]
fn a_leg_that_lacks_a_side_has_none() {
    let (session, _) = two_to_three();
    let (first, second) = (local(0, 20, 1, 21, 1), local(1, 10, 1, 11, 1));
    let no_bid = |record: Record| Record {
        price: 0,
        units: 0,
        ..record
    };
    let no_ask = |record: Record| Record {
        ask: 0,
        ask_size: 0,
        ..record
    };
    assert_eq!(at(&session, &[first, second], 10), "20 10");
    for quotes in [
        [no_bid(first), second],
        [no_ask(first), second],
        [first, no_bid(second)],
        [first, no_ask(second)],
        [no_bid(no_ask(first)), second],
    ] {
        for price in [7, 9, 10, 12] {
            assert_eq!(at(&session, &quotes, price), "none");
        }
    }
    // Never quoted, or by the national market alone.
    assert_eq!(at(&session, &[first], 10), "none");
    let national = [national(0, 20, 21), national(1, 10, 11)];
    assert_eq!(at(&session, &national, 10), "none");
}

/// The quotes before a fill: what the message takes from the legs later does not count, and what the
/// next message changes does not either.
#[test]
fn quotes_before_the_fill_and_not_after_it() {
    let messages = after_market(&[
        sell(1, 4, 120),
        // The legs' asks of leg 0 and bids of leg 1 are gone after it.
        buy(2, 14, 130),
        local(0, 220, 10, 271, 10),
        sell(3, 1, 115),
        buy(4, 1, 115),
        local(0, 220, 10, 240, 10),
        local(1, 110, 10, 125, 10),
        sell(5, 1, 115),
        buy(6, 1, 115),
    ]);
    let lines = [
        "4 2 R 1 120 4 | 230 110",
        "4 2 L 0 130 10 | 240 110",
        "7 4 R 3 115 1 | none",
        "11 6 R 5 115 1 | 225 110",
    ];
    shows(&spread(), &messages, &lines);
}

/// A quote of the auction stands before the fills of its end, and so does the quote that ends it.
#[test]
fn quotes_of_an_auction_stand_before_the_fills_of_its_end() {
    let auction = |quote: Record| {
        let begin = [buy(1, 5, 120).wish(), sell(2, 2, 118).response()];
        all(&[&market(), &begin, &[quote, clock(500)]])
    };
    let (same, other) = (local(1, 110, 9, 125, 9), local(1, 100, 9, 125, 9));
    shows(&spread(), &auction(same), &["6 1 C 2 118 2 | 228 110"]);
    shows(&spread(), &auction(other), &["6 1 C 2 118 2 | 220 102"]);
    // The least net is then 250 less 125.
    let ends = local(0, 250, 10, 260, 10);
    shows(&spread(), &auction(ends), &["5 1 C 2 118 2 | none"]);
}

/// "As they stood just before the fill": a record of the legs in the same turn empties a side, and
/// the records after it have none.
#[test]
fn a_record_of_the_legs_that_empties_a_side_leaves_none() {
    // Ten contracts of leg 0, twelve of leg 1: the ask of leg 0 alone is emptied.
    let quotes = [local(0, 220, 10, 240, 10), local(1, 110, 12, 125, 10)];
    let ends = [
        buy(1, 16, 130).wish(),
        sell(2, 3, 120).response(),
        sell(3, 2, 130).response(),
        sell(4, 1, 130).non_customer().response(),
        clock(500),
    ];
    shows(
        &spread(),
        &all(&[&quotes, &ends]),
        &[
            "7 1 C 2 120 3 | 230 110",
            "7 1 L 0 130 10 | 240 110",
            "7 1 C 3 130 2 | none",
            "7 1 N 4 130 1 | none",
        ],
    );
}

/// The next order of the queue finds the legs as the one before left them, and so does an order that
/// goes live in the same message.
#[test]
fn a_side_emptied_in_one_turn_is_absent_in_the_next() {
    let messages = after_market(&[
        buy(1, 10, 130).wish(),
        buy(2, 4, 130).wish(),
        sell(3, 3, 130).response(),
        clock(500),
    ]);
    let lines = ["6 1 L 0 130 10 | 240 110", "6 2 C 3 130 3 | none"];
    shows(&spread(), &messages, &lines);
    let messages = after_market(&[sell(1, 3, 130), buy(2, 10, 130).wish(), buy(3, 5, 133)]);
    let lines = ["5 2 L 0 130 10 | 240 110", "5 3 R 1 130 3 | none"];
    shows(&spread(), &messages, &lines);
}

/// Contracts too few for a unit are no derived price, but they are a side: the entries behind the
/// legs at their price have the same prices as they.
#[test]
fn contracts_left_over_still_are_a_side() {
    let session = legs(&[('B', 2), ('S', 3)]);
    let quotes = [local(0, 100, 3, 101, 3), local(1, 50, 4, 51, 4)];
    let buyer = [
        sell(1, 1, 51),
        sell(2, 1, 52),
        sell(3, 1, 53),
        buy(4, 4, 60),
    ];
    shows(
        &session,
        &all(&[&quotes, &buyer]),
        &[
            "6 4 R 1 51 1 | none",
            "6 4 L 0 52 1 | 101 50",
            "6 4 R 2 52 1 | 101 50",
            "6 4 R 3 53 1 | none",
        ],
    );
    let seller = [buy(1, 1, 49), buy(2, 1, 47), buy(3, 1, 46), sell(4, 4, 40)];
    shows(
        &session,
        &all(&[&quotes, &seller]),
        &[
            "6 4 R 1 49 1 | 101 51",
            "6 4 L 0 47 1 | 100 51",
            "6 4 R 2 47 1 | 100 51",
            "6 4 R 3 46 1 | none",
        ],
    );
}

/// "Fills against legs show the prices taken", also where a leg is wide or lacks its other side.
#[test]
fn fills_against_the_legs_show_the_prices_taken() {
    let wide = [local(0, 200, 10, 300, 10), local(1, 100, 10, 151, 10)];
    shows(
        &spread(),
        &all(&[&wide, &[buy(1, 2, 200), sell(2, 3, 49)]]),
        &["3 1 L 0 200 2 | 300 100", "4 2 L 0 49 3 | 200 151"],
    );
    let one_sided = [local(0, 0, 0, 300, 10), local(1, 100, 10, 0, 0)];
    let fill = "3 1 L 0 200 2 | 300 100";
    shows(&spread(), &all(&[&one_sided, &[buy(1, 2, 200)]]), &[fill]);
    let other = [local(0, 200, 10, 0, 0), local(1, 0, 0, 151, 10)];
    let fill = "3 1 L 0 49 2 | 200 151";
    shows(&spread(), &all(&[&other, &[sell(1, 2, 49)]]), &[fill]);
    // A ratio does not change a leg's price.
    let (session, _) = two_to_three();
    let quotes = [local(0, 100, 9, 101, 9), local(1, 50, 9, 51, 9)];
    let fill = "3 1 L 0 52 3 | 101 50";
    shows(&session, &all(&[&quotes, &[buy(1, 3, 52)]]), &[fill]);
}

/// Ranks L and T of one price have the same prices; a late price has its own.
#[test]
fn late_legs_show_the_prices_taken_too() {
    let messages = after_market(&[
        buy(1, 30, 130).wish(),
        sell(2, 2, 130).response(),
        local(0, 220, 10, 240, 25),
        local(1, 110, 25, 125, 10),
        clock(500),
    ]);
    shows(
        &spread(),
        &messages,
        &[
            "7 1 L 0 130 10 | 240 110",
            "7 1 C 2 130 2 | 240 110",
            "7 1 T 0 130 15 | 240 110",
        ],
    );
    let messages = after_market(&[
        buy(1, 11, 130).wish(),
        sell(2, 2, 128).response(),
        local(0, 220, 10, 238, 10),
        clock(500),
    ]);
    shows(
        &spread(),
        &messages,
        &["6 1 C 2 128 2 | 238 110", "6 1 T 0 128 9 | 238 110"],
    );
}

#[test]
fn the_greatest_prices_and_limits() {
    let session = legs(&[('B', 9), ('B', 8), ('B', 9), ('B', 9)]);
    let quotes: Vec<Record> = (0..4)
        .map(|leg| local(leg, 999_949, 1, 999_999, 1))
        .collect();
    let greatest = 35 * 999_999;
    let price = "999999 999999 999999 999999";
    assert_eq!(at(&session, &quotes, greatest), price);
    assert_eq!(at(&session, &quotes, greatest - 1), "none");
    assert_eq!(at(&session, &quotes, 40_000_000), "none");
    assert_eq!(at(&session, &quotes, -40_000_000), "none");
    let least = 35 * 999_949;
    assert_eq!(
        at(&session, &quotes, least + 8),
        "999949 999950 999949 999949"
    );
    let session = legs(&[('S', 9), ('S', 8), ('S', 9), ('S', 9)]);
    assert_eq!(at(&session, &quotes, -greatest), price);
    // The lowest price that there is.
    let quotes: Vec<Record> = (0..4).map(|leg| local(leg, 1, 1, 2, 1)).collect();
    assert_eq!(at(&session, &quotes, -35), "1 1 1 1");
    assert_eq!(at(&session, &quotes, 0), "none");
}

/// A tape that is refused, one without messages and one without fills.
#[test]
fn a_tape_without_fills_has_no_lines() {
    assert_eq!(tapelegs(b""), "");
    assert_eq!(tapelegs(&[0; 40]), "");
    assert_eq!(tapelegs(&gen("badkind", 1).unwrap()), "");
    shows(&spread(), &[], &[]);
    shows(&spread(), &after_market(&[buy(1, 1, 96)]), &[]);
}

// All prices, tried one by one.

/// The first prices in sequence whose net it is: leg 0 is the last to go up.
fn first_of_all(legs: &[OpenLeg], quotes: &[Quote<Cents>], net: Cents) -> Option<Vec<Cents>> {
    let mut prices: Vec<Cents> = quotes.iter().map(|quote| quote.bid).collect();
    loop {
        if net_of(legs, &prices) == net {
            return Some(prices);
        }
        let next = (0..legs.len()).rfind(|&at| prices[at] < quotes[at].ask)?;
        prices[next] += 1;
        for later in next + 1..legs.len() {
            prices[later] = quotes[later].bid;
        }
    }
}

fn net_of(legs: &[OpenLeg], prices: &[Cents]) -> Cents {
    let parts = legs.iter().zip(prices).map(|(leg, price)| {
        let sign = if leg.side == Side::Buy { 1 } else { -1 };
        sign * Cents::from(leg.ratio) * price
    });
    parts.sum()
}

/// A strategy of some legs with sides and ratios at random.
fn some_strategy(random: &mut Random) -> Strategy {
    loop {
        let count = random.pick(&[2, 3, 4]);
        let ratios: Vec<u8> = (0..count).map(|_| random.up_to(9) as u8).collect();
        if ratios_fit(&ratios) {
            let each: Vec<(char, u8)> = ratios
                .iter()
                .map(|&ratio| (random.pick(&['B', 'S']), ratio))
                .collect();
            let session = legs(&each);
            return Strategy::open(&session.legs, &session.settings).unwrap();
        }
    }
}

#[test]
fn the_first_of_all_prices_is_found() {
    let random = &mut Random::new(106);
    let (mut found, mut none) = (0, 0);
    for _ in 0..3_000 {
        let strategy = some_strategy(random);
        let legs = &strategy.legs;
        let widest = [50, 16, 6][legs.len() - 2];
        let mut market = Market::default();
        let mut quotes = Vec::new();
        for local in &mut market.local[..legs.len()] {
            let bid = random.price(1..=60);
            let ask = bid + random.price(1..=widest);
            quotes.push(Quote { bid, ask });
            let side = |price| LocalSide { price, size: 1 };
            (local.bid, local.ask) = (side(bid), side(ask));
        }
        // Some net near that of some prices.
        let some: Vec<Cents> = quotes.iter().map(|q| random.price(q.bid..=q.ask)).collect();
        let ends: Vec<Cents> = quotes
            .iter()
            .map(|q| random.pick(&[q.bid, q.ask]))
            .collect();
        for prices in [some, ends] {
            let net = net_of(legs, &prices) + random.price(-3..=3);
            let expected = first_of_all(legs, &quotes, net);
            let prices = leg_prices(&strategy, &market, net);
            assert_eq!(
                prices,
                expected.as_deref().map(LegPrices::of),
                "{net} {quotes:?}"
            );
            found += u32::from(prices.is_some());
            none += u32::from(prices.is_none());
        }
    }
    println!("{found} with prices, {none} without");
    assert!(found >= 2_000 && none >= 1_000);
}

// Random tapes, worked out again.

/// The quotes and the sides of the orders, as the messages and the records leave them.
struct Worked {
    legs: Vec<OpenLeg>,
    local: Vec<Quote<LocalSide>>,
}

impl Worked {
    /// The lowest price of leg 0 whose rest is a net of the later legs, then of leg 1, and so on.
    fn of_entry(&self, net: Cents) -> Option<Vec<Cents>> {
        let ranges = self.local.iter().map(|quote| {
            let Quote { bid, ask } = quote;
            let narrow = ask.price <= bid.price + 50;
            (bid.size > 0 && ask.size > 0 && narrow).then_some(bid.price..=ask.price)
        });
        let ranges: Vec<_> = ranges.collect::<Option<_>>()?;
        // The nets that the legs from each place on make; after the last it is 0.
        let mut nets = vec![HashSet::from([0])];
        for (leg, range) in self.legs.iter().zip(&ranges).rev() {
            let later = &nets[nets.len() - 1];
            let each = range.clone().flat_map(|price| {
                let part = net_of(&[*leg], &[price]);
                later.iter().map(move |net| net + part)
            });
            let here = each.collect();
            nets.push(here);
        }
        nets.pop();
        let mut left = net;
        let mut prices = Vec::new();
        for ((leg, mut range), later) in self.legs.iter().zip(ranges).zip(nets.iter().rev()) {
            let rest = |price: &Cents| left - net_of(&[*leg], &[*price]);
            let price = range.find(|price| later.contains(&rest(price)))?;
            left = rest(&price);
            prices.push(price);
        }
        Some(prices)
    }

    /// The sides that the order uses give their contracts, at these prices.
    fn take(&mut self, side: Side, units: u32) -> Vec<Cents> {
        let mut prices = Vec::new();
        for (leg, quote) in self.legs.iter().zip(&mut self.local) {
            let used = match leg.side == side {
                true => &mut quote.ask,
                false => &mut quote.bid,
            };
            prices.push(used.price);
            used.size -= u32::from(leg.ratio) * units;
            if used.size == 0 {
                used.price = 0;
            }
        }
        prices
    }
}

/// What stands in the records of some tapes.
#[derive(Default, Debug)]
struct Seen {
    legs: u32,
    with_prices: u32,
    without: u32,
    /// Of entries, after a record of the legs in the same message.
    after_legs: u32,
    after_legs_without: u32,
}

impl Seen {
    /// Takes a tape whose leg prices are right.
    fn take(&mut self, name: &str, bytes: &[u8]) {
        let Ok(tape) = Tape::read(bytes) else {
            return;
        };
        let legs: Vec<Leg> = tape.legs().collect();
        let Ok(mut engine) = Engine::open(&legs, &tape.header.settings) else {
            return;
        };
        let legs = engine.strategy().legs.clone();
        let mut worked = Worked {
            local: vec![Quote::default(); legs.len()],
            legs,
        };
        let mut fills = vec![Fill::BLANK; FillList::LEAST_PLACES];
        for message in tape.messages() {
            let before = engine.clone();
            let outcome = engine.apply(&message, &mut fills);
            match message.request {
                _ if matches!(outcome, Outcome::Refused { .. }) => continue,
                Request::Local { leg, quote } => worked.local[usize::from(leg)] = quote,
                _ => {}
            }
            let side_of = |id: u32| match message.request {
                Request::Order { terms, .. } if terms.id == id => Side::of_letter(terms.side),
                _ => before.book().orders().find(|o| o.id == id).map(|o| o.side),
            };
            let mut after_legs = false;
            for fill in &fills[..outcome.fill_count()] {
                let expected = match fill.contra {
                    Contra::Legs => {
                        after_legs = true;
                        self.legs += 1;
                        let side = side_of(fill.order).expect("it was open");
                        Some(worked.take(side, fill.units))
                    }
                    Contra::Entry(_) => {
                        let expected = worked.of_entry(fill.price);
                        self.count(expected.is_some(), after_legs);
                        expected
                    }
                };
                let expected = expected.as_deref().map(LegPrices::of);
                assert_eq!(fill.leg_prices, expected, "{name}: {fill:?}");
                if let Some(prices) = fill.leg_prices {
                    assert_eq!(net_of(&worked.legs, prices.each()), fill.price, "{name}");
                }
            }
        }
    }

    fn count(&mut self, has_prices: bool, after_legs: bool) {
        self.with_prices += u32::from(has_prices);
        self.without += u32::from(!has_prices);
        self.after_legs += u32::from(after_legs);
        self.after_legs_without += u32::from(after_legs && !has_prices);
    }
}

/// Each profile's tapes of some seeds, with a name.
fn random_tapes() -> impl Iterator<Item = (String, Vec<u8>)> {
    PROFILES.iter().flat_map(|profile| {
        let seeds = if profile.name == "long" { 2 } else { 30 };
        (6_000..6_000 + seeds).map(|seed| (format!("{} {seed}", profile.name), profile.tape(seed)))
    })
}

#[test]
fn random_tapes_have_the_leg_prices_worked_out_again() {
    let mut seen = Seen::default();
    for (name, tape) in random_tapes() {
        seen.take(&name, &tape);
    }
    println!("{seen:?}");
    assert!(seen.legs >= 3_000);
    assert!(seen.with_prices >= 3_000);
    assert!(seen.without >= 3_000);
    assert!(seen.after_legs >= 1_000);
    assert!(seen.after_legs_without >= 1_000);
}

/// tapelegs has tapeprint's fill lines, and `live` and `explain` have the leg prices of tapelegs.
#[test]
fn all_commands_show_the_same_leg_prices() {
    let mut fills = 0;
    for (name, tape) in random_tapes() {
        let text = tapelegs(&tape);
        let lines = text.lines().map(|line| line.split_once(" | ").unwrap());
        let (lines, legs): (Vec<&str>, Vec<&str>) = lines.unzip();
        let printed = tapeprint(&tape);
        let is_fill = |line: &&str| line.starts_with(|c: char| c.is_ascii_digit());
        let expected: Vec<&str> = printed.lines().filter(is_fill).collect();
        assert_eq!(lines, expected, "{name}");
        let told = explain(&tape);
        let told: Vec<&str> = told.lines().filter_map(told_prices).collect();
        assert_eq!(told, legs, "{name}");
        fills += legs.len();
        // A tape with a message of no kind has no fills, but its session may have some.
        if !printed.starts_with("refused 0 ") {
            let mut answers = Vec::new();
            live(&live_input(&tape).unwrap()[..], &mut answers).unwrap();
            let answers = String::from_utf8(answers).unwrap();
            let answered = answers
                .lines()
                .filter_map(|line| line.strip_prefix("legs "));
            assert_eq!(answered.collect::<Vec<&str>>(), legs, "{name}");
        }
    }
    println!("{fills} fills");
    assert!(fills >= 10_000);
}

/// The leg prices in a line of `explain` that tells of a fill.
fn told_prices(line: &str) -> Option<&str> {
    let line = line.strip_prefix("    fill: ")?;
    match line.split_once(", leg prices ") {
        Some((_, prices)) => Some(prices),
        None => line.ends_with(", no leg prices").then_some("none"),
    }
}
