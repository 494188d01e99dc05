//! The worked examples of the filings. Where document 01 differs from a filing, document 01
//! decides, and the test says so.

mod common;

use common::*;
use second::engine::{Cause, Outcome};
use second::strategy::Leg;

/// 000 and 001, the example of an auction: "15 contracts get filled at $1.13", "40 at $1.14",
/// "45 at $1.15", the last as 20 to the legs, 10 to customers, then 1, 1 and 13.
#[test]
fn the_auction_of_000_and_001() {
    let messages = [
        local(0, 200, 20, 215, 20),
        local(1, 100, 20, 110, 20),
        sell(1, 5, 115),
        sell(2, 5, 115).non_customer(),
        sell(3, 5, 115).non_customer(),
        buy(10, 100, 115).wish(),
        sell(4, 5, 114).response(),
        sell(5, 5, 115).response(),
        sell(6, 15, 113).response().non_customer(),
        sell(7, 35, 114).response().non_customer(),
        sell(8, 100, 115).response().non_customer(),
        clock(500),
    ];
    let outcomes = spread().outcomes(&messages);
    assert_eq!(outcomes[5], Outcome::Begun { deadline: 500 });
    let ended = Outcome::Ended {
        cause: Cause::Time,
        fills: 9,
    };
    assert_eq!(outcomes[11], ended);
    spread().prints(
        &messages,
        &[
            "12 10 N 6 113 15",
            "12 10 C 4 114 5",
            "12 10 N 7 114 35",
            "12 10 L 0 115 20",
            "12 10 C 1 115 5",
            "12 10 C 5 115 5",
            "12 10 N 2 115 1",
            "12 10 N 3 115 1",
            "12 10 N 8 115 13",
            "average 10 114 30",
            "open 2 answers 0",
        ],
    );
}

/// 000: an order "on the opposite side of the original COA-eligible order ... will be ranked in
/// price time with RFR Responses by account type", its balance "placed in the Consolidated Book".
/// Document 01 shares by size, also with the opposite orders.
#[test]
fn opposite_orders_of_000_trade_in_the_auction() {
    spread().prints(
        &all(&[
            &market(),
            &[
                buy(1, 6, 120).wish(),
                sell(2, 4, 120),
                sell(3, 4, 120).response(),
                sell(4, 9, 118).non_customer(),
                clock(500),
            ],
        ]),
        // The balance of order 4 is live, order 2 too.
        &["7 1 N 4 118 6", "average 1 118 0", "open 2 answers 0"],
    );
}

/// 000: same side, "equal to the original COA-eligible order will join the COA"; "priced worse
/// than the initiating order, will join the COA", "ranked and executed with the initiating
/// COA-eligible order in price time order".
#[test]
fn equal_and_worse_orders_of_000_join() {
    let messages = all(&[
        &market(),
        &[
            buy(1, 5, 120).wish(),
            buy(2, 5, 118).wish(),
            buy(3, 5, 120).wish(),
            sell(4, 12, 117).response(),
            clock(500),
        ],
    ]);
    let outcomes = spread().outcomes(&messages);
    assert_eq!(outcomes[3], Outcome::Joined { queue_units: 10 });
    assert_eq!(outcomes[4], Outcome::Joined { queue_units: 15 });
    spread().prints(
        &messages,
        &[
            "7 1 C 4 117 5",
            "7 3 C 4 117 5",
            "7 2 C 4 117 2",
            "average 1 117 0",
            "average 3 117 0",
            "average 2 117 0",
            "open 1 answers 0",
        ],
    );
}

/// 000: same side "and at a better price than the original COA-eligible order will cause the
/// auction to end", the initiator executed first. In 000 the ending order may "initiate another
/// COA"; document 01 holds it, so that it goes live at once.
#[test]
fn a_better_order_of_000_ends_the_auction_and_begins_none() {
    let messages = all(&[
        &market(),
        &[
            buy(1, 5, 120).wish(),
            sell(2, 7, 119).response(),
            sell(3, 4, 120),
            buy(4, 6, 121).wish(),
        ],
    ]);
    let ended = Outcome::Ended {
        cause: Cause::Order,
        fills: 2,
    };
    assert_eq!(spread().last_outcome(&messages), ended);
    // The response's two left expire; order 4 meets order 3 as it goes live.
    spread().prints(
        &messages,
        &[
            "6 1 C 2 119 5",
            "6 4 R 3 120 4",
            "average 1 119 0",
            "average 4 120 0",
            "open 1 answers 0",
        ],
    );
}

/// 000 (iv): legs "that cause the derived Complex Best Bid/Offer to be improved during the COA"
/// come after complex orders and responses at the same net price.
#[test]
fn improved_legs_of_000_come_last() {
    spread().prints(
        &all(&[
            &market(),
            &[
                buy(1, 20, 125).wish(),
                sell(2, 8, 125).response().non_customer(),
                local(1, 115, 10, 130, 10),
                clock(500),
            ],
        ]),
        &[
            "6 1 N 2 125 8",
            "6 1 T 0 125 10",
            "average 1 125 0",
            "open 1 answers 0",
        ],
    );
}

fn filter_legs(ratios: [u8; 2], mpvs: [u8; 2]) -> Session {
    let leg = |symbol: &str, side: char, at: usize| -> Leg {
        common::leg(symbol, side, ratios[at], mpvs[at])
    };
    spread().legs(&[
        leg("XYZ   260116C00020000", 'B', 0),
        leg("XYZ   260116C00025000", 'S', 1),
    ])
}

/// The order passes at one limit and meets 33 at the other.
fn passes_and_not(
    session: &Session,
    quotes: [second::tape::Record; 2],
    orders: [second::tape::Record; 2],
) {
    let passing = session.last_outcome(&all(&[&quotes, &orders[..1]]));
    assert!(matches!(passing, Outcome::Placed { .. }), "{passing:?}");
    assert_eq!(
        session.last_outcome(&all(&[&quotes, &orders[1..]])),
        refused(33)
    );
}

/// 002 example 1: "offered at 1.05", the setting .15, a debit of 1.25 is rejected.
#[test]
fn example_1_of_002() {
    let session = filter_legs([1, 1], [5, 5]);
    let quotes = [national(0, 200, 210), national(1, 105, 120)];
    passes_and_not(&session, quotes, [buy(1, 1, 120), buy(1, 1, 125)]);
}

/// 002 example 2: MPVs .10 and .05, the smallest-priced leg is the Jan 25 call: .15.
#[test]
fn example_2_of_002() {
    let session = filter_legs([1, 1], [10, 5]);
    let quotes = [national(0, 500, 530), national(1, 210, 220)];
    passes_and_not(&session, quotes, [buy(1, 1, 335), buy(1, 1, 336)]);
    passes_and_not(&session, quotes, [buy(1, 1, 320), buy(1, 1, 360)]);
}

/// 002 example 3: a seller's contra price of 1.02, the setting .10, a credit of .90 is rejected.
#[test]
fn example_3_of_002() {
    let session = filter_legs([1, 1], [1, 1]);
    let quotes = [national(0, 203, 208), national(1, 100, 101)];
    passes_and_not(&session, quotes, [sell(1, 1, 92), sell(1, 1, 90)]);
}

/// 002 example 4: 2:3, contra price 1.00, "the aggregate of the small sized leg", .10 × 2 = .20; a
/// credit of .75 is rejected.
#[test]
fn example_4_of_002() {
    let session = filter_legs([2, 3], [1, 1]);
    let quotes = [national(0, 203, 208), national(1, 100, 102)];
    passes_and_not(&session, quotes, [sell(1, 1, 80), sell(1, 1, 75)]);
}

/// 002 example 5: 2:3 with MPVs .10 and .05, contra price 2.20. The filing takes the lesser of two
/// products, .45. Document 01 decides: the smallest price is the Jan 25 call's, 15 × 2 = 30.
#[test]
fn example_5_of_002_as_document_01_has_it() {
    let session = filter_legs([2, 3], [10, 5]);
    let quotes = [national(0, 410, 420), national(1, 190, 200)];
    passes_and_not(&session, quotes, [sell(1, 1, 190), sell(1, 1, 189)]);
    passes_and_not(&session, quotes, [sell(1, 1, 220), sell(1, 1, 150)]);
}

/// 003, the first example: "it executes against the leg markets at prices of 2.40 ... and 1.10".
#[test]
fn the_first_order_of_003_meets_the_legs() {
    spread().prints(
        &all(&[&market(), &[buy(1, 10, 130)]]),
        &["3 1 L 0 130 10", "average 1 130 0", "open 0 answers 0"],
    );
}

/// 003, the second: a debit of 1.00 is posted, and a credit of 1.00 "is matched against the posted
/// order". The filing names prices of the legs too; document 01 has none.
#[test]
fn the_posted_order_of_003_is_matched() {
    spread().prints(
        &all(&[&market(), &[buy(1, 10, 100), sell(2, 10, 100)]]),
        &["4 2 R 1 100 10", "average 2 100 0", "open 0 answers 0"],
    );
}

/// 003, the third: the legs move to the same price and "maintain priority over the posted Complex
/// Order"; "any residual will be matched against the Complex Order".
#[test]
fn the_legs_of_003_keep_priority_at_the_same_price() {
    spread().prints(
        &all(&[
            &market(),
            &[
                buy(1, 10, 100),
                local(1, 110, 10, 120, 10),
                sell(2, 15, 100),
            ],
        ]),
        &[
            "5 2 L 0 100 10",
            "5 2 R 1 100 5",
            "average 2 100 0",
            "open 1 answers 0",
        ],
    );
}

/// 003: "If the market prices in the legs move so that the Complex Order is now executable", it
/// executes against them.
#[test]
fn the_posted_order_of_003_is_executed_when_the_legs_move() {
    spread().prints(
        &all(&[&market(), &[buy(1, 12, 100), local(0, 205, 10, 210, 10)]]),
        &["4 1 L 0 100 10", "average 1 100 0", "open 1 answers 0"],
    );
}

/// 003: complex orders "rewarded for setting that price by being granted strict time priority".
#[test]
fn strict_time_priority_of_003() {
    spread().prints(
        &all(&[
            &market(),
            &[
                buy(1, 3, 100).non_customer(),
                buy(2, 30, 100),
                buy(3, 3, 101),
                sell(4, 8, 100),
            ],
        ]),
        &[
            "6 4 R 3 101 3",
            "6 4 R 1 100 3",
            "6 4 R 2 100 2",
            "average 4 100 3",
            "open 1 answers 0",
        ],
    );
}
