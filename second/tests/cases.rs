//! Document 01's own cases.

mod common;

use common::*;
use second::engine::Outcome;
use second::execution::share;
use second::print::tapeprint;
use second::strategy::{ratios_fit, third_friday, Side};
use second::text::make;

#[test]
fn own_case_byte_for_byte() {
    let tape = make(include_bytes!("../sessions/own-case.txt")).unwrap();
    let printed = "number order rank contra price units\n\
                   4 8 L 0 100 10\n\
                   4 8 R 7 100 5\n\
                   average 8 100 0\n\
                   refused 5 50\n\
                   open 1 answers 0\n";
    assert_eq!(tapeprint(&tape), printed);
    // The tape, as the section "Tape" lays it out.
    assert_eq!(tape.len(), 40 + 2 * 24 + 5 * 36);
    assert_eq!(tape[..8], [2, 0, 40, 0, 5, 0, 88, 0]);
    assert_eq!(tape[40..64], *b"XYZ   260116C00020000B\x01\x05");
    assert_eq!(tape[64..88], *b"XYZ   260116C00025000S\x01\x05");
    let order_7 = &tape[88 + 2 * 36..88 + 3 * 36];
    assert_eq!(order_7[..4], [3, b'B', 1, 0]);
    assert_eq!(
        order_7[4..20],
        [7, 0, 0, 0, 1, 0, 0, 0, 10, 0, 0, 0, 100, 0, 0, 0]
    );
    assert_eq!(order_7[20..], [0; 16]);
}

/// "Buy 100 at 115 in auction (000)."
#[test]
fn buy_100_at_115_in_auction() {
    spread().prints(
        &[
            local(0, 220, 20, 235, 20),
            local(1, 120, 20, 125, 20),
            sell(1, 5, 115),
            sell(2, 5, 115).non_customer(),
            sell(3, 5, 115).non_customer(),
            buy(4, 100, 115).wish(),
            sell(5, 5, 114).response(),
            sell(6, 5, 115).response(),
            sell(7, 15, 113).response().non_customer(),
            sell(8, 35, 114).response().non_customer(),
            sell(9, 100, 115).response().non_customer(),
            clock(500),
        ],
        &[
            "12 4 N 7 113 15",
            "12 4 C 5 114 5",
            "12 4 N 8 114 35",
            "12 4 L 0 115 20",
            "12 4 C 1 115 5",
            "12 4 C 6 115 5",
            "12 4 N 2 115 1",
            "12 4 N 3 115 1",
            "12 4 N 9 115 13",
            "average 4 114 30",
            "open 2 answers 0",
        ],
    );
}

fn shares_of(amount: u32, sizes: &[u32]) -> Vec<u32> {
    let mut shares = vec![0; sizes.len()];
    share(amount, sizes, &mut shares);
    shares
}

#[test]
fn sharing_by_size() {
    assert_eq!(shares_of(15, &[5, 5, 100]), [1, 1, 13]);
    assert_eq!(shares_of(4, &[3, 3, 3]), [2, 1, 1]);
    assert_eq!(shares_of(9, &[3, 3, 3]), [3, 3, 3]);
    // "Wrong though likely: leftovers to the earliest."
    assert_eq!(shares_of(5, &[6, 1, 5]), [3, 0, 2]);
    assert_eq!(shares_of(1, &[1, 2, 3]), [0, 0, 1]);
    // The greatest values.
    assert_eq!(shares_of(999_999, &[999_999; 63])[..2], [15_873, 15_873]);
}

#[test]
fn sharing_by_size_in_an_auction() {
    let session = |amount: u32| {
        vec![
            sell(9, 1, 140),
            buy(1, amount, 100).wish(),
            sell(2, 3, 100).response(),
            sell(3, 3, 100).response(),
            sell(4, 3, 100).response(),
            clock(500),
        ]
    };
    spread().prints(
        &session(4),
        &[
            "6 1 C 2 100 2",
            "6 1 C 3 100 1",
            "6 1 C 4 100 1",
            "average 1 100 0",
            "open 1 answers 0",
        ],
    );
    spread().prints(
        &session(9),
        &[
            "6 1 C 2 100 3",
            "6 1 C 3 100 3",
            "6 1 C 4 100 3",
            "average 1 100 0",
            "open 1 answers 0",
        ],
    );
}

/// "002 example 1, amount 15: contra 105, limit 125 gives 33; 120 passes."
#[test]
fn filter_of_example_1() {
    let quotes = [national(0, 200, 210), national(1, 105, 120)];
    let with = |limit: i32| all(&[&quotes, &[buy(1, 1, limit)]]);
    assert_eq!(spread().last_outcome(&with(125)), refused(33));
    assert_eq!(spread().last_outcome(&with(121)), refused(33));
    assert!(matches!(
        spread().last_outcome(&with(120)),
        Outcome::Placed { .. }
    ));
}

/// "Example 4, put as a buy, amount 10: contra -100, limit -75 gives 33; -80 passes." The amount
/// without the ratio would refuse -80: "wrong though likely".
#[test]
fn filter_of_example_4_put_as_a_buy() {
    let session = spread().legs(&[
        leg("XYZ   260116C00020000", 'S', 2, 1),
        leg("XYZ   260116C00025000", 'B', 3, 1),
    ]);
    let quotes = [national(0, 203, 208), national(1, 100, 102)];
    let with = |limit: i32| all(&[&quotes, &[buy(1, 1, limit)]]);
    assert_eq!(session.last_outcome(&with(-75)), refused(33));
    assert_eq!(session.last_outcome(&with(-79)), refused(33));
    assert!(matches!(
        session.last_outcome(&with(-80)),
        Outcome::Placed { .. }
    ));
}

/// "220/240 less 110/125: derived 95 and 130."
#[test]
fn derived_95_and_130() {
    let mut engine = spread().engine();
    let mut fills = [second::execution::Fill::BLANK; 2_000];
    for quote in market() {
        engine.apply(&quote.message().unwrap(), &mut fills);
    }
    let derived = |side| {
        let derived = engine.market().derived_contra(engine.strategy(), side);
        derived.map(|d| (d.price, d.units))
    };
    assert_eq!(derived(Side::Sell), Some((95, 10)));
    assert_eq!(derived(Side::Buy), Some((130, 10)));
}

#[test]
fn third_friday_of_a_symbol() {
    spread().opens();
    let mut session = spread();
    session.legs[0] = leg("XYZ   260117C00020000", 'B', 1, 5);
    session.is_refused(3);
}

/// Third Fridays as a calendar shows them.
#[test]
fn third_fridays_of_a_calendar() {
    let known = [
        (0, 1, 21), // "1 January 2000 was a Saturday": no third Friday is later in its month.
        (0, 2, 18),
        (0, 3, 17),  // After the leap day.
        (0, 12, 15), // 1 December 2000 was a Friday: no third Friday is earlier in its month.
        (26, 1, 16), // Document 01's own case.
        (96, 2, 17), // Before the century's last leap day,
        (96, 3, 16), // and after it.
        (99, 12, 18),
    ];
    for (year, month, day) in known {
        assert_eq!(third_friday(year, month), day, "20{year:02}-{month:02}");
    }
}

/// A third Friday is one of the days 15 to 21, and four or five weeks after the one before. Of
/// seven days only one is: no other days of the 1,200 months pass.
#[test]
fn third_fridays_four_or_five_weeks_apart() {
    // 17 December 1999 was a third Friday.
    let mut rest_of_month = 31 - 17;
    for year in 0..100 {
        let february = if year % 4 == 0 { 29 } else { 28 };
        let days = [31, february, 31, 30, 31, 30, 31, 31, 30, 31, 30, 31];
        for (month, days) in (1..).zip(days) {
            let day = third_friday(year, month);
            let apart = rest_of_month + day;
            assert!((15..=21).contains(&day), "20{year:02}-{month:02}: {day}");
            assert!(
                apart == 28 || apart == 35,
                "20{year:02}-{month:02}: {apart}"
            );
            rest_of_month = days - day;
        }
    }
}

#[test]
fn ratios_1_and_3_pass_and_1_and_4_do_not() {
    assert!(ratios_fit(&[1, 3]));
    assert!(!ratios_fit(&[1, 4]));
    assert!(!ratios_fit(&[2, 4]));
    assert!(ratios_fit(&[9, 8, 7, 3]));
    assert!(ratios_fit(&[6, 4, 9]));
    assert!(!ratios_fit(&[6, 4, 8]));
    for (ratios, number) in [([1, 4], 5), ([2, 4], 5)] {
        let mut session = spread();
        session.legs[0].ratio = ratios[0];
        session.legs[1].ratio = ratios[1];
        session.is_refused(number);
    }
    let mut session = spread();
    session.legs[1].ratio = 3;
    session.opens();
}

/// "Begun at 1,000 for 500: response at 1,499 passes, at 1,500 gives 13."
#[test]
fn begun_at_1000_for_500() {
    let messages = all(&[
        &market(),
        &[
            buy(1, 1, 120).wish().at(1_000),
            sell(2, 1, 150).response().at(1_499),
            sell(3, 1, 150).response().at(1_500),
        ],
    ]);
    let outcomes = spread().outcomes(&messages);
    assert_eq!(outcomes[2], Outcome::Begun { deadline: 1_500 });
    assert_eq!(outcomes[3], Outcome::Noted { fills: 0 });
    assert_eq!(outcomes[4], refused(13));
    spread().prints(&messages, &["refused 5 13", "open 1 answers 1"]);
}

/// "Wrong though likely: late legs in front."
#[test]
fn late_legs_are_not_in_front() {
    spread().prints(
        &all(&[
            &market(),
            &[
                buy(1, 10, 125).wish(),
                sell(2, 4, 120).response(),
                sell(3, 4, 120).response().non_customer(),
                // The derived ask goes from 130 to 120.
                local(0, 220, 10, 230, 10),
                clock(500),
            ],
        ]),
        &[
            "7 1 C 2 120 4",
            "7 1 N 3 120 4",
            "7 1 T 0 120 2",
            "average 1 120 0",
            "open 0 answers 0",
        ],
    );
}

/// "Wrong though likely: a resting buyer's price paid where legs sell lower."
#[test]
fn a_resting_buyer_pays_what_the_legs_ask() {
    spread().prints(
        &all(&[&market(), &[buy(1, 4, 120), local(0, 200, 10, 215, 10)]]),
        &["4 1 L 0 105 4", "average 1 105 0", "open 0 answers 0"],
    );
}
