//! How open sentences of document 01 are read: each test is named after what it shows.

mod common;

use common::*;
use second::engine::{Cause, Outcome};
use second::execution::{Fill, Mode, Turn, Watch};
use second::print::tapeprint;
use second::strategy::Settings;
use second::tape::{Header, Record, Tape};

const MOST: u64 = 1_000_000_000_000_000;

fn set_header(tape: &mut [u8], place: usize, number: u16) {
    tape[place..place + 2].copy_from_slice(&number.to_le_bytes());
}

// The tape.

/// "A section that is not empty overlapping ...": an empty one may have any offset.
#[test]
fn an_empty_section_may_stand_anywhere() {
    for offset in [0, 39, 45, 60, 88, 89, 65_535] {
        let mut tape = spread().tape(&[]);
        set_header(&mut tape, 6, offset);
        assert_eq!(
            tapeprint(&tape),
            with_title(&["open 0 answers 0"]),
            "{offset}"
        );
    }
    // No legs, their offset inside the messages: not 60, but 1.
    let mut session = spread();
    session.legs.clear();
    let mut tape = session.tape(&[clock(0), clock(0)]);
    set_header(&mut tape, 2, 50);
    assert_eq!(tapeprint(&tape), "refused 0 1\n");
}

#[test]
fn sixty_then_sixty_one_then_the_opening() {
    let strange = Record {
        kind: 9,
        ..Record::default()
    };
    // A wrong kind in the last message, after fills.
    let messages = after_market(&[buy(1, 1, 130), strange]);
    assert_eq!(tapeprint(&spread().tape(&messages)), "refused 0 61\n");
    let badly_set = spread().set(|settings| settings.interval = 0);
    assert_eq!(tapeprint(&badly_set.tape(&messages)), "refused 0 61\n");
    let mut tape = badly_set.tape(&messages);
    tape.pop();
    assert_eq!(tapeprint(&tape), "refused 0 60\n");
}

/// Touching sections, odd offsets, messages first and gaps are all fine.
#[test]
fn sections_may_touch_and_leave_gaps() {
    let session = spread();
    let messages = after_market(&[buy(7, 10, 100), sell(8, 15, 95), cancel(9)]);
    let plain = session.tape(&messages);
    let (legs, records) = (&plain[40..88], &plain[88..]);
    let expected = tapeprint(&plain);
    for (leg_gap, message_gap, legs_first) in [
        (0, 0, true),
        (0, 0, false),
        (1, 0, false),
        (3, 7, true),
        (5, 11, false),
        (0, 1, true),
    ] {
        let mut tape = plain[..40].to_vec();
        let mut place = |bytes: &[u8], gap: usize, offset_at: usize| {
            tape.extend(vec![0xaa; gap]);
            let offset = tape.len() as u16;
            set_header(&mut tape, offset_at, offset);
            tape.extend(bytes);
        };
        if legs_first {
            place(legs, leg_gap, 2);
            place(records, message_gap, 6);
        } else {
            place(records, message_gap, 6);
            place(legs, leg_gap, 2);
        }
        tape.extend([1, 2, 3]);
        assert_eq!(tapeprint(&tape), expected);
    }
}

#[test]
fn sections_that_share_a_byte_meet_60() {
    let session = spread();
    for (place, offset) in [(2, 39), (2, 41), (6, 87), (6, 39), (6, 0), (6, 40), (6, 89)] {
        let mut tape = session.tape(&[clock(0)]);
        set_header(&mut tape, place, offset);
        assert_eq!(tapeprint(&tape), "refused 0 60\n", "{place} {offset}");
    }
}

#[test]
fn forty_and_65535_bytes_pass() {
    assert_eq!(tapeprint(&[0; 39]), "refused 0 60\n");
    assert_eq!(tapeprint(&[]), "refused 0 60\n");
    assert_eq!(tapeprint(&[0; 40]), "refused 0 1\n");
    let mut tape = spread().tape(&[]);
    tape.resize(Tape::MOST_BYTES, 0xff);
    assert_eq!(tapeprint(&tape), with_title(&["open 0 answers 0"]));
    tape.push(0);
    assert_eq!(tapeprint(&tape), "refused 0 60\n");
}

#[test]
fn prices_are_signed_and_all_else_is_not() {
    let most = u32::MAX;
    spread().prints(
        &[
            sell(most, 1, -5).of(most),
            buy(1, 1, -5),
            local(0, 1, 1 << 31, 2, 1),
            buy(2, 1 << 31, 0),
            clock(1 << 63),
            clock(u64::MAX),
        ],
        &[
            "2 1 R 4294967295 -5 1",
            "average 1 -5 0",
            "refused 3 21",
            "refused 4 30",
            "refused 5 11",
            "refused 6 11",
            "open 0 answers 0",
        ],
    );
    spread().set(|s| s.first_number = 1 << 63).is_refused(7);
    spread().set(|s| s.opening_time = 1 << 63).is_refused(7);
}

#[test]
fn kinds_0_and_9_and_above_meet_61() {
    for kind in 0..=255 {
        let record = Record { kind, ..clock(0) };
        let of_no_kind = tapeprint(&spread().tape(&[record])) == "refused 0 61\n";
        assert_eq!(of_no_kind, !(1..=8).contains(&kind), "{kind}");
    }
}

#[test]
fn wish_and_leg_share_the_fourth_byte_and_any_wish_is_yes() {
    for wish in [1, 2, 128, 255] {
        let asking = Record {
            wish_or_leg: wish,
            ..buy(1, 1, 120)
        };
        let begun = Outcome::Begun { deadline: 500 };
        assert_eq!(spread().last_outcome(&after_market(&[asking])), begun);
    }
    let mut tape = spread().tape(&[local(1, 5, 1, 6, 1)]);
    assert_eq!(tape[88 + 3], 1);
    tape[88 + 3] = 2;
    assert_eq!(
        tapeprint(&tape),
        with_title(&["refused 1 20", "open 0 answers 0"])
    );
}

#[test]
fn unused_fields_are_ignored() {
    let garbage = Record {
        kind: 7,
        side: 1,
        account: 77,
        wish_or_leg: 9,
        id: 8,
        participant: 0,
        units: 0,
        price: i32::MIN,
        ask: -1,
        ask_size: u32::MAX,
        time: 3,
    };
    let cancel = Record {
        kind: 6,
        id: 1,
        participant: 1,
        ..garbage
    };
    let reduce = Record {
        kind: 8,
        units: 1,
        ..cancel
    };
    let national = Record {
        kind: 2,
        wish_or_leg: 0,
        price: 5,
        ask: 4,
        ..garbage
    };
    spread().prints(
        &[buy(1, 2, 1), garbage, national, reduce, cancel],
        &["open 0 answers 0"],
    );
}

// What is printed.

#[test]
fn refused_lines_and_fills_stand_in_tape_order() {
    spread().prints(
        &after_market(&[cancel(5), buy(1, 1, 130), cancel(5), buy(2, 1, 130)]),
        &[
            "refused 3 50",
            "3 1 L 0 130 1",
            "average 1 130 0",
            "refused 5 50",
            "4 2 L 0 130 1",
            "average 2 130 0",
            "open 0 answers 0",
        ],
    );
}

#[test]
fn without_fills_the_title_and_the_last_line_are_printed() {
    spread().prints(&[], &["open 0 answers 0"]);
}

#[test]
fn a_pending_auction_at_the_tapes_end_stays_pending() {
    spread().prints(
        &after_market(&[buy(1, 1, 120).wish(), sell(2, 1, 120).response()]),
        &["open 1 answers 1"],
    );
}

#[test]
fn open_counts_held_live_and_queue_orders() {
    spread().prints(
        &after_market(&[
            buy(1, 1, 90),
            buy(2, 1, 120).wish(),
            sell(3, 1, 140),
            sell(4, 1, 140).response(),
            buy(5, 1, 150).response(),
        ]),
        &["open 3 answers 2"],
    );
}

// The opening.

#[test]
fn numbers_go_over_all_legs_before_the_next_number() {
    let mut session = spread();
    session.legs[0] = leg("XYZ   260117C00020000", 'B', 1, 5); // 3
    session.legs[1] = leg("XYZ   261316C00025000", 'S', 1, 5); // 2
    session.is_refused(2);
    let mut session = spread();
    session.legs[0].side = b'X'; // 6
    session.legs[1].ratio = 0; // 5
    session.is_refused(5);
    session.legs[1] = session.legs[0]; // 4
    session.is_refused(4);
}

#[test]
fn a_wrong_day_is_3_and_a_wrong_month_is_2() {
    for (date, number) in [
        ("260100", 3),
        ("260432", 3),
        ("260431", 3),
        ("260199", 3),
        ("260109", 3),
        ("260123", 3),
        ("260016", 2),
        ("261316", 2),
        ("269916", 2),
        ("26011x", 2),
    ] {
        let mut session = spread();
        session.legs[1] = leg(&format!("XYZ   {date}C00025000"), 'S', 1, 5);
        session.is_refused(number);
    }
}

#[test]
fn malformed_symbols_meet_2() {
    for symbol in [
        "      260116C00020000",
        " XYZ  260116C00020000",
        "X Z   260116C00020000",
        "XYZ1  260116C00020000",
        "xyz   260116C00020000",
        "XYZ   260116c00020000",
        "XYZ   260116X00020000",
        "XYZ   260116C00000000",
        "XYZ   260116C0002000 ",
        "XYZ   260116C+0020000",
        "XYZ\0\0\x00260116C00020000",
    ] {
        let mut session = spread();
        session.legs[0] = leg(symbol, 'B', 1, 5);
        session.is_refused(2);
    }
    let mut session = spread();
    session.legs[0] = leg("ABCDEF260116C00000001", 'B', 1, 5);
    session.legs[1] = leg("ABCDEF000121P99999999", 'S', 1, 5);
    session.opens();
}

#[test]
fn ratios_go_before_sides_and_the_leg_count_before_all() {
    for ratio in [0, 10, 255] {
        let mut session = spread();
        session.legs[0].ratio = ratio;
        session.legs[0].mpv = 2;
        session.is_refused(5);
    }
    let mut session = spread();
    session.legs = vec![leg("???????????????????? ", 'X', 0, 0); 5];
    session.is_refused(1);
    session.legs.truncate(1);
    session.is_refused(1);
    session.legs.clear();
    session.is_refused(1);
}

#[test]
fn roots_that_differ_and_symbols_that_repeat_meet_4() {
    let mut session = spread();
    session.legs[1] = leg("XYZW  260116C00025000", 'S', 1, 5);
    session.is_refused(4);
    session.legs[1] = session.legs[0];
    session.is_refused(4);
    // The same strike as C and P is not a repeat.
    session.legs[1] = leg("XYZ   260116P00020000", 'S', 1, 5);
    session.opens();
}

#[test]
fn sides_and_mpvs_meet_6() {
    let spoilt = |side: u8, mpv: u8| {
        let mut session = spread();
        (session.legs[1].side, session.legs[1].mpv) = (side, mpv);
        session
    };
    for mpv in [1, 5, 10] {
        spoilt(b'B', mpv).opens();
    }
    for (side, mpv) in [
        (b'b', 5),
        (b's', 5),
        (0, 5),
        (b'B', 0),
        (b'B', 2),
        (b'B', 100),
    ] {
        spoilt(side, mpv).is_refused(6);
    }
}

#[test]
fn settings_at_their_ends_pass_and_beyond_them_meet_7() {
    let opens = |change: fn(&mut Settings)| spread().set(change).opens();
    let meets_7 = |change: fn(&mut Settings)| spread().set(change).is_refused(7);
    opens(|s| s.interval = 1);
    opens(|s| s.interval = 1_000);
    opens(|s| s.distance = 0);
    opens(|s| s.distance = 999);
    opens(|s| s.most_legs = 2);
    opens(|s| s.minimum = 999_999);
    opens(|s| s.amounts = [0, 999, 0]);
    opens(|s| (s.first_number, s.opening_time) = (MOST, MOST));
    meets_7(|s| s.interval = 0);
    meets_7(|s| s.interval = 1_001);
    meets_7(|s| s.distance = 1_000);
    meets_7(|s| s.most_legs = 1);
    meets_7(|s| s.most_legs = 5);
    meets_7(|s| s.minimum = 0);
    meets_7(|s| s.minimum = 1_000_000);
    meets_7(|s| s.amounts[0] = 1_000);
    meets_7(|s| s.amounts[1] = 1_000);
    meets_7(|s| s.amounts[2] = 1_000);
    meets_7(|s| s.first_number = MOST + 1);
    meets_7(|s| s.opening_time = MOST + 1);
}

#[test]
fn the_first_number_may_be_0() {
    let session = spread().set(|s| s.first_number = 0);
    session.prints(
        &[sell(1, 1, 5), buy(2, 1, 5)],
        &["1 2 R 1 5 1", "average 2 5 0", "open 0 answers 0"],
    );
    let messages = [local(0, 1, 1, 9, 1)];
    assert_eq!(session.last_outcome(&messages), noted());
}

#[test]
fn a_strategy_of_more_than_most_legs_opens_and_has_no_auction() {
    let three = [
        leg("XYZ   260116C00020000", 'B', 1, 5),
        leg("XYZ   260116C00025000", 'S', 1, 5),
        leg("XYZ   260116C00030000", 'B', 1, 5),
    ];
    let quotes = [
        local(0, 220, 9, 240, 9),
        local(1, 110, 9, 125, 9),
        local(2, 10, 9, 20, 9),
        buy(1, 1, 140).wish(),
    ];
    let with = |most_legs: u16| spread().legs(&three).set(|s| s.most_legs = most_legs);
    assert_eq!(with(2).last_outcome(&quotes), placed(1));
    assert_eq!(
        with(3).last_outcome(&quotes),
        Outcome::Begun { deadline: 500 }
    );
}

// Every message.

#[test]
fn the_rows_for_every_message_go_first() {
    let outcomes = spread().outcomes(&after_market(&[
        buy(1, 1, 120).wish().at(10),
        cancel(99).at(510),
        reduce(99, 0).at(510),
        Record {
            side: b'X',
            ..buy(2, 1, 1)
        }
        .at(9),
        local(7, 0, 0, 0, 0).at(510),
        local(7, 0, 0, 0, 0).at(509),
    ]));
    assert_eq!(
        outcomes[3..],
        [
            refused(13),
            refused(13),
            refused(11),
            refused(13),
            refused(20)
        ]
    );
}

#[test]
fn refused_messages_take_no_number_and_move_no_time() {
    let session = spread();
    session.prints(
        &[
            sell(1, 1, 5).at(4),
            cancel(9).at(1_000),
            buy(2, 1, 5).at(4),
            clock(3),
        ],
        &[
            "refused 2 50",
            "2 2 R 1 5 1",
            "average 2 5 0",
            "refused 4 11",
            "open 0 answers 0",
        ],
    );
}

#[test]
fn the_opening_time_is_the_first_last_accepted_time() {
    let session = spread().set(|s| s.opening_time = 77);
    assert_eq!(
        session.outcomes(&[clock(76), clock(77)]),
        [refused(11), noted()]
    );
}

#[test]
fn the_number_ten_to_the_fifteenth_is_given_once() {
    let session = spread().set(|s| s.first_number = MOST);
    assert_eq!(
        session.outcomes(&[clock(0), clock(0)]),
        [noted(), refused(12)]
    );
    // 11 goes before 12, and 12 before the kind's row.
    let later = session.outcomes(&[clock(5), clock(4), cancel(1).at(5)]);
    assert_eq!(later[1..], [refused(11), refused(12)]);
}

#[test]
fn a_clock_ends_at_the_deadline_and_not_before() {
    let outcomes = spread().outcomes(&after_market(&[
        buy(1, 1, 120).wish(),
        clock(499),
        sell(2, 1, 200).at(499),
        clock(500),
        sell(3, 1, 200).at(500),
    ]));
    assert_eq!(
        outcomes[3..],
        [noted(), placed(1), ended(Cause::Time, 0), placed(1)]
    );
}

#[test]
fn a_deadline_above_the_greatest_time_stays_and_no_clock_reaches_it() {
    let session = spread().set(|s| (s.interval, s.opening_time) = (1_000, MOST));
    let messages: Vec<Record> = after_market(&[
        buy(1, 1, 120).wish(),
        clock(MOST),
        sell(3, 1, 121).response(),
        buy(2, 1, 121),
    ])
    .iter()
    .map(|message| message.at(MOST))
    .collect();
    let mut outcomes = session.outcomes(&messages);
    let begun = Outcome::Begun {
        deadline: MOST + 1_000,
    };
    assert_eq!(
        outcomes.split_off(2),
        [begun, noted(), noted(), ended(Cause::Order, 0)]
    );
    let too_late = all(&[&messages[..3], &[clock(MOST + 1_000)]]);
    assert_eq!(session.last_outcome(&too_late), refused(11));
}

#[test]
fn a_fill_list_under_2000_places_meets_10_and_places_past_the_count_stay() {
    let mut engine = spread().engine();
    let mark = Fill {
        number: 99,
        ..Fill::BLANK
    };
    let mut short = [mark; 1_999];
    let old = clock(0).message().unwrap();
    assert_eq!(engine.apply(&old, &mut short), refused(10));
    let mut list = [mark; 2_000];
    engine.apply(&sell(1, 1, 5).message().unwrap(), &mut list);
    assert_eq!(list, [mark; 2_000]);
    let outcome = engine.apply(&buy(2, 1, 5).message().unwrap(), &mut list);
    assert_eq!(outcome, Outcome::Placed { units: 0, fills: 1 });
    assert_eq!(list[0].units, 1);
    assert_eq!(list[1..], [mark; 1_999]);
}

// Prices, quotes, filter.

#[test]
fn national_quotes_make_no_derived_price() {
    let messages = [
        national(0, 220, 240),
        national(1, 110, 125),
        buy(1, 1, 130).wish(),
    ];
    assert_eq!(spread().last_outcome(&messages), placed(1));
}

#[test]
fn a_local_bid_must_be_below_the_ask_where_both_are_there() {
    let outcomes = spread().outcomes(&[
        local(0, 100, 1, 100, 1),
        local(0, 101, 1, 100, 1),
        local(0, 100, 1, 0, 0),
        local(0, 0, 0, 90, 1),
        local(0, 99, 1, 100, 1),
    ]);
    assert_eq!(
        outcomes,
        [refused(22), refused(22), noted(), noted(), noted()]
    );
}

#[test]
fn national_quotes_may_lock_or_cross() {
    let outcomes = spread().outcomes(&[
        national(0, 100, 100),
        national(0, 200, 100),
        national(0, 0, 100),
        national(1, 999_999, 1),
        national(1, 1_000_000, 1),
        national(1, 1, -1),
        national(2, 1, 1),
    ]);
    let wrong = [refused(21), refused(21), refused(20)];
    assert_eq!(outcomes[..4], [noted(); 4]);
    assert_eq!(outcomes[4..], wrong);
}

fn two_mpvs(ratios: [u8; 2], mpvs: [u8; 2]) -> Session {
    spread().legs(&[
        leg("XYZ   260116C00020000", 'B', ratios[0], mpvs[0]),
        leg("XYZ   260116C00025000", 'S', ratios[1], mpvs[1]),
    ])
}

fn passes(outcome: Outcome) -> bool {
    matches!(outcome, Outcome::Placed { .. })
}

/// The greatest limit at which a buyer passes the filter.
fn greatest_limit(session: &Session, quotes: &[Record]) -> i32 {
    let limits = -2_000..2_000;
    let pass = |limit: &i32| passes(session.last_outcome(&all(&[quotes, &[buy(1, 1, *limit)]])));
    limits.rev().find(pass).expect("a limit that passes")
}

#[test]
fn the_filter_takes_the_smallest_leg_price_and_not_ratio_times_price() {
    // Ask 200 of the B leg, bid 100 of the S leg, taken 3 times: the S leg's amount, 30.
    let session = two_mpvs([1, 3], [1, 10]);
    let quotes = [national(0, 190, 200), national(1, 100, 120)];
    assert_eq!(greatest_limit(&session, &quotes), 200 - 300 + 30);
}

#[test]
fn on_a_tie_the_filter_takes_the_earlier_legs_amount() {
    let quotes = [national(0, 90, 100), national(1, 100, 120)];
    assert_eq!(greatest_limit(&two_mpvs([1, 1], [1, 10]), &quotes), 10);
    assert_eq!(greatest_limit(&two_mpvs([1, 1], [10, 1]), &quotes), 30);
}

#[test]
fn the_filter_takes_the_smallest_ratio_of_the_strategy() {
    let quotes = [national(0, 300, 310), national(1, 100, 120)];
    // The smallest price is the leg of ratio 3; the smallest ratio is 2.
    assert_eq!(
        greatest_limit(&two_mpvs([2, 3], [5, 5]), &quotes),
        620 - 300 + 15 * 2
    );
}

#[test]
fn the_filter_wants_every_national_side() {
    // A buyer uses ask 0 and bid 1; the other two must be there too.
    for quotes in [
        [national(0, 0, 210), national(1, 105, 120)],
        [national(0, 200, 210), national(1, 105, 0)],
        [national(0, 200, 0), national(1, 105, 120)],
    ] {
        let far = all(&[&quotes, &[buy(1, 1, 9_999)]]);
        assert!(passes(spread().last_outcome(&far)));
    }
    let quotes = [national(0, 200, 210), national(1, 105, 120)];
    let far = all(&[&quotes, &[buy(1, 1, 9_999)]]);
    assert_eq!(spread().last_outcome(&far), refused(33));
}

#[test]
fn an_order_on_the_good_side_of_the_contra_price_is_never_filtered() {
    let session = spread().set(|s| s.amounts = [0; 3]);
    let quotes = [national(0, 200, 210), national(1, 105, 120)];
    let outcome = |order: Record| session.last_outcome(&all(&[&quotes, &[order]]));
    assert!(passes(outcome(buy(1, 1, -40_000_000))));
    assert!(passes(outcome(buy(1, 1, 105))));
    assert_eq!(outcome(buy(1, 1, 106)), refused(33));
    assert!(passes(outcome(sell(1, 1, 40_000_000))));
    assert!(passes(outcome(sell(1, 1, 80))));
    assert_eq!(outcome(sell(1, 1, 79)), refused(33));
}

#[test]
fn the_filter_is_for_orders_alone_and_a_refused_order_ends_nothing() {
    let outcomes = spread().outcomes(&after_market(&[
        national(0, 220, 240),
        national(1, 110, 125),
        buy(1, 1, 140).wish(),
        sell(2, 1, -30_000).response(),
        sell(2, 1, 30_000).modify(),
        buy(3, 1, 146),
        buy(3, 1, 145),
    ]));
    let begun = Outcome::Begun { deadline: 500 };
    assert_eq!(outcomes[4..8], [begun, noted(), noted(), refused(33)]);
    assert!(matches!(
        outcomes[8],
        Outcome::Ended {
            cause: Cause::Order,
            ..
        }
    ));
}

#[test]
fn local_sides_have_price_and_size_or_neither() {
    for quote in [
        local(0, 5, 0, 9, 1),
        local(0, 0, 5, 9, 1),
        local(0, 5, 1, 0, 1),
        local(0, 5, 1, 9, 0),
        local(0, 5, 1_000_000, 9, 1),
        local(0, 5, 1, 1_000_000, 1),
        local(0, -5, 1, 9, 1),
        // 21 goes before 22.
        local(0, 9, 1, 5, 0),
    ] {
        assert_eq!(spread().last_outcome(&[quote]), refused(21));
    }
    let most = local(0, 999_998, 999_999, 999_999, 999_999);
    assert_eq!(spread().last_outcome(&[most]), noted());
    // 20 goes before 21.
    assert_eq!(spread().last_outcome(&[local(2, 5, 0, 9, 0)]), refused(20));
}

#[test]
fn a_quote_of_two_absent_sides_clears_the_leg() {
    spread().prints(
        &after_market(&[local(0, 0, 0, 0, 0), buy(1, 1, 200)]),
        &["open 1 answers 0"],
    );
}

// The steps without an auction.

#[test]
fn held_orders_go_live_one_after_the_other_and_meet_each_other() {
    let messages = after_market(&[buy(1, 5, 100).wish(), sell(2, 9, 125), buy(3, 6, 127)]);
    spread().prints(
        &messages,
        &["5 3 R 2 125 6", "average 3 125 0", "open 2 answers 0"],
    );
}

#[test]
fn held_orders_meet_improved_legs_before_an_older_and_better_live_order() {
    let messages = after_market(&[
        buy(1, 5, 100),
        sell(2, 3, 150).wish(),
        buy(3, 5, 98),
        // The derived ask falls to 97 for 5 units, and the auction ends.
        local(0, 200, 10, 207, 5),
    ]);
    spread().prints(
        &messages,
        &["6 3 L 0 97 5", "average 3 97 0", "open 2 answers 0"],
    );
}

#[test]
fn live_orders_meet_the_legs_best_price_first_then_arrival() {
    let messages = after_market(&[
        buy(1, 4, 100),
        buy(2, 4, 101),
        buy(3, 4, 100),
        local(0, 200, 10, 210, 10),
    ]);
    spread().prints(
        &messages,
        &[
            "6 2 L 0 100 4",
            "6 1 L 0 100 4",
            "6 3 L 0 100 2",
            "average 2 100 0",
            "average 1 100 0",
            "average 3 100 0",
            "open 1 answers 0",
        ],
    );
    let messages = after_market(&[
        sell(1, 4, 120),
        sell(2, 4, 119),
        sell(3, 4, 120),
        local(0, 245, 10, 250, 10),
    ]);
    spread().prints(
        &messages,
        &[
            "6 2 L 0 120 4",
            "6 1 L 0 120 4",
            "6 3 L 0 120 2",
            "average 2 120 0",
            "average 1 120 0",
            "average 3 120 0",
            "open 1 answers 0",
        ],
    );
}

#[test]
fn remainders_of_the_queue_keep_their_own_arrival_number() {
    let messages = after_market(&[
        buy(1, 5, 100).wish(),
        buy(2, 5, 100),
        clock(500),
        sell(3, 6, 100).at(500),
    ]);
    spread().prints(
        &messages,
        &[
            "6 3 R 1 100 5",
            "6 3 R 2 100 1",
            "average 3 100 0",
            "open 1 answers 0",
        ],
    );
}

/// Counts the turns of each mode.
#[derive(Default)]
struct Count {
    queue: u32,
    going_live: u32,
    legs_pass: u32,
}

impl Watch for Count {
    fn turn_begins(&mut self, turn: &Turn) {
        match turn.mode {
            Mode::Queue { .. } => self.queue += 1,
            Mode::GoingLive => self.going_live += 1,
            Mode::LegsPass => self.legs_pass += 1,
        }
    }
}

#[test]
fn remainders_of_the_queue_have_a_second_turn_on_going_live() {
    let mut engine = spread().engine();
    let mut fills = vec![Fill::BLANK; 2_000];
    let mut count = Count::default();
    for record in after_market(&[
        buy(1, 5, 100).wish(),
        buy(2, 5, 99).wish(),
        sell(3, 7, 99).response(),
        sell(4, 7, 140),
        clock(500),
    ]) {
        engine.apply_watched(&record.message().unwrap(), &mut fills, &mut count);
    }
    // Order 2's remainder and order 4 go live.
    assert_eq!((count.queue, count.going_live, count.legs_pass), (2, 2, 0));
}

// Auction life.

#[test]
fn an_eligible_order_that_does_not_ask_begins_none() {
    assert_eq!(
        spread().last_outcome(&after_market(&[buy(1, 1, 120)])),
        placed(1)
    );
    let begun = Outcome::Begun { deadline: 500 };
    assert_eq!(
        spread().last_outcome(&after_market(&[buy(1, 1, 120).wish()])),
        begun
    );
}

#[test]
fn eligible_is_strictly_better_than_every_order_outside_the_queue() {
    let begun = Outcome::Begun { deadline: 500 };
    let outcome = |limit: i32| {
        spread().last_outcome(&after_market(&[buy(1, 1, 110), buy(2, 1, limit).wish()]))
    };
    assert_eq!(outcome(110), placed(1));
    assert_eq!(outcome(109), placed(1));
    assert_eq!(outcome(111), begun);
    // A held order of the same side and price stops a later one from joining; the queue does not.
    let outcomes = spread().outcomes(&after_market(&[
        buy(1, 1, 110).wish(),
        buy(2, 1, 110).wish(),
        buy(3, 1, 109),
        buy(4, 1, 109).wish(),
        buy(5, 1, 110).wish(),
    ]));
    assert_eq!(outcomes[2], begun);
    assert_eq!(outcomes[3], Outcome::Joined { queue_units: 2 });
    assert_eq!(outcomes[4..6], [placed(1), placed(1)]);
    assert_eq!(outcomes[6], Outcome::Joined { queue_units: 3 });
}

#[test]
fn held_opposite_orders_and_responses_are_no_contra_price() {
    let outcomes = spread().outcomes(&[
        sell(1, 1, 120),
        buy(2, 1, 119).wish(),
        sell(3, 1, 120),
        sell(4, 1, 120).response(),
        buy(5, 1, 119).wish(),
        // A cancelled live order is no contra price either.
        cancel(1),
        buy(6, 1, 118).wish(),
    ]);
    assert_eq!(outcomes[1], Outcome::Begun { deadline: 500 });
    assert_eq!(outcomes[4], Outcome::Joined { queue_units: 2 });
    assert_eq!(outcomes[5..], [noted(), placed(1)]);
}

#[test]
fn the_distance_is_met_when_missed_by_it_exactly() {
    let begun = Outcome::Begun { deadline: 500 };
    let outcome = |distance: u16, order: Record| {
        spread()
            .distance(distance)
            .last_outcome(&after_market(&[order.wish()]))
    };
    assert_eq!(outcome(10, buy(1, 1, 120)), begun);
    assert_eq!(outcome(10, buy(1, 1, 119)), placed(1));
    assert_eq!(outcome(0, buy(1, 1, 130)), begun);
    assert_eq!(outcome(0, buy(1, 1, 129)), placed(1));
    assert_eq!(outcome(5, sell(1, 1, 100)), begun);
    assert_eq!(outcome(5, sell(1, 1, 101)), placed(1));
    assert_eq!(outcome(0, sell(1, 1, 95)), begun);
}

#[test]
fn the_best_contra_price_is_the_better_of_legs_and_live_orders() {
    let begun = Outcome::Begun { deadline: 500 };
    let outcome = |order: Record| {
        let messages = after_market(&[sell(9, 1, 120), buy(8, 1, 100), order.wish()]);
        spread().distance(0).last_outcome(&messages)
    };
    assert_eq!(outcome(buy(1, 1, 120)), begun);
    assert_eq!(outcome(buy(1, 1, 119)), placed(1));
    assert_eq!(outcome(sell(1, 1, 100)), begun);
    assert_eq!(outcome(sell(1, 1, 101)), placed(1));
}

#[test]
fn units_under_the_minimum_are_not_eligible() {
    let session = spread().set(|s| s.minimum = 5);
    let begun = Outcome::Begun { deadline: 500 };
    assert_eq!(
        session.last_outcome(&after_market(&[buy(1, 5, 120).wish()])),
        begun
    );
    assert_eq!(
        session.last_outcome(&after_market(&[buy(1, 4, 120).wish()])),
        placed(4)
    );
    // During an auction such an order is held.
    let messages = after_market(&[buy(1, 5, 120).wish(), buy(2, 4, 120).wish()]);
    assert_eq!(session.last_outcome(&messages), placed(4));
}

#[test]
fn any_better_order_of_the_side_ends_the_auction() {
    let session = spread().set(|s| s.minimum = 5);
    let outcome =
        |order: Record| session.last_outcome(&after_market(&[buy(1, 5, 120).wish(), order]));
    assert_eq!(outcome(buy(2, 1, 121)), ended(Cause::Order, 0));
    assert_eq!(outcome(buy(2, 9, 121).wish()), ended(Cause::Order, 0));
    assert_eq!(outcome(buy(2, 1, 120)), placed(1));
    assert_eq!(outcome(sell(2, 1, 119)), placed(1));
}

#[test]
fn the_ender_begins_no_auction_and_its_wish_is_gone() {
    let outcomes = spread().outcomes(&after_market(&[
        buy(1, 5, 120).wish(),
        sell(2, 5, 140).wish(),
        buy(3, 5, 121).wish(),
        clock(1),
        // No auction is pending: the next one begins.
        buy(4, 5, 122).wish().at(1),
    ]));
    assert_eq!(outcomes[3..6], [placed(5), ended(Cause::Order, 0), noted()]);
    assert_eq!(outcomes[6], Outcome::Begun { deadline: 501 });
}

#[test]
fn a_local_quote_ends_where_the_own_derived_price_is_strictly_better() {
    let outcome =
        |quote: Record| spread().last_outcome(&after_market(&[buy(1, 5, 100).wish(), quote]));
    // The derived bid comes to 100, then 101.
    assert_eq!(outcome(local(0, 225, 10, 240, 10)), noted());
    assert_eq!(outcome(local(0, 226, 10, 240, 10)), ended(Cause::Legs, 0));
    assert_eq!(outcome(local(1, 110, 10, 119, 10)), ended(Cause::Legs, 0));
    // No derived bid at all.
    assert_eq!(outcome(local(0, 0, 0, 240, 10)), noted());
}

#[test]
fn any_local_quote_ends_an_auction_whose_initiator_stands_behind_its_side() {
    // A buyer at 90 with the derived bid at 95: begun, and ended by the same quote again.
    let begin = after_market(&[buy(1, 5, 90).wish()]);
    assert_eq!(
        spread().last_outcome(&begin),
        Outcome::Begun { deadline: 500 }
    );
    let same_quote = all(&[&begin, &[market()[1]]]);
    assert_eq!(spread().last_outcome(&same_quote), ended(Cause::Legs, 0));
}

#[test]
fn national_quotes_never_end_an_auction() {
    let messages = after_market(&[
        buy(1, 5, 90).wish(),
        national(0, 500, 510),
        national(1, 1, 2),
    ]);
    assert_eq!(spread().outcomes(&messages)[3..], [noted(), noted()]);
}

#[test]
fn a_modified_response_takes_the_new_number_and_loses_ties() {
    let messages = after_market(&[
        buy(1, 4, 100).wish(),
        sell(2, 9, 150).response(),
        sell(3, 3, 100).response(),
        sell(4, 3, 100).response(),
        // Units may grow and shrink, the account stays.
        Record {
            account: 2,
            ..sell(2, 3, 100).modify()
        },
        clock(500),
    ]);
    spread().prints(
        &messages,
        &[
            "8 1 C 3 100 2",
            "8 1 C 4 100 1",
            "8 1 C 2 100 1",
            "average 1 100 0",
            "open 0 answers 0",
        ],
    );
}

#[test]
fn a_response_may_change_sides_and_same_side_ones_never_trade() {
    let messages = |last: Record| {
        after_market(&[
            buy(1, 4, 100).wish(),
            sell(2, 3, 100).response(),
            buy(2, 3, 100).modify(),
            last,
            clock(500),
        ])
    };
    spread().prints(&messages(buy(2, 4, 100).modify()), &["open 1 answers 0"]);
    spread().prints(
        &messages(sell(2, 3, 99).modify()),
        &["7 1 C 2 99 3", "average 1 99 0", "open 1 answers 0"],
    );
}

#[test]
fn joined_tells_the_units_of_the_whole_queue() {
    let messages = after_market(&[buy(1, 10, 100).wish(), buy(2, 5, 99).wish()]);
    assert_eq!(
        spread().last_outcome(&messages),
        Outcome::Joined { queue_units: 15 }
    );
}

#[test]
fn queue_orders_are_cancelled_by_their_participant_alone() {
    let outcomes = spread().outcomes(&after_market(&[
        buy(1, 10, 100).wish(),
        buy(2, 5, 99).wish(),
        cancel(2).of(2),
        cancel(1),
        cancel(2),
    ]));
    assert_eq!(
        outcomes[4..],
        [refused(50), noted(), ended(Cause::Cancel, 0)]
    );
}

#[test]
fn a_response_with_an_open_id_meets_42() {
    let outcomes = spread().outcomes(&after_market(&[
        buy(9, 1, 80),
        buy(1, 10, 100).wish(),
        sell(9, 1, 100).response(),
        sell(1, 1, 100).response(),
        sell(2, 1, 100).response(),
        sell(2, 1, 100).response(),
        sell(2, 1, 100),
    ]));
    assert_eq!(outcomes[4..6], [refused(42), refused(42)]);
    assert_eq!(outcomes[6..], [noted(), refused(42), refused(31)]);
}

#[test]
fn orders_and_responses_have_32_places_each() {
    let mut messages = after_market(&[buy(1, 10, 100).wish()]);
    let orders = (2..=33).map(|id| sell(id, 1, 200));
    let responses = (101..=133).map(|id| buy(id, 1, 200).response());
    messages.extend(orders);
    messages.extend(responses);
    messages.push(sell(101, 5, 300).modify());
    messages.push(cancel(2));
    messages.push(sell(33, 1, 200));
    let outcomes = spread().outcomes(&messages);
    // The initiator and 31 more; then 32 responses, same-side ones too.
    assert_eq!(outcomes[3..34], [placed(1); 31]);
    assert_eq!(outcomes[34], refused(32));
    assert_eq!(outcomes[35..67], [noted(); 32]);
    assert_eq!(outcomes[67], refused(43));
    assert_eq!(outcomes[68..], [noted(), noted(), placed(1)]);
}

#[test]
fn a_modification_does_not_use_the_account() {
    for account in [0, 1, 77] {
        let change = Record {
            account,
            ..sell(2, 1, 101).modify()
        };
        let messages = after_market(&[buy(1, 1, 100).wish(), sell(2, 1, 100).response(), change]);
        assert_eq!(spread().last_outcome(&messages), noted());
    }
}

#[test]
fn responses_and_modifications_meet_40_then_41_then_42() {
    let garbage = Record {
        side: 0,
        ..sell(0, 0, i32::MAX)
    };
    assert_eq!(spread().last_outcome(&[garbage.response()]), refused(40));
    assert_eq!(spread().last_outcome(&[garbage.modify()]), refused(40));
    let outcomes = spread().outcomes(&after_market(&[
        buy(1, 1, 100).wish(),
        sell(2, 1, 100).response(),
        Record {
            account: 3,
            ..sell(2, 1, 100).response()
        },
        sell(2, 0, 100).modify(),
        sell(2, 1, 40_000_001).modify(),
        Record {
            side: b'X',
            ..sell(2, 1, 100).modify()
        },
        sell(2, 1, 100).modify().of(2),
        buy(1, 1, 100).modify(),
        sell(7, 1, 100).modify(),
        sell(2, 999_999, -40_000_000).modify(),
    ]));
    assert_eq!(outcomes[4..8], [refused(41); 4]);
    assert_eq!(outcomes[8..11], [refused(42); 3]);
    assert_eq!(outcomes[11], noted());
}

#[test]
fn orders_meet_30_over_each_field() {
    let good = buy(1, 1, 0);
    for wrong in [
        Record { side: b'b', ..good },
        Record { account: 0, ..good },
        Record { account: 3, ..good },
        Record {
            price: 40_000_001,
            ..good
        },
        Record {
            price: -40_000_001,
            ..good
        },
        Record { id: 0, ..good },
        Record {
            participant: 0,
            ..good
        },
        Record { units: 0, ..good },
        Record {
            units: 1_000_000,
            ..good
        },
    ] {
        assert_eq!(spread().last_outcome(&[wrong]), refused(30));
    }
    assert_eq!(spread().last_outcome(&[good]), placed(1));
    assert_eq!(
        spread().last_outcome(&[sell(1, 999_999, 40_000_000)]),
        placed(999_999)
    );
}

#[test]
fn held_and_live_orders_are_cancelled_during_an_auction() {
    spread().prints(
        &after_market(&[
            sell(9, 4, 120),
            buy(1, 4, 110).wish(),
            sell(2, 4, 110),
            cancel(9),
            cancel(2),
            clock(500),
        ]),
        &["open 1 answers 0"],
    );
}

#[test]
fn a_response_is_never_withdrawn() {
    let messages = after_market(&[
        buy(1, 4, 110).wish(),
        sell(2, 4, 110).response(),
        cancel(2),
        reduce(2, 3),
    ]);
    assert_eq!(
        spread().outcomes(&messages)[4..],
        [refused(50), refused(50)]
    );
}

#[test]
fn ids_are_free_once_filled_cancelled_or_expired() {
    let outcomes = spread().outcomes(&after_market(&[
        buy(1, 1, 130),
        buy(1, 1, 90),
        buy(1, 1, 90),
        cancel(1),
        buy(1, 1, 100).wish(),
        sell(2, 1, 120).response(),
        clock(500),
        sell(2, 1, 120).at(500),
    ]));
    let filled = Outcome::Placed { units: 0, fills: 1 };
    assert_eq!(outcomes[2..6], [filled, placed(1), refused(31), noted()]);
    assert_eq!(outcomes[8..], [ended(Cause::Time, 0), placed(1)]);
}

// Execution.

#[test]
fn queue_orders_take_whole_turns_by_price_then_arrival() {
    let messages = after_market(&[
        buy(1, 5, 100).wish(),
        buy(2, 5, 98).wish(),
        buy(3, 5, 100).wish(),
        sell(4, 7, 98).response(),
        sell(5, 5, 100).response(),
        clock(500),
    ]);
    spread().prints(
        &messages,
        &[
            "8 1 C 4 98 5",
            "8 3 C 4 98 2",
            "8 3 C 5 100 3",
            "average 1 98 0",
            "average 3 99 1",
            "open 1 answers 0",
        ],
    );
}

#[test]
fn orders_that_came_during_the_auction_are_open_to_the_queue() {
    let messages = after_market(&[
        sell(9, 2, 101),
        buy(1, 9, 101).wish(),
        sell(2, 2, 101).non_customer(),
        sell(3, 2, 101).response(),
        clock(500),
    ]);
    spread().prints(
        &messages,
        &[
            "7 1 C 9 101 2",
            "7 1 C 3 101 2",
            "7 1 N 2 101 2",
            "average 1 101 0",
            "open 1 answers 0",
        ],
    );
}

/// A buyer at 140 begins with the derived ask at 130, and the legs change.
fn rank_of_legs(quotes: &[Record]) -> String {
    let begin = after_market(&[buy(1, 3, 140).wish()]);
    let messages = all(&[&begin, quotes, &[clock(500)]]);
    let printed = tapeprint(&spread().tape(&messages));
    let fill = printed.lines().nth(1).expect("a fill");
    fill.split(' ').skip(2).collect::<Vec<&str>>().join(" ")
}

#[test]
fn legs_are_late_if_better_than_at_the_start() {
    assert_eq!(rank_of_legs(&[]), "L 0 130 3");
    assert_eq!(rank_of_legs(&[local(0, 220, 10, 239, 10)]), "T 0 129 3");
    // Worse: all L.
    assert_eq!(rank_of_legs(&[local(0, 220, 10, 245, 10)]), "L 0 135 3");
    // More units at the same price: those of the start are L still.
    assert_eq!(rank_of_legs(&[local(0, 220, 99, 240, 99)]), "L 0 130 3");
    // Away and back: T (M-103).
    let away_and_back = [local(0, 0, 0, 0, 0), local(0, 220, 10, 240, 10)];
    assert_eq!(rank_of_legs(&away_and_back), "T 0 130 3");
}

#[test]
fn legs_are_late_if_none_existed_at_the_start() {
    let messages = [
        market()[0],
        sell(9, 1, 140),
        buy(1, 3, 139).wish(),
        market()[1],
        clock(500),
    ];
    spread().prints(
        &messages,
        &["5 1 T 0 130 3", "average 1 130 0", "open 1 answers 0"],
    );
}

#[test]
fn the_start_is_the_sellers_derived_bid_for_sellers() {
    let with = |quote: Record| after_market(&[sell(1, 3, 90).wish(), quote, clock(500)]);
    // The derived ask moves: no matter. The derived bid moves up: late.
    spread().prints(
        &with(local(0, 220, 10, 235, 10)),
        &["5 1 L 0 95 3", "average 1 95 0", "open 0 answers 0"],
    );
    spread().prints(
        &with(local(0, 221, 10, 240, 10)),
        &["5 1 T 0 96 3", "average 1 96 0", "open 0 answers 0"],
    );
}

#[test]
fn late_legs_at_a_better_price_than_all_others_go_first() {
    let messages = after_market(&[
        buy(1, 12, 125).wish(),
        sell(2, 4, 125).response(),
        local(0, 220, 10, 230, 10),
        clock(500),
    ]);
    spread().prints(
        &messages,
        &[
            "6 1 T 0 120 10",
            "6 1 C 2 125 2",
            "average 1 120 10",
            "open 0 answers 0",
        ],
    );
}

#[test]
fn sizes_in_the_sharing_are_those_left_by_earlier_queue_orders() {
    let messages = after_market(&[
        buy(1, 6, 100).wish(),
        buy(2, 6, 100).wish(),
        sell(3, 8, 100).response(),
        sell(4, 4, 100).response(),
        sell(5, 9, 101).response(),
        clock(500),
    ]);
    // 6 over 8, 4: 4, 2. Then 6 over 4, 2: 4, 2.
    spread().prints(
        &messages,
        &[
            "8 1 C 3 100 4",
            "8 1 C 4 100 2",
            "8 2 C 3 100 4",
            "8 2 C 4 100 2",
            "average 1 100 0",
            "average 2 100 0",
            "open 0 answers 0",
        ],
    );
}

#[test]
fn a_share_of_0_has_no_record() {
    let messages = after_market(&[
        buy(1, 2, 100).wish(),
        sell(2, 1, 100).response(),
        sell(3, 50, 100).response(),
        sell(4, 50, 100).response(),
        clock(500),
    ]);
    spread().prints(
        &messages,
        &[
            "7 1 C 3 100 1",
            "7 1 C 4 100 1",
            "average 1 100 0",
            "open 0 answers 0",
        ],
    );
}

#[test]
fn a_participant_trades_with_itself() {
    spread().prints(
        &[sell(1, 1, 5), buy(2, 1, 5)],
        &["2 2 R 1 5 1", "average 2 5 0", "open 0 answers 0"],
    );
}

#[test]
fn outside_an_auction_the_account_does_not_matter() {
    spread().prints(
        &[
            sell(1, 2, 5).non_customer(),
            sell(2, 2, 5),
            buy(3, 3, 5).non_customer(),
        ],
        &[
            "3 3 R 1 5 2",
            "3 3 R 2 5 1",
            "average 3 5 0",
            "open 1 answers 0",
        ],
    );
}

#[test]
fn the_rank_is_by_the_contras_account_and_not_the_orders() {
    let messages =
        |order: Record| after_market(&[order.wish(), sell(2, 1, 100).response(), clock(500)]);
    for order in [buy(1, 1, 100), buy(1, 1, 100).non_customer()] {
        spread().prints(
            &messages(order),
            &["5 1 C 2 100 1", "average 1 100 0", "open 0 answers 0"],
        );
    }
}

#[test]
fn a_side_with_fewer_contracts_than_its_ratio_has_no_derived_price_but_stays() {
    let session = spread().legs(&[
        leg("XYZ   260116C00020000", 'B', 2, 5),
        leg("XYZ   260116C00025000", 'S', 3, 5),
    ]);
    // 5 of ratio 2 and 8 of ratio 3: two units, at 2 × 240 - 3 × 110.
    let messages = [
        local(0, 220, 9, 240, 5),
        local(1, 110, 8, 125, 9),
        buy(1, 9, 150),
        buy(2, 1, 200),
    ];
    session.prints(
        &messages,
        &["3 1 L 0 150 2", "average 1 150 0", "open 2 answers 0"],
    );
    let mut engine = session.engine();
    let mut fills = vec![Fill::BLANK; 2_000];
    for record in messages {
        engine.apply(&record.message().unwrap(), &mut fills);
    }
    let [first, second] = [engine.market().local[0], engine.market().local[1]];
    assert_eq!((first.ask.price, first.ask.size), (240, 1));
    assert_eq!((second.bid.price, second.bid.size), (110, 2));
}

#[test]
fn a_side_at_size_0_becomes_absent() {
    let mut engine = spread().engine();
    let mut fills = vec![Fill::BLANK; 2_000];
    for record in after_market(&[buy(1, 10, 130)]) {
        engine.apply(&record.message().unwrap(), &mut fills);
    }
    assert!(engine.market().local[0].ask.is_absent());
    assert!(engine.market().local[1].bid.is_absent());
    assert!(!engine.market().local[0].bid.is_absent());
}

#[test]
fn fills_of_the_ender_and_of_held_orders_follow_the_queues_in_one_message() {
    let messages = after_market(&[
        buy(1, 5, 100).wish(),
        sell(2, 4, 100).response(),
        sell(3, 4, 110),
        sell(4, 9, 95),
        buy(5, 6, 110),
    ]);
    // Order 4 sells to the queue at 95, then to the legs at 95; order 5 meets order 3.
    spread().prints(
        &messages,
        &[
            "7 1 C 4 95 5",
            "7 4 L 0 95 4",
            "7 5 R 3 110 4",
            "average 1 95 0",
            "average 4 95 0",
            "average 5 110 0",
            "open 1 answers 0",
        ],
    );
}

#[test]
fn a_held_orders_wish_is_not_looked_at_again() {
    let outcomes = spread().outcomes(&after_market(&[
        buy(1, 5, 100).wish(),
        sell(2, 5, 131).wish(),
        clock(500),
        clock(501),
    ]));
    assert_eq!(outcomes[3..], [placed(5), ended(Cause::Time, 0), noted()]);
}

/// The header is read as it is written.
#[test]
fn the_header_has_its_settings_where_the_paper_says() {
    let settings = Settings {
        interval: 1,
        distance: 2,
        most_legs: 3,
        amounts: [4, 5, 6],
        minimum: 7,
        first_number: 8,
        opening_time: 9,
    };
    let header = Header {
        leg_count: 10,
        leg_offset: 11,
        message_count: 12,
        message_offset: 13,
        settings,
    };
    let mut bytes = Vec::new();
    header.write(&mut bytes);
    let mut expected = Vec::new();
    for number in [10_u16, 11, 12, 13, 1, 2, 3, 4, 5, 6] {
        expected.extend(number.to_le_bytes());
    }
    expected.extend(7_u32.to_le_bytes());
    expected.extend(8_u64.to_le_bytes());
    expected.extend(9_u64.to_le_bytes());
    assert_eq!(bytes, expected);
    assert_eq!(bytes.len(), Header::BYTES);
}
