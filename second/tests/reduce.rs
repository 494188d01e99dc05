//! M-105 sentence by sentence: cancel and reduce during an auction.

mod common;

use common::*;
use second::book::{Entry, Standing};
use second::engine::{Auction, Cause, Engine, Outcome};
use second::execution::{Fill, FillList};
use second::explain::explain;
use second::strategy::Settings;
use second::tape::Record;
use second::text::{dump, make};

// The market shows 10 units: the derived ask is 130, the derived bid 95.

/// The engine after messages, none of which is refused.
fn after(session: &Session, messages: &[Record]) -> Engine {
    let mut engine = session.engine();
    let mut fills = vec![Fill::BLANK; FillList::LEAST_PLACES];
    for record in messages {
        let outcome = engine.apply(&record.message().expect("a kind"), &mut fills);
        assert!(!matches!(outcome, Outcome::Refused { .. }), "{record:?}");
    }
    engine
}

/// The pending auction after messages.
fn auction_after(messages: &[Record]) -> Auction {
    let engine = after(&spread(), messages);
    *engine.auction().expect("one is pending")
}

/// An open order after messages.
fn order_after(messages: &[Record], id: u32) -> Entry {
    let engine = after(&spread(), messages);
    let found = engine.book().find_order(id, 1).expect("it is open");
    engine.book().entries()[found]
}

/// The outcomes of the last so many messages.
fn last_outcomes(messages: &[Record], count: usize) -> Vec<Outcome> {
    let mut outcomes = spread().outcomes(messages);
    outcomes.split_off(messages.len() - count)
}

// "Desks may now pull or shrink a queued order before the auction ends."

#[test]
fn queue_orders_are_pulled_and_shrunk() {
    let messages = after_market(&[
        buy(1, 4, 135).wish(),
        buy(2, 6, 134).wish(),
        buy(3, 5, 133).wish(),
        reduce(2, 2).at(499),
        cancel(3).at(499),
        clock(500),
    ]);
    let outcomes = last_outcomes(&messages, 4);
    assert_eq!(outcomes[0], Outcome::Joined { queue_units: 15 });
    assert_eq!(outcomes[1..], [noted(), noted(), ended(Cause::Time, 2)]);
    spread().prints(
        &messages,
        &[
            "8 1 L 0 130 4",
            "8 2 L 0 130 2",
            "average 1 130 0",
            "average 2 130 0",
            "open 0 answers 0",
        ],
    );
}

#[test]
fn joined_tells_what_is_left_in_the_queue() {
    let begin = after_market(&[buy(1, 9, 135).wish(), buy(2, 6, 134).wish()]);
    let join = [buy(3, 5, 133).wish()];
    let joined = |changes: &[Record]| spread().last_outcome(&all(&[&begin, changes, &join]));
    let units = |queue_units: u32| Outcome::Joined { queue_units };
    assert_eq!(joined(&[]), units(20));
    assert_eq!(joined(&[reduce(1, 7)]), units(18));
    assert_eq!(joined(&[cancel(2)]), units(14));
    assert_eq!(joined(&[reduce(1, 7), reduce(2, 1)]), units(13));
}

/// An id and its place are free at once.
#[test]
fn a_pulled_order_frees_its_id_and_its_place() {
    let queue = [buy(1, 1, 135).wish(), buy(2, 1, 134).wish()];
    let others: Vec<Record> = (3..=32).map(|id| sell(id, 1, 200)).collect();
    let full = all(&[&market(), &queue, &others]);
    let more = [
        buy(40, 1, 80),
        reduce(32, 1),
        cancel(1),
        buy(1, 1, 134).wish(),
        buy(40, 1, 80),
    ];
    let outcomes = last_outcomes(&all(&[&full, &more]), 5);
    // A reduce frees no place.
    assert_eq!(outcomes[..3], [refused(32), refused(71), noted()]);
    assert_eq!(outcomes[3], Outcome::Joined { queue_units: 2 });
    assert_eq!(outcomes[4], refused(32));
}

// "A reduced order keeps its arrival number."

#[test]
fn a_reduce_changes_the_open_units_and_nothing_else() {
    let messages = after_market(&[
        sell(8, 9, 140),
        buy(1, 9, 135).wish(),
        buy(2, 9, 134).wish(),
        sell(3, 9, 133),
    ]);
    for id in [8, 1, 2, 3] {
        let before = order_after(&messages, id);
        let reduced = order_after(&all(&[&messages, &[reduce(id, 4)]]), id);
        assert_eq!(reduced, Entry { units: 4, ..before });
        assert_eq!(before.units, 9);
    }
}

#[test]
fn a_reduced_queue_order_stays_in_front_of_a_later_one() {
    let messages = after_market(&[
        buy(1, 8, 135).wish(),
        buy(2, 8, 135).wish(),
        reduce(1, 7),
        clock(500),
    ]);
    spread().prints(
        &messages,
        &[
            "6 1 L 0 130 7",
            "6 2 L 0 130 3",
            "average 1 130 0",
            "average 2 130 0",
            "open 1 answers 0",
        ],
    );
}

/// "Ties to earlier arrival": 4 over 3, 3, 3 are 2, 1, 1.
#[test]
fn a_reduced_contra_keeps_its_ties_and_its_place_in_the_list() {
    let messages = after_market(&[
        buy(1, 4, 100).wish(),
        sell(2, 9, 100),
        sell(3, 3, 100).response(),
        sell(4, 3, 100),
        reduce(2, 3),
        clock(500),
    ]);
    spread().prints(
        &messages,
        &[
            "8 1 C 2 100 2",
            "8 1 C 3 100 1",
            "8 1 C 4 100 1",
            "average 1 100 0",
            "open 2 answers 0",
        ],
    );
}

#[test]
fn a_reduced_live_order_keeps_its_time_priority() {
    let messages = [
        sell(1, 5, 120),
        sell(2, 5, 120),
        reduce(1, 3),
        buy(3, 4, 120),
    ];
    spread().prints(
        &messages,
        &[
            "4 3 R 1 120 3",
            "4 3 R 2 120 1",
            "average 3 120 0",
            "open 1 answers 0",
        ],
    );
}

#[test]
fn a_reduced_held_order_goes_live_in_its_turn() {
    let messages = after_market(&[
        buy(1, 1, 131).wish(),
        buy(2, 8, 130),
        buy(3, 8, 130),
        reduce(2, 7),
        clock(500),
    ]);
    spread().prints(
        &messages,
        &[
            "7 1 L 0 130 1",
            "7 2 L 0 130 7",
            "7 3 L 0 130 2",
            "average 1 130 0",
            "average 2 130 0",
            "average 3 130 0",
            "open 1 answers 0",
        ],
    );
}

// "If the initiator is cancelled, the next queue order by price, then arrival, becomes the
// initiator with the same deadline and starting leg price."

/// The initiators, one after another, each cancelled after the one before.
fn initiators(messages: &[Record]) -> Vec<u32> {
    let mut messages = after_market(messages);
    let mut initiators = Vec::new();
    while let Some(auction) = after(&spread(), &messages).auction() {
        initiators.push(auction.initiator);
        messages.push(cancel(auction.initiator));
    }
    initiators
}

#[test]
fn the_next_initiator_is_the_best_by_price_then_arrival() {
    let buyers = [
        buy(1, 1, 135).wish(),
        buy(2, 1, 130).wish(),
        buy(3, 1, 133).wish(),
        buy(4, 9, 133).wish(),
        buy(5, 1, 131).wish(),
    ];
    assert_eq!(initiators(&buyers), [1, 3, 4, 5, 2]);
    // A smaller id, and more units, count for nothing.
    let sellers = [
        sell(9, 1, 90).wish(),
        sell(2, 1, 95).wish(),
        sell(7, 1, 92).wish(),
        sell(4, 9, 92).wish(),
        sell(3, 1, 90).wish(),
    ];
    assert_eq!(initiators(&sellers), [9, 3, 7, 4, 2]);
    // An order outside the queue is none, however good.
    let held = [buy(6, 1, 135), buy(7, 1, 134)];
    assert_eq!(initiators(&all(&[&buyers, &held])), [1, 3, 4, 5, 2]);
}

#[test]
fn the_initiator_stays_where_another_order_is_cancelled_or_reduced() {
    let begin = after_market(&[
        buy(8, 5, 90),
        buy(1, 5, 135).wish(),
        buy(2, 5, 135).wish(),
        buy(3, 5, 131).wish(),
        buy(4, 5, 134),
    ]);
    let before = auction_after(&begin);
    assert_eq!((before.initiator, before.limit), (1, 135));
    let changes = [2, 3, 4, 8].map(cancel);
    let reduces = [1, 2, 3, 4, 8].map(|id| reduce(id, 1));
    for change in changes.into_iter().chain(reduces) {
        assert_eq!(auction_after(&all(&[&begin, &[change]])), before);
    }
}

#[test]
fn the_deadline_and_what_is_kept_of_the_legs_stay() {
    let begin = after_market(&[
        buy(1, 5, 135).wish().at(10),
        buy(2, 5, 134).wish().at(20),
        local(0, 220, 10, 240, 4).at(30),
    ]);
    let before = auction_after(&begin);
    let next = Auction {
        initiator: 2,
        limit: 134,
        ..before
    };
    let cancelled = all(&[&begin, &[cancel(1).at(400)]]);
    assert_eq!(auction_after(&cancelled), next);
    assert_eq!(next.deadline, 510);
    let messages = [
        clock(509),
        sell(9, 1, 200).at(509),
        sell(3, 1, 200).at(510),
        clock(510),
    ];
    assert_eq!(
        last_outcomes(&all(&[&cancelled, &messages]), 4),
        [noted(), placed(1), refused(13), ended(Cause::Time, 1)]
    );
}

/// The records of the next initiator, a buyer of 8 at 134, after the first one, at 135, is gone.
fn next_buys(before: &[Record], after: &[Record]) -> String {
    let others = [
        sell(3, 1, 128).response(),
        sell(4, 1, 130).response(),
        clock(500),
    ];
    let queue = [buy(1, 8, 135).wish(), buy(2, 8, 134).wish()];
    let messages = all(&[&market(), &queue, before, &[cancel(1)], after, &others]);
    last_records(&spread(), &messages)
}

/// Legs at the starting price are L, better ones T, whether they came before the cancel or after.
#[test]
fn the_starting_leg_price_is_that_of_the_first_initiator() {
    let all_l = "2 C 128 1, 2 L 130 7";
    assert_eq!(next_buys(&[], &[]), all_l);
    let better = [local(0, 220, 10, 238, 10)];
    let all_t = "2 C 128 1, 2 T 128 7";
    assert_eq!(next_buys(&better, &[]), all_t);
    assert_eq!(next_buys(&[], &better), all_t);
    // Worse legs are L, also where they were worse when the first one was cancelled.
    let worse = [local(0, 220, 10, 242, 10)];
    let l_at_132 = "2 C 128 1, 2 C 130 1, 2 L 132 6";
    assert_eq!(next_buys(&worse, &[]), l_at_132);
    assert_eq!(next_buys(&[], &worse), l_at_132);
}

/// Reading a: what the starting price showed before the cancel counts as well (M-103).
#[test]
fn the_units_shown_since_the_start_stay() {
    let (fell, back) = (local(0, 220, 10, 240, 4), market()[0]);
    let four = "2 C 128 1, 2 L 130 4, 2 C 130 1, 2 T 130 2";
    assert_eq!(next_buys(&[fell, back], &[]), four);
    assert_eq!(next_buys(&[fell], &[back]), four);
    assert_eq!(next_buys(&[], &[fell, back]), four);
    let away = local(0, 220, 10, 241, 10);
    let none = "2 C 128 1, 2 C 130 1, 2 T 130 6";
    assert_eq!(next_buys(&[away, back], &[]), none);
    assert_eq!(next_buys(&[away], &[back]), none);
    assert_eq!(next_buys(&[], &[away, back]), none);
}

/// None at the start is none for the next initiator, though the legs are there by now.
#[test]
fn no_starting_price_stays_none() {
    let messages = [
        market()[0],
        sell(9, 1, 140),
        buy(1, 3, 145).wish(),
        buy(2, 3, 144).wish(),
        market()[1],
        cancel(1),
        clock(500),
    ];
    spread().prints(
        &messages,
        &["7 2 T 0 130 3", "average 2 130 0", "open 1 answers 0"],
    );
}

/// "Same side, better than the initiator's limit": the next one's, from then on.
#[test]
fn the_next_initiators_limit_decides_what_orders_do() {
    let begin = after_market(&[buy(1, 5, 130).wish(), buy(2, 5, 120).wish()]);
    let outcome = |order: Record, cancelled: bool| {
        let pulled: &[Record] = if cancelled { &[cancel(1)] } else { &[] };
        spread().last_outcome(&all(&[&begin, pulled, &[order]]))
    };
    for order in [buy(3, 5, 121), buy(3, 5, 125), buy(3, 5, 130)] {
        assert_eq!(outcome(order, false), placed(5));
    }
    for price in [121, 125, 129] {
        for order in [buy(3, 5, price), buy(3, 5, price).wish()] {
            assert_eq!(outcome(order, true), ended(Cause::Order, 0));
        }
    }
    // At 130 or better the ender meets the legs itself.
    assert_eq!(outcome(buy(3, 5, 130), true), ended(Cause::Order, 1));
    // Equal or worse joins, or is held.
    let joined = Outcome::Joined { queue_units: 10 };
    assert_eq!(outcome(buy(3, 5, 120).wish(), true), joined);
    assert_eq!(outcome(buy(3, 5, 119).wish(), true), joined);
    assert_eq!(outcome(buy(3, 5, 120), true), placed(5));
    assert_eq!(outcome(sell(3, 5, 131), true), placed(5));
}

/// Of a seller: 100 is worse than 95, so 97 ends.
#[test]
fn the_next_selling_initiators_limit_decides_too() {
    let begin = after_market(&[sell(1, 5, 95).wish(), sell(2, 5, 100).wish(), cancel(1)]);
    let outcome = |order: Record| spread().last_outcome(&all(&[&begin, &[order]]));
    assert_eq!(outcome(sell(3, 5, 97)), ended(Cause::Order, 0));
    assert_eq!(outcome(sell(3, 5, 100)), placed(5));
    // The derived ask comes to 97: strictly better than 100, not than 95.
    assert_eq!(outcome(local(0, 150, 10, 207, 10)), ended(Cause::Legs, 0));
    assert_eq!(outcome(local(0, 150, 10, 210, 10)), noted());
}

// Reading b: only an arriving order or a local quote ends, and not the change of the initiator.

#[test]
fn an_own_side_that_is_better_ends_nothing_until_a_local_quote() {
    // The derived bid is 124: not better than 130, but better than 120.
    let quote = local(0, 249, 10, 260, 10);
    let begin = after_market(&[buy(1, 5, 130).wish(), buy(2, 5, 120).wish(), quote]);
    assert_eq!(spread().last_outcome(&begin), noted());
    let messages = [
        cancel(1),
        national(0, 300, 301),
        sell(3, 1, 150).response(),
        sell(3, 2, 151).modify(),
        sell(4, 2, 150),
        reduce(4, 1),
        cancel(4),
        clock(499),
        quote.at(499),
    ];
    let outcomes = last_outcomes(&all(&[&begin, &messages]), 9);
    assert_eq!(outcomes[0], noted());
    assert_eq!(outcomes[1..4], [noted(); 3]);
    assert_eq!(outcomes[4], placed(2));
    assert_eq!(outcomes[5..8], [noted(); 3]);
    assert_eq!(outcomes[8], ended(Cause::Legs, 0));
    // A quote of the other leg does it as well; one that takes the bid away does not.
    let with = |quote: Record| spread().last_outcome(&all(&[&begin, &[cancel(1), quote]]));
    assert_eq!(with(market()[1]), ended(Cause::Legs, 0));
    assert_eq!(with(local(0, 0, 0, 260, 10)), noted());
}

#[test]
fn a_held_order_that_is_better_ends_nothing() {
    let begin = after_market(&[
        buy(1, 5, 130).wish(),
        buy(2, 5, 120).wish(),
        buy(3, 5, 125),
        cancel(1),
    ]);
    assert_eq!(spread().last_outcome(&begin), noted());
    let auction = auction_after(&begin);
    assert_eq!((auction.initiator, auction.limit), (2, 120));
    let outcome = |order: Record| spread().last_outcome(&all(&[&begin, &[order]]));
    // It still stands in the way of whoever wants to join, and an arriving order ends.
    assert_eq!(outcome(buy(4, 5, 120).wish()), placed(5));
    assert_eq!(outcome(buy(4, 5, 121)), ended(Cause::Order, 0));
    assert_eq!(outcome(market()[0]), noted());
    // The held one is reduced and cancelled as any other.
    assert_eq!(outcome(reduce(3, 1)), noted());
    assert_eq!(outcome(cancel(3)), noted());
}

// "If none is left, the auction ends, responses expire and held orders go live as usual; the
// outcome is Ended with a fourth cause, cancel." Reading c.

#[test]
fn a_sole_initiator_cancelled_ends_its_auction() {
    let begin = after_market(&[buy(1, 5, 140).wish(), sell(2, 5, 120).response()]);
    let messages = all(&[&begin, &[cancel(1), clock(500), sell(2, 1, 120).at(500)]]);
    // The response would have sold at 120, and the legs at 130: nobody buys.
    assert_eq!(
        last_outcomes(&messages, 3),
        [ended(Cause::Cancel, 0), noted(), placed(1)]
    );
    spread().prints(&messages, &["open 1 answers 0"]);
    // Another auction may begin at once, and has its own deadline.
    let again = all(&[&begin, &[cancel(1).at(7), buy(1, 5, 140).wish().at(8)]]);
    assert_eq!(
        spread().last_outcome(&again),
        Outcome::Begun { deadline: 508 }
    );
    let late = all(&[&begin, &[cancel(1), sell(3, 1, 120).response()]]);
    assert_eq!(spread().last_outcome(&late), refused(40));
}

#[test]
fn the_last_of_the_queue_ends_whichever_it_is() {
    let begin = after_market(&[
        buy(1, 5, 135).wish(),
        buy(2, 5, 134).wish(),
        buy(3, 5, 133).wish(),
    ]);
    for ids in [
        [1, 2, 3],
        [1, 3, 2],
        [2, 1, 3],
        [2, 3, 1],
        [3, 1, 2],
        [3, 2, 1],
    ] {
        let messages = all(&[&begin, &ids.map(cancel)]);
        assert_eq!(
            last_outcomes(&messages, 3),
            [noted(), noted(), ended(Cause::Cancel, 0)]
        );
    }
}

/// Held orders go live in arrival order, each executing first, with legs and with live orders.
#[test]
fn held_orders_go_live_after_the_last_cancel() {
    let messages = after_market(&[
        buy(1, 5, 145).wish(),
        sell(2, 4, 130).response(),
        buy(3, 12, 135),
        sell(4, 3, 100).non_customer(),
        cancel(1).at(20),
        clock(500),
    ]);
    let outcomes = last_outcomes(&messages, 2);
    assert_eq!(outcomes, [ended(Cause::Cancel, 2), noted()]);
    // The fills bear the cancel's number. The legs are L and the order is R, as usual.
    spread().prints(
        &messages,
        &[
            "7 3 L 0 130 10",
            "7 4 R 3 135 2",
            "average 3 130 0",
            "average 4 135 0",
            "open 1 answers 0",
        ],
    );
}

/// Legs that came down to a live order during the auction are met in the legs' pass, after the
/// held orders had theirs.
#[test]
fn live_orders_meet_the_legs_after_the_last_cancel() {
    let messages = after_market(&[
        buy(8, 30, 90),
        buy(1, 5, 145).wish(),
        local(0, 180, 10, 200, 10),
        buy(3, 4, 89),
        buy(4, 2, 100),
        cancel(1),
    ]);
    assert_eq!(spread().last_outcome(&messages), ended(Cause::Cancel, 2));
    spread().prints(
        &messages,
        &[
            "8 4 L 0 90 2",
            "8 8 L 0 90 8",
            "average 4 90 0",
            "average 8 90 0",
            "open 2 answers 0",
        ],
    );
}

/// A deadline that no clock can reach: the auction may still be cancelled.
#[test]
fn a_cancel_ends_an_auction_whose_deadline_is_above_the_greatest_time() {
    let most = Settings::MOST_TIME;
    let session = spread().set(|settings| settings.opening_time = Settings::MOST_TIME);
    let messages = after_market(&[buy(1, 2, 120).wish(), reduce(1, 1), cancel(1)]);
    let messages: Vec<Record> = messages.iter().map(|message| message.at(most)).collect();
    let outcomes = session.outcomes(&messages);
    let begun = Outcome::Begun {
        deadline: most + 500,
    };
    assert_eq!(outcomes[2..], [begun, noted(), ended(Cause::Cancel, 0)]);
}

// "Every other cancel or reduce is Noted. Orders outside the queue may be reduced too."

#[test]
fn every_other_cancel_or_reduce_is_noted() {
    let pending = after_market(&[
        sell(8, 5, 150),
        buy(1, 5, 135).wish(),
        buy(2, 5, 134).wish(),
        buy(3, 5, 120),
        sell(4, 5, 125),
    ]);
    for id in [8, 1, 2, 3, 4] {
        for change in [cancel(id), reduce(id, 4), reduce(id, 1)] {
            let messages = all(&[&pending, &[change]]);
            assert_eq!(spread().last_outcome(&messages), noted(), "{change:?}");
        }
    }
    // Without an auction: reading f.
    let resting = after_market(&[sell(8, 5, 150), buy(9, 5, 90)]);
    for id in [8, 9] {
        for change in [cancel(id), reduce(id, 4), reduce(id, 1)] {
            let messages = all(&[&resting, &[change]]);
            assert_eq!(spread().last_outcome(&messages), noted(), "{change:?}");
        }
    }
}

#[test]
fn a_reduced_order_trades_no_more_than_it_has() {
    // Live, then held, then from the queue.
    let live = [sell(1, 9, 120), reduce(1, 2), buy(2, 9, 120)];
    spread().prints(
        &live,
        &["3 2 R 1 120 2", "average 2 120 0", "open 1 answers 0"],
    );
    let held = after_market(&[
        buy(1, 9, 128).wish(),
        sell(2, 9, 126),
        reduce(2, 2),
        clock(500),
    ]);
    spread().prints(
        &held,
        &["6 1 C 2 126 2", "average 1 126 0", "open 1 answers 0"],
    );
    let queue = after_market(&[
        buy(1, 9, 128).wish(),
        sell(2, 9, 126).response(),
        reduce(1, 2),
        clock(500),
    ]);
    spread().prints(
        &queue,
        &["6 1 C 2 126 2", "average 1 126 0", "open 0 answers 0"],
    );
}

// Reading d: a reduce keeps arrival, stage and the auction, also below the class minimum.

#[test]
fn an_order_reduced_below_the_class_minimum_stays_in_the_queue() {
    let session = spread().set(|settings| settings.minimum = 5);
    let begin = after_market(&[
        buy(1, 5, 100).wish(),
        buy(2, 5, 99).wish(),
        reduce(1, 2),
        reduce(2, 1),
    ]);
    let engine = after(&session, &begin);
    let standing: Vec<(u32, u32, Standing)> = engine
        .book()
        .orders()
        .map(|order| (order.id, order.units, order.standing))
        .collect();
    assert_eq!(standing, [(1, 2, Standing::Queue), (2, 1, Standing::Queue)]);
    // The initiator's limit still decides, and both execute in the auction.
    let ending = |last: Record| session.last_outcome(&all(&[&begin, &[last]]));
    assert_eq!(ending(buy(3, 5, 101)), ended(Cause::Order, 0));
    assert_eq!(ending(buy(3, 4, 100).wish()), placed(4));
    let shared = all(&[&begin, &[sell(4, 9, 99).response(), clock(500)]]);
    session.prints(
        &shared,
        &[
            "8 1 C 4 99 2",
            "8 2 C 4 99 1",
            "average 1 99 0",
            "average 2 99 0",
            "open 0 answers 0",
        ],
    );
    // Once reduced, it may become the initiator.
    let next = all(&[&begin, &[cancel(1)]]);
    let auction = after(&session, &next).auction().copied();
    assert_eq!(auction.map(|auction| auction.initiator), Some(2));
}

#[test]
fn the_units_are_the_new_open_units() {
    let messages = [sell(1, 9, 120), reduce(1, 7), reduce(1, 3)];
    assert_eq!(order_after(&messages[..2], 1).units, 7);
    assert_eq!(order_after(&messages, 1).units, 3);
}

// "Number 51 then never occurs, and 71, after 50, meets a reduce whose units are 0 or not below
// the open units." Reading e.

#[test]
fn units_of_0_or_not_below_the_open_units_meet_71() {
    let begin = after_market(&[
        sell(8, 5, 150),
        buy(1, 5, 135).wish(),
        buy(2, 5, 134).wish(),
        sell(3, 5, 125),
    ]);
    for id in [8, 1, 2, 3] {
        let outcome = |units: u32| spread().last_outcome(&all(&[&begin, &[reduce(id, units)]]));
        for units in [0, 5, 6, 999_999, 1_000_000, 1 << 31, u32::MAX] {
            assert_eq!(outcome(units), refused(71), "{id} {units}");
        }
        for units in 1..5 {
            assert_eq!(outcome(units), noted(), "{id} {units}");
        }
    }
}

#[test]
fn the_open_units_count_and_not_those_it_came_with() {
    let partly = [buy(1, 10, 120), sell(2, 4, 120)];
    let outcome = |reduces: &[Record]| spread().last_outcome(&all(&[&partly, reduces]));
    for units in [6, 7, 10] {
        assert_eq!(outcome(&[reduce(1, units)]), refused(71));
    }
    assert_eq!(outcome(&[reduce(1, 5)]), noted());
    assert_eq!(outcome(&[reduce(1, 5), reduce(1, 5)]), refused(71));
    assert_eq!(outcome(&[reduce(1, 5), reduce(1, 4)]), noted());
    // An order of one unit cannot be reduced.
    let one = [buy(1, 1, 120)];
    for units in [0, 1, 2] {
        let messages = all(&[&one, &[reduce(1, units)]]);
        assert_eq!(spread().last_outcome(&messages), refused(71));
    }
}

#[test]
fn fifty_goes_before_71() {
    let begin = after_market(&[
        buy(8, 5, 90),
        buy(1, 5, 135).wish(),
        sell(2, 5, 125).response(),
    ]);
    let strange = [
        // Another's, a response's, nobody's.
        reduce(8, 3).of(2),
        reduce(1, 3).of(2),
        reduce(2, 3),
        reduce(77, 3),
        reduce(0, 3),
        reduce(1, 3).of(0),
    ];
    for right_units in strange {
        for units in [right_units.units, 0, 5, u32::MAX] {
            let record = Record {
                units,
                ..right_units
            };
            let messages = all(&[&begin, &[record]]);
            assert_eq!(spread().last_outcome(&messages), refused(50), "{record:?}");
        }
    }
    // Filled, and cancelled.
    let filled = after_market(&[buy(1, 5, 130), reduce(1, 3)]);
    assert_eq!(spread().last_outcome(&filled), refused(50));
    let cancelled = all(&[&begin, &[cancel(1), reduce(1, 3)]]);
    assert_eq!(spread().last_outcome(&cancelled), refused(50));
}

#[test]
fn the_rows_for_every_message_go_before_50_and_71() {
    let begin = after_market(&[buy(1, 5, 135).wish().at(10)]);
    let outcome = |record: Record| spread().last_outcome(&all(&[&begin, &[record]]));
    for record in [
        cancel(1),
        cancel(77),
        reduce(1, 3),
        reduce(1, 0),
        reduce(77, 0),
    ] {
        assert_eq!(outcome(record.at(9)), refused(11));
        assert_eq!(outcome(record.at(510)), refused(13));
        assert_eq!(outcome(record.at(600)), refused(13));
    }
    assert_eq!(outcome(reduce(1, 3).at(509)), noted());
    assert_eq!(outcome(cancel(1).at(509)), ended(Cause::Cancel, 0));
    let last = spread().set(|settings| settings.first_number = Settings::MOST_NUMBER);
    let outcomes = last.outcomes(&[buy(1, 5, 90), reduce(1, 9), reduce(77, 0)]);
    assert_eq!(outcomes, [placed(5), refused(12), refused(12)]);
    let mut engine = after(&spread(), &begin);
    let short = &mut vec![Fill::BLANK; FillList::LEAST_PLACES - 1];
    let reduced = reduce(1, 0).message().expect("a kind");
    assert_eq!(engine.apply(&reduced, short), refused(10));
}

/// A refused reduce takes no number, moves no time and leaves the units.
#[test]
fn a_refused_reduce_changes_nothing() {
    let messages = [
        sell(1, 5, 120).at(4),
        reduce(1, 5).at(1_000),
        reduce(1, 0).at(1_000),
        buy(2, 9, 120).at(4),
    ];
    spread().prints(
        &messages,
        &[
            "refused 2 71",
            "refused 3 71",
            "2 2 R 1 120 5",
            "average 2 120 0",
            "open 1 answers 0",
        ],
    );
}

// "The tape gains kind 8, reduce, which uses id, participant, units (the new open units) and time."

#[test]
fn kind_8_uses_id_participant_units_and_time() {
    let mut bytes = Vec::new();
    reduce(1, 3).of(9).at(7).write(&mut bytes);
    assert_eq!(bytes[0], 8);
    assert_eq!(bytes[4..8], 1u32.to_le_bytes());
    assert_eq!(bytes[8..12], 9u32.to_le_bytes());
    assert_eq!(bytes[12..16], 3u32.to_le_bytes());
    assert_eq!(bytes[28..36], 7u64.to_le_bytes());
    // Any other byte may be anything.
    let used = [0..1, 4..16, 28..36];
    for place in (0..36).filter(|place| !used.iter().any(|range| range.contains(place))) {
        let mut other = bytes.clone();
        other[place] = 0xff;
        let message = Record::read(&bytes).message();
        assert_eq!(Record::read(&other).message(), message, "{place}");
    }
    for place in used.into_iter().flatten() {
        let mut other = bytes.clone();
        other[place] ^= 1;
        let message = Record::read(&bytes).message();
        assert_ne!(Record::read(&other).message(), message, "{place}");
    }
}

#[test]
fn a_reduce_is_a_line_of_the_text() {
    let tape = spread().tape(&[buy(7, 9, 90), reduce(7, 4).at(3)]);
    let text = dump(&tape).expect("a text");
    assert!(text.ends_with("\nreduce id=7 participant=1 units=4 time=3\n"));
    assert_eq!(make(text.as_bytes()), Ok(tape));
    let loose = text.replace("units=4 time=3", "units=4");
    let at_the_same_time = spread().tape(&[buy(7, 9, 90), reduce(7, 4)]);
    assert_eq!(make(loose.as_bytes()), Ok(at_the_same_time));
}

// What `explain` says.

/// The account of a message, by its position: the lines without their leading spaces.
fn told(messages: &[Record], position: usize) -> Vec<String> {
    let text = explain(&spread().tape(messages));
    let first = format!("message {position},");
    let lines = text.lines().skip_while(|line| !line.starts_with(&first));
    let lines = lines.take_while(|line| !line.is_empty()).skip(1);
    lines.map(|line| line.trim_start().to_string()).collect()
}

#[test]
fn explain_says_what_a_reduce_did() {
    let messages = after_market(&[
        buy(1, 9, 135).wish(),
        sell(2, 5, 125).non_customer(),
        reduce(1, 4),
        reduce(2, 1),
    ]);
    assert_eq!(
        told(&messages, 5),
        [
            "number 5: noted, no fills",
            "reduced from 9 units: queue order 1 (customer, number 3) buys 4 at 135",
        ]
    );
    assert_eq!(
        told(&messages, 6),
        [
            "number 6: noted, no fills",
            "reduced from 5 units: held order 2 (not a customer, number 4) sells 1 at 125",
        ]
    );
    let text = explain(&spread().tape(&messages));
    assert!(text.contains("time 0: reduce of order 1 of participant 1 to 4 units\n"));
}

#[test]
fn explain_says_who_becomes_the_initiator_and_why_the_auction_ends() {
    let messages = after_market(&[
        buy(1, 9, 135).wish(),
        buy(2, 5, 134).wish(),
        buy(3, 5, 133).wish(),
        sell(4, 5, 140).response(),
        local(0, 220, 10, 240, 6),
        cancel(3),
        cancel(1),
        cancel(2),
    ]);
    assert_eq!(
        told(&messages, 8),
        [
            "number 8: noted, no fills",
            "cancelled: queue order 3 (customer, number 5) buys 5 at 133",
        ]
    );
    assert_eq!(
        told(&messages, 9),
        [
            "number 9: noted, no fills",
            "cancelled: queue order 1 (customer, number 3) buys 9 at 135",
            "it was the initiator; order 2 becomes the initiator: buys at 134 or better, deadline \
             500 as before",
            "starting price 130: the least units shown since the start are 6",
        ]
    );
    assert_eq!(
        told(&messages, 10),
        [
            "number 10: ends the auction, cause cancel, no fills",
            "cancelled: queue order 2 (customer, number 4) buys 5 at 134",
            "it was the initiator, and no queue order is left: the auction ends, and the responses \
             expire",
        ]
    );
}

#[test]
fn explain_says_why_a_reduce_meets_50_or_71() {
    let messages = [
        buy(1, 9, 90),
        reduce(1, 0),
        reduce(1, 9),
        reduce(1, 1_000_000),
        reduce(1, 3).of(2),
    ];
    assert_eq!(told(&messages, 2), ["refused 71: the new open units are 0"]);
    let not_below =
        |units: u32| format!("refused 71: {units} units are not below the 9 open units of order 1");
    assert_eq!(told(&messages, 3), [not_below(9)]);
    assert_eq!(told(&messages, 4), [not_below(1_000_000)]);
    assert_eq!(
        told(&messages, 5),
        ["refused 50: no open order 1 of participant 2: it is open as live order of participant 1"]
    );
}
