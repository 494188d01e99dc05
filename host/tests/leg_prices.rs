//! The price of each leg in a record (M-106), against numbers worked out by hand.

use tumghavi::{Account, Contra, Engine, Fill, Leg, Message, Opening, Outcome, Settings, Side};

const LEGS: [Leg; 2] = [
    Leg { symbol: *b"XYZ   260116C00020000", side: Side::BUY, ratio: 1, mpv: 5 },
    Leg { symbol: *b"XYZ   260116C00025000", side: Side::SELL, ratio: 1, mpv: 5 },
];

/// A copy, and the list that its messages are given.
struct Session {
    engine: Engine,
    fills: Vec<Fill>,
}

impl Session {
    /// Each leg has a bid, an ask and ten contracts on both sides.
    fn open(quotes: [(i32, i32); 2]) -> Session {
        let settings = Settings {
            first_number: 1,
            opening_time: 0,
            minimum: 1,
            interval: 500,
            distance: 0,
            most_legs: 4,
            amounts: [999; 3],
        };
        let engine = Engine::open(&Opening { legs: &LEGS, settings }).expect("it is a good opening");
        let mut session = Session { engine, fills: vec![Fill::BLANK; Fill::LEAST_PLACES] };
        for (leg, (bid, ask)) in (0..).zip(quotes) {
            let quote = Message::Local { time: 0, leg, bid, bid_size: 10, ask, ask_size: 10 };
            assert_eq!(session.engine.step(&quote, &mut session.fills), Outcome::Noted { fills: 0 });
        }
        session
    }

    /// The contra, net price and leg prices of each fill that an order has at once.
    fn order(&mut self, id: u32, side: Side, units: u32, price: i32) -> Vec<(Contra, i64, Option<Vec<u64>>)> {
        let (account, participant) = (Account::CUSTOMER, id);
        let order = Message::Order { time: 0, side, account, wish: false, id, participant, units, price };
        let outcome = self.engine.step(&order, &mut self.fills);
        let row = |fill: &Fill| (fill.contra(), fill.price(), fill.leg_prices().map(Vec::from));
        self.fills[..outcome.fills()].iter().map(row).collect()
    }

    /// The leg prices of a seller's fill with a buyer who rests at a price.
    fn between(&mut self, price: i32) -> Option<Vec<u64>> {
        assert_eq!(self.order(1, Side::BUY, 1, price), []);
        let fills = self.order(2, Side::SELL, 1, price);
        let [(Contra::Entry(1), net, prices)] = &fills[..] else { panic!("{fills:?}") };
        assert_eq!(*net, i64::from(price));
        prices.clone()
    }
}

/// The net of two legs, the first bought and the second sold.
fn priced(first: u64, second: u64) -> Option<Vec<u64>> {
    Some(vec![first, second])
}

/// A seller takes leg 0's bid and leg 1's ask, a buyer leg 0's ask and leg 1's bid.
#[test]
fn with_the_legs() {
    let mut session = Session::open([(220, 240), (110, 120)]);
    assert_eq!(session.order(1, Side::SELL, 3, 100), [(Contra::Legs, 100, priced(220, 120))]);
    assert_eq!(session.order(2, Side::BUY, 3, 130), [(Contra::Legs, 130, priced(240, 110))]);
}

/// The lowest price on leg 0 with which leg 1 can do.
#[test]
fn with_an_entry() {
    for (price, first, second) in [(101, 220, 119), (107, 220, 113), (110, 220, 110), (111, 221, 110), (129, 239, 110)]
    {
        let mut session = Session::open([(220, 240), (110, 120)]);
        assert_eq!(session.between(price), priced(first, second), "{price}");
    }
}

/// An ask may be 50 cents above its bid, and no more.
#[test]
fn wide_legs() {
    assert_eq!(Session::open([(220, 270), (110, 120)]).between(107), priced(220, 113));
    assert_eq!(Session::open([(220, 271), (110, 120)]).between(107), None);
    assert_eq!(Session::open([(220, 240), (70, 120)]).between(107), priced(220, 113));
    assert_eq!(Session::open([(220, 240), (69, 120)]).between(107), None);
}

/// The quotes are those just before a fill: the legs' ten units leave leg 0 without a bid.
#[test]
fn without_a_side() {
    let mut session = Session::open([(220, 240), (110, 120)]);
    assert_eq!(session.order(1, Side::BUY, 5, 104), []);
    assert_eq!(session.order(2, Side::BUY, 9, 100), []);
    let fills = session.order(3, Side::SELL, 17, 100);
    let [first, legs, last] = &fills[..] else { panic!("{fills:?}") };
    assert_eq!(*first, (Contra::Entry(1), 104, priced(220, 116)));
    assert_eq!(*legs, (Contra::Legs, 100, priced(220, 120)));
    assert_eq!(*last, (Contra::Entry(2), 100, None));
}

/// The prices of more than four legs are those of four.
#[test]
fn any_numbers() {
    let prices = |legs| Fill::from([4, 8, 4, 8, 40_000_000, 1, legs, 10, 20, 30, 40]).leg_prices().map(Vec::from);
    assert_eq!(prices(0), None);
    for legs in 1..=5 {
        assert_eq!(prices(legs), Some(vec![10, 20, 30, 40][..legs as usize - 1].to_vec()));
    }
    assert_eq!(prices(6), prices(5));
    assert_eq!(prices(u64::MAX), prices(5));
}
