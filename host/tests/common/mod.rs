//! What the second program's openings and records are in the library's types.

use second::strategy::{Leg, Settings};
use second::tape::Record;
use tumghavi::{Account, Message, Side};

pub fn legs(legs: &[Leg]) -> Vec<tumghavi::Leg> {
    let leg = |leg: &Leg| tumghavi::Leg { symbol: leg.symbol, side: Side(leg.side), ratio: leg.ratio, mpv: leg.mpv };
    legs.iter().map(leg).collect()
}

pub fn settings(settings: &Settings) -> tumghavi::Settings {
    tumghavi::Settings {
        first_number: settings.first_number,
        opening_time: settings.opening_time,
        minimum: settings.minimum,
        interval: settings.interval,
        distance: settings.distance,
        most_legs: settings.most_legs,
        amounts: settings.amounts,
    }
}

/// A record's fields as they stand, used or not.
pub fn fields(r: &Record) -> tumghavi::Record {
    tumghavi::Record {
        kind: r.kind,
        side: r.side,
        account: r.account,
        wish_or_leg: r.wish_or_leg,
        id: r.id,
        participant: r.participant,
        units: r.units,
        price: r.price,
        ask: r.ask,
        ask_size: r.ask_size,
        time: r.time,
    }
}

/// The message of a record, by its kind.
pub fn message(r: &Record) -> Message {
    let (time, leg, id, participant, units, price) = (r.time, r.wish_or_leg, r.id, r.participant, r.units, r.price);
    let (side, account) = (Side(r.side), Account(r.account));
    match r.kind {
        1 => Message::Local { time, leg, bid: price, bid_size: units, ask: r.ask, ask_size: r.ask_size },
        2 => Message::National { time, leg, bid: price, ask: r.ask },
        3 => Message::Order { time, side, account, wish: leg != 0, id, participant, units, price },
        4 => Message::Response { time, side, account, id, participant, units, price },
        5 => Message::Modify { time, side, id, participant, units, price },
        6 => Message::Cancel { time, id, participant },
        7 => Message::Clock { time },
        8 => Message::Reduce { time, id, participant, units },
        _ => Message::Record(fields(r)),
    }
}
