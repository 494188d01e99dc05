//! A tape told message by message: what each was, its outcome, the turns with what was open, how it
//! was shared and the leg prices of each fill, the averages of the orders that executed, what a
//! cancel or a reduce did, and why a message was turned back.

use crate::average::{average, averages};
use crate::book::{Account, Entry, Standing};
use crate::engine::{Engine, Outcome};
use crate::execution::{Contra, Fill, FillList, Mode, Sharing, Turn, Watch};
use crate::market::{Derived, LocalSide, Market};
use crate::message::{Message, Request, Terms};
use crate::print::last_line;
use crate::strategy::{
    roots_differ, symbol_repeats, third_friday, Cents, Leg, Settings, Side, Strategy,
};
use crate::tape::Tape;
use crate::text::{show_letter, show_symbol};
use crate::Refusal;

/// The account of a tape.
pub fn explain(bytes: &[u8]) -> String {
    match Tape::lay_out(bytes) {
        Err(misfit) => format!("refused 0 60: {misfit} ({} bytes)\n", bytes.len()),
        Ok(tape) => match tape.first_wrong_kind() {
            Some((position, kind)) => {
                format!("refused 0 61: message {position} has kind {kind}, not 1 to 8\n")
            }
            None => explain_session(&tape),
        },
    }
}

fn explain_session(tape: &Tape) -> String {
    let legs: Vec<Leg> = tape.legs().collect();
    let settings = &tape.header.settings;
    let mut text = opening(&legs, settings);
    let mut engine = match Engine::open(&legs, settings) {
        Ok(engine) => engine,
        Err(number) => {
            let reason = opening_reason(&legs, settings, number);
            return text + &format!("refused 0 {number}: {reason}\n");
        }
    };
    let mut fills = vec![Fill::BLANK; FillList::LEAST_PLACES];
    for (position, message) in (1..).zip(tape.messages()) {
        let before = engine.clone();
        let mut turns = Turns::default();
        let outcome = engine.apply_watched(&message, &mut fills, &mut turns);
        text += &format!("\nmessage {position}, time {}: ", message.time);
        text += &request(&message.request);
        text += "\n";
        text += &format!("  {}\n", answer(&outcome, &message, &before, &engine));
        if !matches!(outcome, Outcome::Refused { .. }) {
            text += &change_lines(&message.request, &before, &engine);
        }
        text += &turns.text;
        let fills = &fills[..outcome.fill_count()];
        text += &average_lines(fills);
        text += &no_average_line(&message.request, &outcome, fills, &engine);
        if matches!(message.request, Request::Local { .. }) {
            text += &derived_line(&engine);
            text += &start_line(&engine);
        }
    }
    text += "\n";
    text += &last_line(&engine);
    for entry in engine.book().entries() {
        text += &format!("  {}\n", entry_words(entry));
    }
    text
}

// The opening.

fn opening(legs: &[Leg], settings: &Settings) -> String {
    let mut text = format!("strategy of {} legs\n", legs.len());
    for (at, leg) in legs.iter().enumerate() {
        text += &format!(
            "  leg {at}: {} side {} ratio {} MPV {}\n",
            show_symbol(&leg.symbol),
            show_letter(leg.side),
            leg.ratio,
            leg.mpv
        );
    }
    text += &format!(
        "  interval {} ms, distance {}, most legs {}, minimum {}\n",
        settings.interval, settings.distance, settings.most_legs, settings.minimum
    );
    let [one, five, ten] = settings.amounts;
    text += &format!("  filter amounts {one}, {five}, {ten} for MPV 1, 5, 10\n");
    text += &format!(
        "  first number {}, opening time {}\n",
        settings.first_number, settings.opening_time
    );
    text
}

/// Why an opening meets its number.
fn opening_reason(legs: &[Leg], settings: &Settings, number: Refusal) -> String {
    let first = |wrong: fn(&Leg) -> bool| legs.iter().position(wrong).unwrap_or(0);
    match number {
        1 => format!(
            "not {} to {} legs, but {}",
            Strategy::LEAST_LEGS,
            Strategy::MOST_LEGS,
            legs.len()
        ),
        2 => {
            let at = first(|leg| !leg.symbol_is_formed());
            let symbol = show_symbol(&legs[at].symbol);
            format!("symbol malformed: leg {at}, {symbol}")
        }
        3 => {
            let at = first(|leg| !leg.is_third_friday());
            let leg = &legs[at];
            let (year, month) = (leg.year(), leg.month());
            format!(
                "date not a third Friday: leg {at} has day {:02} of 20{year:02}-{month:02}, not {}",
                leg.day(),
                third_friday(year, month)
            )
        }
        4 if roots_differ(legs) => "roots differ".to_string(),
        4 if symbol_repeats(legs) => "a symbol repeats".to_string(),
        5 => {
            let ratios: Vec<String> = legs.iter().map(|leg| leg.ratio.to_string()).collect();
            let ratios = ratios.join(", ");
            format!(
                "ratios {ratios}: they must be 1 to 9, none above three times another, their \
                 greatest common divisor 1"
            )
        }
        6 => {
            let wrong =
                |leg: &Leg| Side::of_letter(leg.side).is_none() || !Leg::MPVS.contains(&leg.mpv);
            let at = first(wrong);
            let side = show_letter(legs[at].side);
            format!(
                "side or MPV: leg {at} has side {side}, MPV {}",
                legs[at].mpv
            )
        }
        _ => {
            let (name, value) = settings.outside().unwrap_or(("none", 0));
            format!("a setting outside: {name} {value}")
        }
    }
}

// What a message was.

fn side_words(side: Side) -> &'static str {
    match side {
        Side::Buy => "buys",
        Side::Sell => "sells",
    }
}

fn letter_words(letter: u8) -> String {
    match Side::of_letter(letter) {
        Some(side) => side_words(side).to_string(),
        None => format!("with side {}", show_letter(letter)),
    }
}

fn account_words(account: u8) -> String {
    match Account::of_number(account) {
        Some(Account::Customer) => "customer".to_string(),
        Some(Account::NonCustomer) => "not a customer".to_string(),
        None => format!("account {account}"),
    }
}

fn local_words(side: &LocalSide) -> String {
    if side.is_absent() {
        "absent".to_string()
    } else {
        format!("{} for {}", side.price, side.size)
    }
}

fn terms_words(terms: &Terms) -> String {
    let side = letter_words(terms.side);
    format!("{side} {} at {}", terms.units, terms.price)
}

fn request(request: &Request) -> String {
    match request {
        Request::Local { leg, quote } => {
            let (bid, ask) = (local_words(&quote.bid), local_words(&quote.ask));
            format!("local quote of leg {leg}, bid {bid}, ask {ask}")
        }
        Request::National { leg, quote } => {
            format!(
                "national quote of leg {leg}, bid {}, ask {}",
                quote.bid, quote.ask
            )
        }
        Request::Order {
            terms,
            account,
            wish,
        } => format!(
            "order {} of participant {} ({}) {}, {}",
            terms.id,
            terms.participant,
            account_words(*account),
            terms_words(terms),
            if *wish {
                "asks for an auction"
            } else {
                "no wish"
            }
        ),
        Request::Response { terms, account } => format!(
            "response {} of participant {} ({}) {}",
            terms.id,
            terms.participant,
            account_words(*account),
            terms_words(terms)
        ),
        Request::Modify { terms } => format!(
            "response {} of participant {} modified: {}",
            terms.id,
            terms.participant,
            terms_words(terms)
        ),
        Request::Cancel { id, participant } => {
            format!("cancel of order {id} of participant {participant}")
        }
        Request::Reduce {
            id,
            participant,
            units,
        } => format!("reduce of order {id} of participant {participant} to {units} units"),
        Request::Clock => "clock".to_string(),
    }
}

// Its answer.

fn count_words(fills: usize) -> String {
    match fills {
        0 => "no fills".to_string(),
        1 => "1 fill".to_string(),
        _ => format!("{fills} fills"),
    }
}

/// The outcome of a message, in the words of the states before and after it.
fn answer(outcome: &Outcome, message: &Message, before: &Engine, after: &Engine) -> String {
    let number = before.next_number();
    match outcome {
        Outcome::Noted { fills } => format!("number {number}: noted, {}", count_words(*fills)),
        Outcome::Placed { units, fills } => {
            let fills = count_words(*fills);
            format!("number {number}: placed, {units} units open, {fills}")
        }
        Outcome::Begun { deadline } => {
            let start = after.auction().and_then(|auction| auction.start);
            let start = start.map_or("none".to_string(), |start| {
                format!("{} for {} units", start.price, start.units)
            });
            format!(
                "number {number}: begins an auction, deadline {deadline}, derived contra price \
                 {start}"
            )
        }
        Outcome::Joined { queue_units } => {
            format!("number {number}: joins the queue, {queue_units} units in it")
        }
        Outcome::Ended { cause, fills } => {
            let cause = cause.word();
            let fills = count_words(*fills);
            format!("number {number}: ends the auction, cause {cause}, {fills}")
        }
        Outcome::Refused { number } => {
            format!("refused {number}: {}", reason(before, message, *number))
        }
    }
}

/// What an accepted cancel or reduce did, to the order and to the auction.
fn change_lines(request: &Request, before: &Engine, after: &Engine) -> String {
    let order = |id, participant| open_order(before, id, participant);
    match *request {
        Request::Cancel { id, participant } => order(id, participant).map(|order| {
            let cancelled = format!("  cancelled: {}\n", entry_words(order));
            cancelled + &initiator_lines(id, before, after)
        }),
        Request::Reduce {
            id,
            participant,
            units,
        } => order(id, participant).map(|order| {
            let reduced = entry_words(&Entry { units, ..*order });
            format!("  reduced from {} units: {reduced}\n", order.units)
        }),
        _ => None,
    }
    .unwrap_or_default()
}

fn open_order(engine: &Engine, id: u32, participant: u32) -> Option<&Entry> {
    let at = engine.book().find_order(id, participant)?;
    Some(&engine.book().entries()[at])
}

/// Who becomes the initiator in place of a cancelled one, or that nobody does.
fn initiator_lines(cancelled: u32, before: &Engine, after: &Engine) -> String {
    let was = before.auction().map(|auction| auction.initiator);
    match after.auction() {
        _ if was != Some(cancelled) => String::new(),
        Some(auction) => {
            let (id, limit, deadline) = (auction.initiator, auction.limit, auction.deadline);
            let side = side_words(auction.side);
            format!(
                "  it was the initiator; order {id} becomes the initiator: {side} at {limit} or \
                 better, deadline {deadline} as before\n"
            ) + &start_line(after)
        }
        None => "  it was the initiator, and no queue order is left: the auction ends, and the \
                 responses expire\n"
            .to_string(),
    }
}

fn derived_line(engine: &Engine) -> String {
    let words = |market: &Market, side: Side| match market.derived_contra(engine.strategy(), side) {
        Some(derived) => format!("{} for {} units", derived.price, derived.units),
        None => "none".to_string(),
    };
    let bid = words(engine.market(), Side::Sell);
    let ask = words(engine.market(), Side::Buy);
    format!("  derived bid {bid}, derived ask {ask}\n")
}

/// What the starting price of a pending auction has shown so far.
fn start_line(engine: &Engine) -> String {
    match engine.auction().map(|auction| auction.start) {
        Some(Some(start)) => format!(
            "  starting price {}: the least units shown since the start are {}\n",
            start.price, start.units
        ),
        Some(None) => "  no starting price\n".to_string(),
        None => String::new(),
    }
}

// Why a message was turned back.

fn standing_words(standing: Standing) -> &'static str {
    match standing {
        Standing::Held => "held order",
        Standing::Live => "live order",
        Standing::Queue => "queue order",
        Standing::Response => "response",
    }
}

fn entry_words(entry: &Entry) -> String {
    let account = match entry.account {
        Account::Customer => "customer",
        Account::NonCustomer => "not a customer",
    };
    format!(
        "{} {} ({account}, number {}) {} {} at {}",
        standing_words(entry.standing),
        entry.id,
        entry.arrival,
        side_words(entry.side),
        entry.units,
        entry.limit
    )
}

/// What is open under an id, for whoever asked for it in vain.
fn open_under(engine: &Engine, id: u32) -> String {
    let entries = engine.book().entries();
    match entries.iter().find(|entry| entry.id == id) {
        None => "nothing is open under it".to_string(),
        Some(entry) => format!(
            "it is open as {} of participant {}",
            standing_words(entry.standing),
            entry.participant
        ),
    }
}

/// Which values of terms are wrong.
fn wrong_terms(terms: &Terms, account: Option<u8>) -> String {
    let mut wrong = Vec::new();
    if Side::of_letter(terms.side).is_none() {
        wrong.push(format!("side {}", show_letter(terms.side)));
    }
    if let Some(account) = account.filter(|&account| Account::of_number(account).is_none()) {
        wrong.push(format!("account {account}"));
    }
    if !Entry::LIMIT.contains(&terms.price) {
        wrong.push(format!("limit {}", terms.price));
    }
    if terms.id == 0 {
        wrong.push("id 0".to_string());
    }
    if terms.participant == 0 {
        wrong.push("participant 0".to_string());
    }
    if !Entry::UNITS.contains(&terms.units) {
        wrong.push(format!("units {}", terms.units));
    }
    format!("wrong values: {}", wrong.join(", "))
}

/// Why the filter refuses an order.
fn filter_reason(engine: &Engine, terms: &Terms) -> String {
    let side = Side::of_letter(terms.side).unwrap_or(Side::Buy);
    let Some(filter) = engine.market().filter(engine.strategy(), side) else {
        return "filter".to_string();
    };
    format!(
        "filter: limit {} is beyond the national contra price {} by {}, more than {} × {} = {} \
         (leg {} has the smallest price used)",
        terms.price,
        filter.contra,
        -side.miss(terms.price, filter.contra),
        filter.amount,
        filter.smallest_ratio,
        filter.amount * filter.smallest_ratio,
        filter.smallest_leg
    )
}

/// Why an order is not reduced to so many units.
fn units_reason(order: Option<&Entry>, units: u32) -> String {
    match (order, units) {
        (Some(order), 1..) => format!(
            "{units} units are not below the {} open units of order {}",
            order.units, order.id
        ),
        _ => "the new open units are 0".to_string(),
    }
}

fn time_reason(engine: &Engine, time: u64) -> String {
    if time > Settings::MOST_TIME {
        format!("time {time} is above {}", Settings::MOST_TIME)
    } else {
        let last = engine.last_time();
        format!("time {time} is before the last accepted time {last}")
    }
}

/// The condition that a refused message met, with its values, in the state before it.
fn reason(engine: &Engine, message: &Message, number: Refusal) -> String {
    let legs = engine.strategy().legs.len();
    match (number, &message.request) {
        (10, _) => format!("fill list under {} places", FillList::LEAST_PLACES),
        (11, _) => time_reason(engine, message.time),
        (12, _) => {
            let next = engine.next_number();
            format!("next number {next} is above {}", Settings::MOST_NUMBER)
        }
        (13, _) => {
            let deadline = engine.auction().map_or(0, |auction| auction.deadline);
            format!("deadline {deadline} reached, and not a clock")
        }
        (20, Request::Local { leg, .. } | Request::National { leg, .. }) => {
            format!("no such leg: {leg}, with {legs} legs from 0")
        }
        (21, Request::Local { quote, .. }) => {
            let sides = [("bid", quote.bid), ("ask", quote.ask)];
            let wrong = sides.iter().filter(|(_, side)| !side.fits());
            let words = wrong.map(|(name, side)| format!("{name} {}", local_words(side)));
            format!(
                "price or size: {}",
                words.collect::<Vec<String>>().join(", ")
            )
        }
        (21, Request::National { quote, .. }) => {
            format!("price: bid {}, ask {}", quote.bid, quote.ask)
        }
        (22, Request::Local { quote, .. }) => {
            format!("bid {} not below ask {}", quote.bid.price, quote.ask.price)
        }
        (30, Request::Order { terms, account, .. })
        | (41, Request::Response { terms, account }) => wrong_terms(terms, Some(*account)),
        (41, Request::Modify { terms }) => wrong_terms(terms, None),
        (31, Request::Order { terms, .. }) | (42, Request::Response { terms, .. }) => {
            format!("id {}: {}", terms.id, open_under(engine, terms.id))
        }
        (32, _) => format!("{} orders open", engine.book().orders().count()),
        (33, Request::Order { terms, .. }) => filter_reason(engine, terms),
        (40, _) => "no auction".to_string(),
        (42, Request::Modify { terms }) => format!(
            "no response {} of participant {}: {}",
            terms.id,
            terms.participant,
            open_under(engine, terms.id)
        ),
        (43, _) => format!("{} responses open", engine.book().responses().count()),
        (
            50,
            Request::Cancel { id, participant }
            | Request::Reduce {
                id, participant, ..
            },
        ) => format!(
            "no open order {id} of participant {participant}: {}",
            open_under(engine, *id)
        ),
        (
            71,
            Request::Reduce {
                id,
                participant,
                units,
            },
        ) => units_reason(open_order(engine, *id, *participant), *units),
        _ => "see the table of refusals".to_string(),
    }
}

// The turns.

/// How many units of the starting price are rank L in a turn from the queue.
fn early_line(mode: &Mode) -> String {
    match mode {
        Mode::Queue { start: Some(start) } => format!(
            "    starting price {}: {} units of it are rank L\n",
            start.price, start.units
        ),
        Mode::Queue { start: None } => "    no starting price: legs are rank T\n".to_string(),
        Mode::GoingLive | Mode::LegsPass => String::new(),
    }
}

fn legs_words(turn: &Turn, legs: &Derived) -> String {
    match turn.legs_ranks(legs) {
        (_, 0) => "rank L".to_string(),
        (0, _) => "rank T".to_string(),
        (early, late) => format!("{early} of rank L and {late} of rank T"),
    }
}

/// The text of a message's turns.
#[derive(Default)]
struct Turns {
    text: String,
}

impl Watch for Turns {
    fn turn_begins(&mut self, turn: &Turn) {
        let order = turn.order();
        let mode = match turn.mode {
            Mode::Queue { .. } => "from the queue",
            Mode::GoingLive => "going live",
            Mode::LegsPass => "in the legs' pass",
        };
        self.text += &format!(
            "  turn {mode}: order {} {} {} at {} or better\n",
            order.id,
            side_words(order.side),
            order.units,
            order.limit
        );
        let mut nothing = true;
        let within = |price: Cents| match order.side.reaches(order.limit, price) {
            true => "",
            false => ", not within the limit",
        };
        if let Some(legs) = turn.legs() {
            nothing = false;
            self.text += &early_line(turn.mode);
            self.text += &format!(
                "    open: legs at {}, {} units, {}{}\n",
                legs.price,
                legs.units,
                legs_words(turn, &legs),
                within(legs.price)
            );
        }
        for entry in turn.entries() {
            nothing = false;
            self.text += &format!(
                "    open: {} {} at {}, {} units, rank {}{}\n",
                standing_words(entry.standing),
                entry.id,
                entry.limit,
                entry.units,
                turn.entry_rank(entry).letter(),
                within(entry.limit)
            );
        }
        if nothing {
            self.text += "    nothing is open to it\n";
        }
    }

    fn shared(&mut self, sharing: &Sharing) {
        let total: u64 = sharing.sizes.iter().map(|&size| u64::from(size)).sum();
        let amount = u64::from(sharing.amount);
        self.text += &format!(
            "    at {}, rank {}: {amount} shared over {total}\n",
            sharing.price,
            sharing.rank.letter()
        );
        let entries = sharing.ids.iter().zip(sharing.sizes).zip(sharing.shares);
        for ((id, &size), &share) in entries {
            let product = amount * u64::from(size);
            let (whole, remainder) = (product / total, product % total);
            let leftover = u64::from(share) - whole;
            self.text += &format!(
                "      {id}: {amount} × {size} ÷ {total} = {whole} remainder {remainder}, \
                 and {leftover} left over: {share}\n"
            );
        }
    }

    fn turn_ends(&mut self, records: &[Fill]) {
        for fill in records {
            let contra = match fill.contra {
                Contra::Legs => "the legs".to_string(),
                Contra::Entry(id) => id.to_string(),
            };
            let legs = match fill.leg_prices {
                Some(prices) => format!("leg prices {prices}"),
                None => "no leg prices".to_string(),
            };
            self.text += &format!(
                "    fill: {} units at {} with {contra}, rank {}, {legs}\n",
                fill.units,
                fill.price,
                fill.rank.letter()
            );
        }
        if records.is_empty() {
            self.text += "    no fill\n";
        }
    }
}

// The averages.

/// The average of each order that executed.
fn average_lines(fills: &[Fill]) -> String {
    let averages = averages(fills);
    let lines = averages.iter().map(|average| {
        format!(
            "  average of order {}: a sum of {} over {} units is {} remainder {}\n",
            average.order,
            average.sum,
            average.units,
            average.quotient(),
            average.remainder()
        )
    });
    lines.collect()
}

/// An arriving order that had its turn and no fills has no average. While an auction is pending it
/// has had no turn yet.
fn no_average_line(request: &Request, outcome: &Outcome, fills: &[Fill], after: &Engine) -> String {
    match (request, outcome) {
        (Request::Order { terms, .. }, Outcome::Placed { .. } | Outcome::Ended { .. })
            if after.auction().is_none() && average(terms.id, fills).is_none() =>
        {
            format!("  average of order {}: none, it has no fills\n", terms.id)
        }
        _ => String::new(),
    }
}
