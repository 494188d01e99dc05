//! Running a tape through the engine, and what tapeprint, tapeform and tapelegs print of it.

use crate::average::{averages, Average};
use crate::engine::{Engine, Outcome};
use crate::execution::{Contra, Fill, FillList};
use crate::form::form;
use crate::strategy::Leg;
use crate::tape::Tape;
use crate::Refusal;
use std::fmt::Write;

/// Opens a tape's strategy and feeds it the messages; `each` is told every message's position,
/// from 1, its outcome and its fill records. The engine as the tape leaves it is given back.
pub fn run_tape(
    bytes: &[u8],
    mut each: impl FnMut(usize, &Outcome, &[Fill]),
) -> Result<Engine, Refusal> {
    let tape = Tape::read(bytes)?;
    let legs: Vec<Leg> = tape.legs().collect();
    let mut engine = Engine::open(&legs, &tape.header.settings)?;
    let mut fills = vec![Fill::BLANK; FillList::LEAST_PLACES];
    for (position, message) in (1..).zip(tape.messages()) {
        let outcome = engine.apply(&message, &mut fills);
        each(position, &outcome, &fills[..outcome.fill_count()]);
    }
    Ok(engine)
}

pub const TITLE: &str = "number order rank contra price units";

/// "Contra 0 is the legs."
pub fn contra_number(contra: Contra) -> u32 {
    match contra {
        Contra::Legs => 0,
        Contra::Entry(id) => id,
    }
}

/// A fill's six values.
pub fn fill_words(fill: &Fill) -> String {
    format!(
        "{} {} {} {} {} {}",
        fill.number,
        fill.order,
        fill.rank.letter(),
        contra_number(fill.contra),
        fill.price,
        fill.units
    )
}

fn average_line(average: &Average) -> String {
    let (quotient, remainder) = (average.quotient(), average.remainder());
    format!("average {} {quotient} {remainder}\n", average.order)
}

/// The averages of a message's fills.
pub fn average_lines(fills: &[Fill]) -> String {
    averages(fills).iter().map(average_line).collect()
}

/// A fill's price of each leg (M-106). tapeprint's lines do not have them.
pub fn leg_words(fill: &Fill) -> String {
    let prices = fill.leg_prices.map(|prices| prices.to_string());
    prices.unwrap_or("none".to_string())
}

/// "The last line counts open orders and responses."
pub fn last_line(engine: &Engine) -> String {
    let orders = engine.book().orders().count();
    let responses = engine.book().responses().count();
    format!("open {orders} answers {responses}\n")
}

/// A tape or an opening that is refused "prints the one line".
fn refused_line(number: Refusal) -> String {
    format!("refused 0 {number}\n")
}

/// What tapeprint prints of a tape.
pub fn tapeprint(bytes: &[u8]) -> String {
    let mut text = format!("{TITLE}\n");
    let run = run_tape(bytes, |position, outcome, fills| {
        // Writing to a string does not fail.
        for fill in fills {
            let _ = writeln!(text, "{}", fill_words(fill));
        }
        text.push_str(&average_lines(fills));
        if let Outcome::Refused { number } = outcome {
            let _ = writeln!(text, "refused {position} {number}");
        }
    });
    match run {
        Ok(engine) => text + &last_line(&engine),
        Err(number) => refused_line(number),
    }
}

/// What tapeform prints of a tape: the bytes of its form.
pub fn tapeform(bytes: &[u8]) -> Vec<u8> {
    form(bytes).unwrap_or_else(|number| refused_line(number).into_bytes())
}

/// What tapelegs prints of a tape: a line for each fill, as tapeprint has it, with the price of each
/// leg. A refused tape has no fills.
pub fn tapelegs(bytes: &[u8]) -> String {
    let mut text = String::new();
    let _ = run_tape(bytes, |_, _, fills| {
        for fill in fills {
            let _ = writeln!(text, "{} | {}", fill_words(fill), leg_words(fill));
        }
    });
    text
}
