//! A session as it happens: the opening, then one message after another, each answered at once.
//! What is kept does not grow with the messages.

use crate::engine::{Engine, Outcome};
use crate::execution::{Fill, FillList};
use crate::print::{average_lines, fill_words, leg_words};
use crate::strategy::{Leg, Strategy};
use crate::tape::{Header, Misfit, Record, Tape};
use crate::Refusal;
use std::io::{BufRead, ErrorKind, Write};

/// The answer to input that ends inside the header, the legs or a record.
const INCOMPLETE: &str = "incomplete\n";

/// The session of a tape as [`live`] reads it: header, legs and records, without gaps.
pub fn live_input(bytes: &[u8]) -> Result<Vec<u8>, Misfit> {
    let tape = Tape::lay_out(bytes)?;
    Ok([tape.header_bytes(), tape.leg_bytes(), tape.record_bytes()].concat())
}

/// Answers the opening, and then each record until the input ends. The header's offsets and its
/// message count are not used. A stream that fails is told of.
pub fn live(mut input: impl BufRead, mut output: impl Write) -> Result<(), String> {
    let Some(opening) = open(&mut input)? else {
        return say(&mut output, INCOMPLETE);
    };
    let mut engine = match opening {
        Ok(engine) => engine,
        Err(number) => return say(&mut output, &refused_line(number)),
    };
    say(&mut output, "opened\n")?;
    let mut fills = vec![Fill::BLANK; FillList::LEAST_PLACES];
    loop {
        match next::<{ Record::BYTES }>(&mut input)? {
            Next::Whole(bytes) => {
                let text = answer(&mut engine, &Record::read(&bytes), &mut fills);
                say(&mut output, &text)?;
            }
            Next::CutOff => return say(&mut output, INCOMPLETE),
            Next::End => return Ok(()),
        }
    }
}

/// The engine, or the opening's refusal; `None` if the header or the legs are cut off.
fn open(input: &mut impl BufRead) -> Result<Option<Result<Engine, Refusal>>, String> {
    let Next::Whole(bytes) = next::<{ Header::BYTES }>(input)? else {
        return Ok(None);
    };
    let header = Header::read(&bytes);
    let mut legs = Vec::new();
    for _ in 0..header.leg_count {
        let Next::Whole(bytes) = next::<{ Leg::BYTES }>(input)? else {
            return Ok(None);
        };
        // One leg too many is enough to be refused with 1.
        if legs.len() <= Strategy::MOST_LEGS {
            legs.push(Leg::read(&bytes));
        }
    }
    Ok(Some(Engine::open(&legs, &header.settings)))
}

/// What the input has next.
enum Next<const N: usize> {
    Whole([u8; N]),
    CutOff,
    End,
}

/// The next so many bytes, in however many pieces they come.
fn next<const N: usize>(input: &mut impl BufRead) -> Result<Next<N>, String> {
    let mut bytes = [0; N];
    let mut count = 0;
    while count < N {
        match input.read(&mut bytes[count..]) {
            Ok(0) if count == 0 => return Ok(Next::End),
            Ok(0) => return Ok(Next::CutOff),
            Ok(more) => count += more,
            Err(error) if error.kind() == ErrorKind::Interrupted => {}
            Err(error) => return Err(format!("cannot read standard input: {error}")),
        }
    }
    Ok(Next::Whole(bytes))
}

/// The lines that answer a record. One of no kind is passed over: it takes no number.
fn answer(engine: &mut Engine, record: &Record, fills: &mut [Fill]) -> String {
    let Some(message) = record.message() else {
        return refused_line(61);
    };
    let outcome = engine.apply(&message, fills);
    let fills = &fills[..outcome.fill_count()];
    let lines: String = fills.iter().map(fill_lines).collect();
    outcome_line(&outcome) + &lines + &average_lines(fills)
}

/// A fill as tapeprint has it, and its leg prices.
fn fill_lines(fill: &Fill) -> String {
    format!("{}\nlegs {}\n", fill_words(fill), leg_words(fill))
}

fn refused_line(number: Refusal) -> String {
    format!("refused {number}\n")
}

/// An outcome and its numbers.
fn outcome_line(outcome: &Outcome) -> String {
    match outcome {
        Outcome::Noted { fills } => format!("noted {fills}\n"),
        Outcome::Placed { units, fills } => format!("placed {units} {fills}\n"),
        Outcome::Begun { deadline } => format!("begun {deadline}\n"),
        Outcome::Joined { queue_units } => format!("joined {queue_units}\n"),
        Outcome::Ended { cause, fills } => format!("ended {} {fills}\n", cause.word()),
        Outcome::Refused { number } => refused_line(*number),
    }
}

/// Writes an answer, and sees that it goes out.
fn say(output: &mut impl Write, text: &str) -> Result<(), String> {
    output
        .write_all(text.as_bytes())
        .and_then(|()| output.flush())
        .map_err(|error| format!("cannot write standard output: {error}"))
}
