//! The profiles that stress the tape's layout.

use super::random::Random;
use super::script::{some_legs, Plan, Script};
use super::sessions::{noisy, session, spoil_kind, spoil_opening};
use crate::strategy::Cents;
use crate::tape::{Field, Header, Kind, Record, Tape};
use std::ops::Range;

/// A short session's tape.
fn short_tape(random: &mut Random) -> Vec<u8> {
    let plan = Plan::usual(random);
    let times = 1 + random.below(8);
    session(random, plan, times, Script::anything).tape()
}

/// A short session whose sections have at least one message.
fn short_tape_with_messages(random: &mut Random) -> Vec<u8> {
    loop {
        let tape = short_tape(random);
        if tape[4] != 0 {
            return tape;
        }
    }
}

pub fn overlap(random: &mut Random) -> Vec<u8> {
    let mut tape = short_tape_with_messages(random);
    let legs_end = Header::read(&tape).message_offset;
    // Room enough that nothing runs past the end.
    tape.resize(tape.len() + 60, 0);
    match random.below(4) {
        0 => Header::set(&mut tape, Header::LEG_OFFSET, random.below(40) as u16),
        1 => Header::set(&mut tape, Header::MESSAGE_OFFSET, random.below(40) as u16),
        2 => Header::set(
            &mut tape,
            Header::MESSAGE_OFFSET,
            41 + random.below(u64::from(legs_end) - 41) as u16,
        ),
        _ => {
            // One shared byte, or none: the legs moved towards the messages.
            let shift = random.below(3) as u16;
            Header::set(&mut tape, Header::LEG_OFFSET, 40 + shift);
        }
    }
    tape
}

pub fn truncate(random: &mut Random) -> Vec<u8> {
    let mut tape = short_tape_with_messages(random);
    cut(&mut tape, random);
    tape
}

/// Takes something off the end of a tape.
fn cut(tape: &mut Vec<u8>, random: &mut Random) {
    let length = match random.below(3) {
        0 => tape.len() - 1,
        1 => random.below(41) as usize,
        _ => random.below(tape.len() as u64) as usize,
    };
    tape.truncate(length);
}

pub fn size(random: &mut Random) -> Vec<u8> {
    let mut tape = match random.below(3) {
        0 => vec![0; Header::BYTES],
        _ => short_tape(random),
    };
    let length = match random.below(8) {
        0 => random.below(40) as usize,
        1 => Header::BYTES,
        2 => Tape::MOST_BYTES,
        3 => Tape::MOST_BYTES + 1,
        4 => Tape::MOST_BYTES + random.below(300) as usize,
        5 => tape.len() + random.below(100) as usize,
        6 => tape.len(),
        _ => Tape::MOST_BYTES - random.below(3) as usize,
    };
    tape.resize(length, random.number() as u8);
    if random.once_in(4) && tape.len() > Header::BYTES {
        let count = random.pick(&[u16::MAX, 1_820, 1_819, 1_000]);
        Header::set(&mut tape, Header::MESSAGE_COUNT, count);
    }
    tape
}

pub fn layout(random: &mut Random) -> Vec<u8> {
    let plan = Plan::usual(random);
    let times = random.below(25);
    let script = session(random, plan, times, Script::anything);
    loose_tape(script, 50, random)
}

/// Anything that a tape with a written form may be, and now and then a tape that is refused.
pub fn spelling(random: &mut Random) -> Vec<u8> {
    let plan = Plan::usual(random);
    let times = random.below(25);
    let mut script = session(random, plan, times, noisy);
    for record in &mut script.records {
        if random.once_in(3) {
            spoil_used(record, random);
        }
    }
    match random.below(6) {
        0 => spoil_opening(&mut script),
        1 => script.legs.clear(),
        2 => {
            let count = random.within(5..=9);
            script.legs = some_legs(random, count);
        }
        _ => {}
    }
    if random.once_in(4) {
        script.records.clear();
    } else if random.once_in(8) && !script.records.is_empty() {
        spoil_kind(&mut script);
    }
    // Three great gaps may be more than a tape holds.
    let end_of_gaps = random.pick(&[50, 50, 50, 50, 60_000]);
    let mut tape = loose_tape(script, end_of_gaps, random);
    let header = Header::read(&tape);
    let (no_legs, no_messages) = (header.legs().is_empty(), header.messages().is_empty());
    if no_legs || random.once_in(32) {
        let offset = stray_offset(header.messages(), tape.len(), random);
        Header::set(&mut tape, Header::LEG_OFFSET, offset);
    }
    if no_messages || random.once_in(32) {
        let offset = stray_offset(header.legs(), tape.len(), random);
        Header::set(&mut tape, Header::MESSAGE_OFFSET, offset);
    }
    if random.once_in(16) {
        cut(&mut tape, random);
    }
    tape
}

/// An offset at which an empty section may stand, and no other: in the header, in the other
/// section, or at the end and past it.
fn stray_offset(other: Range<usize>, length: usize, random: &mut Random) -> u16 {
    let places = match random.below(3) {
        0 => 0..Header::BYTES,
        1 if !other.is_empty() => other,
        _ => length.min(Tape::MOST_BYTES)..Tape::MOST_BYTES + 1,
    };
    (places.start + random.below(places.len() as u64) as usize) as u16
}

/// Puts a random byte into a field that the record's kind uses.
fn spoil_used(record: &mut Record, random: &mut Random) {
    let Some(kind) = Kind::of_number(record.kind) else {
        return;
    };
    let field = random.pick(kind.fields);
    let mut bytes = Vec::with_capacity(Record::BYTES);
    record.write(&mut bytes);
    bytes[field.place() + random.below(field.bytes() as u64) as usize] = random.number() as u8;
    *record = Record::read(&bytes);
}

/// A session's tape with sections moved, gaps between them, and other bytes where none is used.
fn loose_tape(script: Script, end_of_gaps: u64, random: &mut Random) -> Vec<u8> {
    let (settings, legs, mut records) = (script.plan.settings, script.legs, script.records);
    records
        .iter_mut()
        .for_each(|record| fill_unused(record, random));
    let mut leg_bytes = Vec::new();
    legs.iter().for_each(|leg| leg.write(&mut leg_bytes));
    let mut message_bytes = Vec::new();
    records.iter().for_each(|r| r.write(&mut message_bytes));
    let gaps: [usize; 3] = [0; 3].map(|_: usize| {
        if random.once_in(2) {
            0
        } else {
            random.below(end_of_gaps) as usize
        }
    });
    let legs_first = random.once_in(2);
    let first_at = Header::BYTES + gaps[0];
    let first_length = if legs_first {
        leg_bytes.len()
    } else {
        message_bytes.len()
    };
    let second_at = first_at + first_length + gaps[1];
    let (leg_at, message_at) = if legs_first {
        (first_at, second_at)
    } else {
        (second_at, first_at)
    };
    let length = Header::BYTES + leg_bytes.len() + message_bytes.len() + gaps.iter().sum::<usize>();
    let header = Header {
        leg_count: legs.len() as u16,
        leg_offset: leg_at as u16,
        message_count: records.len() as u16,
        // An empty section may stand anywhere.
        message_offset: if records.is_empty() {
            random.number() as u16
        } else {
            message_at as u16
        },
        settings,
    };
    let mut tape = Vec::with_capacity(length);
    header.write(&mut tape);
    while tape.len() < length {
        tape.push(random.number() as u8);
    }
    tape[leg_at..leg_at + leg_bytes.len()].copy_from_slice(&leg_bytes);
    tape[message_at..message_at + message_bytes.len()].copy_from_slice(&message_bytes);
    tape
}

/// Puts random bytes into the fields that the record's kind does not use, and makes a yes any yes.
fn fill_unused(record: &mut Record, random: &mut Random) {
    let Some(kind) = Kind::of_number(record.kind) else {
        return;
    };
    let unused = |fields: &[Field]| !fields.iter().any(|field| kind.fields.contains(field));
    if unused(&[Field::Side]) {
        record.side = random.number() as u8;
    }
    if unused(&[Field::Account]) {
        record.account = random.number() as u8;
    }
    if unused(&[Field::Wish, Field::Leg]) {
        record.wish_or_leg = random.number() as u8;
    }
    if kind.fields.contains(&Field::Wish) && record.wish_or_leg != 0 {
        record.wish_or_leg = random.up_to(255) as u8;
    }
    if unused(&[Field::Id]) {
        record.id = random.number() as u32;
    }
    if unused(&[Field::Participant]) {
        record.participant = random.number() as u32;
    }
    if unused(&[Field::Units, Field::BidSize]) {
        record.units = random.number() as u32;
    }
    if unused(&[Field::Price, Field::Bid]) {
        record.price = random.number() as Cents;
    }
    if unused(&[Field::Ask]) {
        record.ask = random.number() as Cents;
    }
    if unused(&[Field::AskSize]) {
        record.ask_size = random.number() as u32;
    }
}
