//! The library's form of a tape against the second program's, on random tapes of every profile, whole and damaged.

mod tapes;

use second::form::write_form;
use second::gen::PROFILES;
use second::tape::{Header, Record, Tape};
use std::collections::BTreeSet;
use tumghavi::Refusal;

/// What stands in a buffer before a form is written.
const MARK: u8 = 165;

/// The second program's form, or the number that it gives.
fn expected(tape: &[u8]) -> Result<Vec<u8>, u32> {
    second::form::form(tape).map_err(u32::from)
}

/// The library's reply for a buffer of so many bytes, and the whole buffer behind it.
fn formed(tape: &[u8], room: usize) -> (Result<usize, u32>, Vec<u8>) {
    let mut out = vec![MARK; room];
    let reply = tumghavi::form(tape, &mut out).map_err(Refusal::number);
    (reply, out)
}

/// What must come of a buffer of so many bytes: 60 and 61 come before 70, and under each of the three every byte stays.
fn must(expected: &Result<Vec<u8>, u32>, room: usize) -> (Result<usize, u32>, Vec<u8>) {
    let mut out = vec![MARK; room];
    let reply = match expected {
        Err(number) => Err(*number),
        Ok(form) if room < form.len() => Err(70),
        Ok(form) => {
            out[..form.len()].copy_from_slice(form);
            Ok(form.len())
        }
    };
    (reply, out)
}

/// The number of a tape, 0 if it has a form; in buffers too short, just long enough, and longer, all is as it must be.
fn agree(tape: &[u8], what: &str) -> u32 {
    let expected = expected(tape);
    let size = expected.as_ref().map_or(0, Vec::len);
    let rooms = [0, 1, 39, 40, size.saturating_sub(1), size, size + 1, size + 100, tape.len(), Tape::MOST_BYTES];
    for room in BTreeSet::from(rooms) {
        let reply = formed(tape, room);
        assert!(reply == must(&expected, room), "{what}, {room} bytes: {:?}", reply.0);
        let mut out = vec![MARK; room];
        let plain = write_form(tape, &mut out).map_err(u32::from);
        assert!(reply == (plain, out), "{what}, {room} bytes: {:?} and {plain:?}", reply.0);
    }
    match &expected {
        Ok(form) => {
            assert!(form.len() <= tape.len(), "{what}");
            assert!(formed(form, form.len()) == (Ok(form.len()), form.clone()), "{what}: the form of a form");
            0
        }
        Err(number) => *number,
    }
}

#[test]
fn whole_tapes() {
    let mut numbers: Vec<u32> = tapes::whole().map(|(what, tape)| agree(&tape, &what)).collect();
    numbers.sort();
    numbers.dedup();
    assert_eq!(numbers, [0, 60, 61]);
}

/// The profile for this: more seeds of it, and not all are forms yet.
#[test]
fn other_spellings() {
    let profile = PROFILES.iter().find(|profile| profile.name == "spelling").expect("a profile of the list");
    let mut changed = 0;
    for seed in 1..=400 {
        let tape = profile.tape(seed);
        agree(&tape, &format!("spelling {seed}"));
        changed += usize::from(expected(&tape).is_ok_and(|form| form != tape));
    }
    assert!(changed > 200, "{changed}");
}

#[test]
fn damaged_tapes() {
    for (what, tape) in tapes::damaged() {
        agree(&tape, &what);
    }
}

/// A tape of no legs and these message records, behind a gap of so many bytes.
fn tape_of(records: &[[u8; Record::BYTES]], gap: usize) -> Vec<u8> {
    let start = Header::BYTES + gap;
    let mut tape = vec![0; start];
    Header::set(&mut tape, Header::MESSAGE_COUNT, records.len() as u16);
    Header::set(&mut tape, Header::MESSAGE_OFFSET, start as u16);
    tape.extend(records.as_flattened());
    tape
}

/// A record of a kind with the same byte everywhere behind it.
fn record_of(kind: u8, byte: u8) -> [u8; Record::BYTES] {
    let mut record = [byte; Record::BYTES];
    record[0] = kind;
    record
}

/// Each value of the first byte, with the least, the greatest and other values behind it: eight kinds have a form.
#[test]
fn every_kind() {
    let has_form = |kind: &u8| {
        let records = [0, 1, 2, 128, 254, 255].map(|byte| record_of(*kind, byte));
        agree(&tape_of(&records, 3), &format!("kind {kind}")) == 0
    };
    assert_eq!((0..=255).filter(has_form).collect::<Vec<u8>>(), [1, 2, 3, 4, 5, 6, 7, 8]);
}

/// Each byte of a record by itself, in each kind.
#[test]
fn every_field() {
    for kind in 1..=8 {
        for at in 1..Record::BYTES {
            for byte in [1, 255] {
                let mut record = record_of(kind, 0);
                record[at] = byte;
                assert_eq!(agree(&tape_of(&[record], 1), &format!("kind {kind}, byte {at}")), 0);
            }
        }
    }
}

/// The least and the most bytes; sections that are empty, and as long as a tape has room for.
#[test]
fn ends() {
    assert_eq!(agree(&[], "no bytes"), 60);
    assert_eq!(agree(&[0; 39], "39 bytes"), 60);
    assert_eq!(agree(&[0; 40], "40 bytes"), 0);
    assert_eq!(agree(&[0; 65_535], "65,535 bytes"), 0);
    assert_eq!(agree(&[0; 65_536], "65,536 bytes"), 60);
    let mut records = vec![record_of(1, 9); 1_819];
    assert_eq!(agree(&tape_of(&records, 11), "1,819 messages"), 0);
    records[1_818][0] = 0;
    assert_eq!(agree(&tape_of(&records, 11), "1,819 messages, the last of no kind"), 61);
    let mut legs = vec![9; Tape::MOST_BYTES];
    legs[..8].copy_from_slice(&[0xA8, 0x0A, 63, 0, 0, 0, 255, 255]);
    assert_eq!(agree(&legs, "2,728 legs"), 0);
    legs[2] += 1;
    assert_eq!(agree(&legs, "2,728 legs, one byte too far"), 60);
}
