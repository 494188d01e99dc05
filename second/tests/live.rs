//! Live sessions: the answers' lines, input in pieces, input cut off, and many messages.

mod common;

use common::*;
use second::gen::{gen, PROFILES};
use second::live::{live, live_input};
use second::print::tapeprint;
use second::strategy::Leg;
use second::tape::{Header, Misfit, Record, Tape};
use std::io::{self, BufReader, ErrorKind, Read, Write};

/// What `live` answers to some input.
fn answers(input: &[u8]) -> String {
    let mut output = Vec::new();
    live(input, &mut output).unwrap();
    String::from_utf8(output).unwrap()
}

/// A record of no kind.
fn no_kind(kind: u8) -> Record {
    Record { kind, ..clock(0) }
}

/// A session with each outcome and cause, and messages of no kind.
fn every_outcome() -> (Vec<Record>, Vec<&'static str>) {
    let told = [
        (local(0, 220, 10, 240, 10), "noted 0"),
        (no_kind(0), "refused 61"),
        (local(1, 110, 10, 125, 10), "noted 0"),
        (no_kind(9), "refused 61"),
        (national(0, 220, 240), "noted 0"),
        (buy(1, 2, 90), "placed 2 0"),
        (buy(2, 5, 130).wish().at(1_000), "begun 1500"),
        (buy(3, 7, 120).wish().at(1_000), "joined 12"),
        (sell(4, 3, 118).response().at(1_001), "noted 0"),
        (sell(4, 3, 119).modify().at(1_001), "noted 0"),
        (cancel(9).at(1_001), "refused 50"),
        // The ninth that is accepted: no record that is turned back takes a number.
        (
            clock(1_500),
            "ended time 2\n9 2 C 4 119 3\nlegs 229 110\n9 2 L 0 130 2\nlegs 240 110\n\
             average 2 123 2",
        ),
        (buy(5, 5, 125).wish().at(1_600), "begun 2100"),
        (sell(8, 2, 125).non_customer().at(1_600), "placed 2 0"),
        (
            buy(6, 1, 126).at(1_600),
            "ended order 1\n12 5 N 8 125 2\nlegs 235 110\naverage 5 125 0",
        ),
        (buy(7, 2, 128).wish().at(1_700), "begun 2200"),
        (sell(10, 1, 128).at(1_700), "placed 1 0"),
        (
            local(0, 300, 4, 310, 4).at(1_800),
            "ended legs 1\n15 7 C 10 128 1\nlegs none\naverage 7 128 0",
        ),
        (
            sell(11, 6, 100).at(1_800),
            "placed 0 3\n16 11 L 0 175 4\nlegs 300 125\n16 11 R 7 128 1\nlegs none\n\
             16 11 R 6 126 1\nlegs none\naverage 11 159 0",
        ),
        (cancel(1).at(1_800), "noted 0"),
        (buy(12, 4, 190).wish().at(1_900), "begun 2400"),
        (reduce(12, 3).at(1_900), "noted 0"),
        (reduce(12, 3).at(1_900), "refused 71"),
        (sell(13, 2, 125).at(1_900), "placed 2 0"),
        (sell(14, 1, 150).response().at(1_900), "noted 0"),
        (
            cancel(12).at(1_900),
            "ended cancel 1\n22 13 R 5 125 2\nlegs none\naverage 13 125 0",
        ),
    ];
    told.into_iter().unzip()
}

fn text(lines: &[&str]) -> String {
    lines.iter().map(|line| format!("{line}\n")).collect()
}

#[test]
fn each_outcome_has_its_lines() {
    let (messages, lines) = every_outcome();
    let expected = String::from("opened\n") + &text(&lines);
    assert_eq!(answers(&spread().tape(&messages)), expected);
}

#[test]
fn the_own_case_is_answered() {
    let messages = [
        local(0, 220, 10, 240, 10),
        local(1, 110, 10, 120, 10),
        buy(7, 10, 100),
        sell(8, 15, 100).of(2),
        cancel(9),
    ];
    let expected = [
        "opened",
        "noted 0",
        "noted 0",
        "placed 10 0",
        "placed 0 2",
        "4 8 L 0 100 10",
        "legs 220 120",
        "4 8 R 7 100 5",
        "legs none",
        "average 8 100 0",
        "refused 50",
    ];
    assert_eq!(answers(&spread().tape(&messages)), text(&expected));
}

#[test]
fn a_message_may_have_many_fills() {
    // A hundred units, one each from twenty orders at twenty prices, and the rest stays open.
    let sells: Vec<Record> = (1..=20).map(|id| sell(id, 1, 100 + id as i32)).collect();
    let answers = answers(&spread().tape(&all(&[&sells, &[buy(99, 100, 130)]])));
    let lines: Vec<&str> = answers.lines().collect();
    assert_eq!(lines.len(), 1 + 20 + 1 + 20 * 2 + 1);
    assert_eq!(lines[21], "placed 80 20");
    assert_eq!(lines[22..24], ["21 99 R 1 101 1", "legs none"]);
    assert_eq!(lines[60..62], ["21 99 R 20 120 1", "legs none"]);
    // A sum of 2,210 over 20 units.
    assert_eq!(lines[62], "average 99 110 10");
}

// The opening.

/// A header for some legs, and the legs; offsets and message count are anything.
fn opening(session: &Session) -> Vec<u8> {
    let header = Header {
        leg_count: session.legs.len() as u16,
        leg_offset: 7,
        message_count: 65_535,
        message_offset: 1,
        settings: session.settings,
    };
    let mut bytes = Vec::new();
    header.write(&mut bytes);
    session.legs.iter().for_each(|leg| leg.write(&mut bytes));
    bytes
}

#[test]
fn offsets_and_message_count_are_not_used() {
    let (messages, _) = every_outcome();
    let tape = spread().tape(&messages);
    let mut input = opening(&spread());
    assert_eq!(answers(&input), "opened\n");
    let at = input.len();
    input.extend(&tape[at..]);
    assert_eq!(answers(&input), answers(&tape));
}

#[test]
fn a_refused_opening_is_the_only_answer() {
    let [first, second] = [0, 1].map(|at| spread().legs[at]);
    let changed = |change: fn(&mut Leg)| {
        let mut leg = second;
        change(&mut leg);
        spread().legs(&[first, leg])
    };
    let openings = [
        (1, spread().legs(&[])),
        (1, spread().legs(&[first])),
        (1, spread().legs(&[first; 5])),
        (2, changed(|leg| leg.symbol[0] = b'x')),
        (3, changed(|leg| leg.symbol[11] = b'7')),
        (4, changed(|leg| leg.symbol[0] = b'A')),
        (5, changed(|leg| leg.ratio = 4)),
        (6, changed(|leg| leg.mpv = 2)),
        (7, spread().set(|settings| settings.interval = 0)),
    ];
    for (number, session) in openings {
        let expected = format!("refused {number}\n");
        let mut input = opening(&session);
        assert_eq!(answers(&input), expected);
        // Nothing after it is looked at, whole or not.
        input.extend([7; Record::BYTES + 1]);
        assert_eq!(answers(&input), expected);
    }
}

/// Legs up to the most that a header can say are passed over; a cut among them is seen.
#[test]
fn too_many_legs_are_read_and_refused() {
    for count in [5, 6, 1_000, 65_535] {
        let session = spread().legs(&vec![spread().legs[0]; count]);
        let mut input = opening(&session);
        assert_eq!(answers(&input), "refused 1\n");
        input.pop();
        assert_eq!(answers(&input), "incomplete\n");
        input.truncate(Header::BYTES + Leg::BYTES * (count - 1));
        assert_eq!(answers(&input), "incomplete\n");
    }
}

// Cut off, and in pieces.

#[test]
fn input_may_be_cut_off_anywhere() {
    let (messages, lines) = every_outcome();
    let tape = spread().tape(&messages);
    let records = Header::BYTES + 2 * Leg::BYTES;
    for length in 0..=tape.len() {
        let mut expected = String::new();
        if length >= records {
            expected += "opened\n";
            expected += &text(&lines[..(length - records) / Record::BYTES]);
        }
        if length < records || !(length - records).is_multiple_of(Record::BYTES) {
            expected += "incomplete\n";
        }
        assert_eq!(answers(&tape[..length]), expected, "{length} bytes");
    }
}

/// Gives its bytes in pieces, and is interrupted before each.
struct Pieces<'a> {
    bytes: &'a [u8],
    piece: usize,
    interrupted: bool,
}

impl Read for Pieces<'_> {
    fn read(&mut self, into: &mut [u8]) -> io::Result<usize> {
        self.interrupted = !self.interrupted;
        if self.interrupted {
            return Err(ErrorKind::Interrupted.into());
        }
        let count = self.piece.min(self.bytes.len()).min(into.len());
        let (now, later) = self.bytes.split_at(count);
        into[..count].copy_from_slice(now);
        self.bytes = later;
        Ok(count)
    }
}

#[test]
fn input_may_come_in_pieces() {
    let (messages, _) = every_outcome();
    let tape = spread().tape(&messages);
    for piece in [1, 2, 3, 7, 35, 36, 37, 40, 41, 1_000] {
        for buffer in [1, 5, 36, 50, 8_192] {
            for length in [tape.len(), tape.len() - 1, 50] {
                let bytes = &tape[..length];
                let pieces = Pieces {
                    bytes,
                    piece,
                    interrupted: false,
                };
                let mut output = Vec::new();
                live(BufReader::with_capacity(buffer, pieces), &mut output).unwrap();
                assert_eq!(String::from_utf8(output).unwrap(), answers(bytes));
            }
        }
    }
}

// The same session on a tape.

/// What tapeprint prints of the session, but for its title and its last line.
fn printed(answers: &str) -> Vec<String> {
    let mut lines = Vec::new();
    let mut position = 0;
    for line in answers.lines().skip(1) {
        let fill = line.starts_with(|c: char| c.is_ascii_digit());
        match line.strip_prefix("refused ") {
            _ if line.starts_with("legs ") => {}
            _ if fill || line.starts_with("average ") => lines.push(line.to_string()),
            Some(number) => {
                position += 1;
                lines.push(format!("refused {position} {number}"));
            }
            None => position += 1,
        }
    }
    lines
}

#[test]
fn a_tape_is_answered_as_it_prints() {
    let mut compared = 0;
    for profile in &PROFILES {
        for seed in 0..15 {
            let tape = gen(profile.name, seed).unwrap();
            let print = tapeprint(&tape);
            let Ok(input) = live_input(&tape) else {
                assert_eq!(print, "refused 0 60\n");
                continue;
            };
            let answers = answers(&input);
            let print: Vec<&str> = print.lines().collect();
            match print[0].strip_prefix("refused 0 ") {
                // A tape with a message of no kind is refused as a whole, its session is not.
                Some("61") => assert!(answers.contains("refused ")),
                Some(number) => assert_eq!(answers, format!("refused {number}\n")),
                None => {
                    let what = format!("{} {seed}", profile.name);
                    assert!(answers.starts_with("opened\n"), "{what}");
                    assert_eq!(printed(&answers), print[1..print.len() - 1], "{what}");
                    compared += 1;
                }
            }
        }
    }
    assert!(compared >= 200, "{compared}");
}

#[test]
fn fill_counts_are_those_of_the_lines() {
    for profile in &PROFILES {
        for seed in 0..5 {
            let Ok(input) = live_input(&gen(profile.name, seed).unwrap()) else {
                continue;
            };
            let answers = answers(&input);
            let mut lines = answers.lines().skip(1).peekable();
            while let Some(line) = lines.next() {
                let words: Vec<&str> = line.split(' ').collect();
                let said = match words[..] {
                    ["noted", fills] | ["placed", _, fills] | ["ended", _, fills] => fills,
                    ["begun" | "joined" | "refused", _] => "0",
                    _ => panic!("{} {seed}: {line}", profile.name),
                };
                let mut count = 0;
                while lines.next_if(|l| l.split(' ').count() == 6).is_some() {
                    assert!(lines.next().is_some_and(|l| l.starts_with("legs ")));
                    count += 1;
                }
                assert_eq!(said, count.to_string(), "{} {seed}", profile.name);
                while lines.next_if(|l| l.starts_with("average ")).is_some() {}
            }
        }
    }
}

#[test]
fn live_input_is_header_legs_and_records() {
    for seed in 0..30 {
        let bytes = gen("layout", seed).unwrap();
        let tape = Tape::lay_out(&bytes).unwrap();
        let mut expected = Vec::new();
        tape.header.write(&mut expected);
        tape.legs().for_each(|leg| leg.write(&mut expected));
        tape.records()
            .for_each(|record| record.write(&mut expected));
        assert_eq!(live_input(&bytes).unwrap(), expected);
    }
    let plain = gen("book", 1).unwrap();
    assert_eq!(live_input(&plain).unwrap(), plain);
    assert_eq!(live_input(&plain[..39]), Err(Misfit::TooShort));
    assert_eq!(live_input(&plain[..41]), Err(Misfit::LegsPastEnd));
}

// Streams that never end, and streams that fail.

/// An opening, and then one message again and again.
struct Endless<'a> {
    opening: &'a [u8],
    message: &'a [u8],
    times: u64,
}

impl Read for Endless<'_> {
    fn read(&mut self, into: &mut [u8]) -> io::Result<usize> {
        if !self.opening.is_empty() {
            return self.opening.read(into);
        }
        if self.times == 0 {
            return Ok(0);
        }
        self.times -= 1;
        into[..self.message.len()].copy_from_slice(self.message);
        Ok(self.message.len())
    }
}

/// Counts the lines, and the times it was told to let them go.
#[derive(Default)]
struct Counts {
    lines: u64,
    flushes: u64,
}

impl Write for Counts {
    fn write(&mut self, bytes: &[u8]) -> io::Result<usize> {
        self.lines += bytes.iter().filter(|&&byte| byte == b'\n').count() as u64;
        Ok(bytes.len())
    }

    fn flush(&mut self) -> io::Result<()> {
        self.flushes += 1;
        Ok(())
    }
}

#[test]
fn there_may_be_more_messages_than_a_tape_holds() {
    let times = 300_000;
    let mut message = Vec::new();
    local(0, 220, 10, 240, 10).write(&mut message);
    let input = Endless {
        opening: &opening(&spread()),
        message: &message,
        times,
    };
    let mut counts = Counts::default();
    live(BufReader::new(input), &mut counts).unwrap();
    assert_eq!(counts.lines, 1 + times);
    assert_eq!(counts.flushes, 1 + times);
}

struct Broken;

impl Read for Broken {
    fn read(&mut self, _: &mut [u8]) -> io::Result<usize> {
        Err(ErrorKind::ConnectionReset.into())
    }
}

impl Write for Broken {
    fn write(&mut self, _: &[u8]) -> io::Result<usize> {
        Err(ErrorKind::BrokenPipe.into())
    }

    fn flush(&mut self) -> io::Result<()> {
        Ok(())
    }
}

#[test]
fn a_stream_that_fails_is_told_of() {
    let tape = spread().tape(&market());
    let mut output = Vec::new();
    let input = tape[..150].chain(Broken);
    let error = live(BufReader::new(input), &mut output).unwrap_err();
    assert!(error.contains("cannot read standard input"), "{error}");
    assert_eq!(output, b"opened\nnoted 0\n");
    let error = live(&tape[..], Broken).unwrap_err();
    assert!(error.contains("cannot write standard output"), "{error}");
}
