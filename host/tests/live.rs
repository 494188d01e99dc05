//! The program live against the second program's, over pipes: bursts, pieces, input that is cut off, and how often it calls the system.

use second::gen::{gen, PROFILES};
use second::live::{live, live_input};
use second::strategy::{Leg, Settings};
use second::tape::{Header, Record};
use std::fs::{self, File};
use std::io::{self, Read, Write};
use std::path::{Path, PathBuf};
use std::process::{Child, ChildStdin, Command, Stdio};
use std::sync::mpsc::{channel, Receiver};
use std::thread;
use std::time::{Duration, Instant};

/// The proved program, which `./build live` builds.
const LIVE: &str = concat!(env!("CARGO_MANIFEST_DIR"), "/../target/bin/live");

/// How long an answer is waited for.
const WAIT: Duration = Duration::from_secs(20);

const INTERVAL: u64 = 1_000;

const LEGS: [Leg; 2] = [
    Leg { symbol: *b"XYZ   260116C00020000", side: b'B', ratio: 1, mpv: 5 },
    Leg { symbol: *b"XYZ   260116C00025000", side: b'S', ratio: 1, mpv: 5 },
];

// ---- sessions

/// A header and legs, right behind each other.
fn head(legs: &[Leg]) -> Vec<u8> {
    let settings = Settings {
        interval: INTERVAL as u16,
        distance: 10,
        most_legs: 4,
        amounts: [10, 15, 30],
        minimum: 1,
        first_number: 1,
        opening_time: 1,
    };
    let header = Header { leg_count: legs.len() as u16, leg_offset: 0, message_count: 0, message_offset: 0, settings };
    let mut bytes = Vec::new();
    header.write(&mut bytes);
    legs.iter().for_each(|leg| leg.write(&mut bytes));
    bytes
}

/// A quote of a leg: the legs trade at 100 and 130.
fn quote(leg: u8, bid: i32, ask: i32) -> Record {
    Record { kind: 1, wish_or_leg: leg, units: 50, price: bid, ask, ask_size: 50, time: 1, ..Record::default() }
}

/// An auction of 32 buyers that share 32 responses: 65 records, the last of which has a thousand fills.
fn auction(begins: u64) -> Vec<Record> {
    let entry = |kind, id, side, price| Record {
        kind,
        side,
        account: 1,
        wish_or_leg: 1,
        id,
        participant: 1,
        units: 32,
        price,
        time: begins,
        ..Record::default()
    };
    let buyers = (1..=32).map(|id| entry(3, id, b'B', 125));
    let responses = (101..=132).map(|id| entry(4, id, b'S', 120));
    let clock = Record { kind: 7, time: begins + INTERVAL, ..Record::default() };
    buyers.chain(responses).chain([clock]).collect()
}

/// Records of so many auctions, with one of no kind before each.
fn auctions(count: u64) -> Vec<u8> {
    let mut records = vec![quote(0, 220, 240), quote(1, 110, 120)];
    for k in 0..count {
        records.push(Record::default());
        records.extend(auction(1 + k * INTERVAL));
    }
    let mut bytes = Vec::new();
    records.iter().for_each(|record| record.write(&mut bytes));
    bytes
}

/// A profile's session as live reads it.
fn session(profile: &str, seed: u64) -> Vec<u8> {
    let tape = gen(profile, seed).expect("a profile of the list");
    live_input(&tape).unwrap_or(tape)
}

// ---- what the second program says

/// The second program's answers, each as it goes out.
#[derive(Default)]
struct Answers {
    all: Vec<Vec<u8>>,
    next: Vec<u8>,
}

impl Write for Answers {
    fn write(&mut self, bytes: &[u8]) -> io::Result<usize> {
        self.next.extend(bytes);
        Ok(bytes.len())
    }

    fn flush(&mut self) -> io::Result<()> {
        self.all.push(std::mem::take(&mut self.next));
        Ok(())
    }
}

fn answers(input: &[u8]) -> Vec<Vec<u8>> {
    let mut answers = Answers::default();
    live(input, &mut answers).expect("a slice does not fail");
    answers.all
}

// ---- the proved program

/// A running copy, whose output comes through a channel as it is written.
struct Copy {
    child: Child,
    input: ChildStdin,
    output: Receiver<Vec<u8>>,
}

impl Copy {
    fn start() -> Copy {
        let mut command = Command::new(LIVE);
        let mut child = command
            .stdin(Stdio::piped())
            .stdout(Stdio::piped())
            .spawn()
            .expect("`./build live` builds target/bin/live");
        let input = child.stdin.take().expect("it is piped");
        let mut from = child.stdout.take().expect("it is piped");
        let (to, output) = channel();
        thread::spawn(move || {
            let mut bytes = vec![0; 1 << 16];
            while let Ok(count @ 1..) = from.read(&mut bytes) {
                if to.send(bytes[..count].to_vec()).is_err() {
                    break;
                }
            }
        });
        Copy { child, input, output }
    }

    fn send(&mut self, bytes: &[u8]) {
        self.input.write_all(bytes).and_then(|()| self.input.flush()).expect("the copy reads");
    }

    /// What is answered, of which so many bytes must come now.
    fn hear(&self, count: usize) -> Vec<u8> {
        let start = Instant::now();
        let mut heard = Vec::new();
        while heard.len() < count {
            let left = WAIT.saturating_sub(start.elapsed());
            heard.extend(self.output.recv_timeout(left).expect("an answer before the next record is sent"));
        }
        heard
    }

    /// What is still answered once the input has ended.
    fn end(mut self) -> Vec<u8> {
        drop(self.input);
        let rest = self.output.iter().flatten().collect();
        assert!(self.child.wait().expect("it was started").success());
        rest
    }
}

/// The output for an input that is written at once.
fn run(input: &[u8]) -> Vec<u8> {
    let mut copy = Copy::start();
    let bytes = input.to_vec();
    let mut pipe = copy.input;
    let writer = thread::spawn(move || {
        // A copy that is refused reads no further.
        let _ = pipe.write_all(&bytes);
    });
    let output = copy.output.iter().flatten().collect();
    writer.join().expect("it does not fail");
    assert!(copy.child.wait().expect("it was started").success());
    output
}

fn agree(input: &[u8], what: &str) {
    let (printed, expected) = (run(input), answers(input).concat());
    assert!(
        printed == expected,
        "{what}: {} and {}",
        String::from_utf8_lossy(&printed),
        String::from_utf8_lossy(&expected)
    );
}

/// Pieces are sent one after another; each answer must come as soon as its last byte is sent.
fn agree_in_pieces(head: &[u8], records: &[u8], size: usize) {
    let input = [head, records].concat();
    let answers = answers(&input);
    let mut copy = Copy::start();
    let (mut sent, mut given) = (0, 0);
    for piece in input.chunks(size) {
        copy.send(piece);
        sent += piece.len();
        let whole = match sent.checked_sub(head.len()) {
            Some(behind) => 1 + behind / Record::BYTES,
            None => 0,
        };
        let due = answers[given..whole].concat();
        assert!(copy.hear(due.len()) == due, "pieces of {size}, byte {sent}");
        given = whole;
    }
    assert!(copy.end() == answers[given..].concat(), "pieces of {size}, the end");
}

// ---- the tests

#[test]
fn a_burst() {
    let input = [head(&LEGS), auctions(60)].concat();
    let expected = answers(&input);
    assert!(expected.len() > 3_900);
    // Many times what a page holds.
    assert!(expected.iter().map(Vec::len).sum::<usize>() > 1_000_000);
    agree(&input, "auctions");
}

#[test]
fn sessions_at_once() {
    for profile in &PROFILES {
        agree(&session(profile.name, 21), profile.name);
    }
}

#[test]
fn a_record_at_a_time() {
    agree_in_pieces(&head(&LEGS), &auctions(3), Record::BYTES);
}

#[test]
fn in_pieces() {
    let records = auctions(1);
    for size in [1, 7, 35, 37, 50, 100] {
        agree_in_pieces(&head(&LEGS), &records, size);
    }
}

#[test]
fn cut_off() {
    let input = [head(&LEGS), auctions(1)[..3 * Record::BYTES].to_vec()].concat();
    for size in 0..=input.len() {
        agree(&input[..size], &format!("cut to {size}"));
    }
}

#[test]
fn legs_above_four() {
    for count in [0, 1, 3, 4, 5, 9, 300] {
        let legs: Vec<Leg> = LEGS.into_iter().cycle().take(count).collect();
        let input = [head(&legs), auctions(1)].concat();
        agree(&input, &format!("{count} legs"));
        agree(&input[..head(&legs).len().saturating_sub(1)], &format!("{count} legs, the last cut"));
    }
}

/// A library that counts the calls of read and write, and leaves their number in a file.
const COUNTER: &str = r#"
#include <fcntl.h>
#include <stdio.h>
#include <stdlib.h>
#include <sys/syscall.h>
#include <unistd.h>

static unsigned long calls;

ssize_t read(int fd, void *to, size_t size) {
    calls++;
    return syscall(SYS_read, fd, to, size);
}

ssize_t write(int fd, const void *from, size_t size) {
    calls++;
    return syscall(SYS_write, fd, from, size);
}

__attribute__((destructor)) static void tell(void) {
    FILE *file = fopen(getenv("CALLS"), "w");
    fprintf(file, "%lu", calls);
    fclose(file);
}
"#;

fn counter(dir: &Path) -> PathBuf {
    let (source, library) = (dir.join("counter.c"), dir.join("counter.so"));
    fs::write(&source, COUNTER).expect("the folder is there");
    let status = Command::new("cc").args(["-shared", "-fPIC", "-o"]).args([&library, &source]).status();
    assert!(status.expect("a C compiler").success());
    library
}

#[test]
fn few_calls() {
    let dir = Path::new(env!("CARGO_TARGET_TMPDIR"));
    let (sent, calls) = (dir.join("records"), dir.join("calls"));
    let input = [head(&LEGS), auctions(1_516)].concat();
    assert!(input.len() > 100_000 * Record::BYTES);
    fs::write(&sent, &input).expect("the folder is there");
    let child = Command::new(LIVE)
        .env("LD_PRELOAD", counter(dir))
        .env("CALLS", &calls)
        .stdin(File::open(&sent).expect("it was written"))
        .output()
        .expect("`./build live` builds target/bin/live");
    assert!(child.stdout == answers(&input).concat());
    let calls: usize = fs::read_to_string(&calls).expect("the counter tells").parse().expect("a number");
    assert!((1..=2_000).contains(&calls), "{calls} calls");
}
