//! Both programs' live on one session, through pipes.

use second::book::Entry;
use second::gen::gen;
use second::print::run_tape;
use second::tape::{Record, Tape};
use std::io::{self, Read, Write};
use std::path::{Path, PathBuf};
use std::process::{Command, Stdio};
use std::thread;
use std::time::Instant;

/// A program, by its place in the repository, and what builds it there.
struct Program {
    place: &'static str,
    built_by: &'static str,
}

const PROVED: Program = Program { place: "target/bin/live", built_by: "./build live" };
const PLAIN: Program = Program {
    place: "second/target/release/second",
    built_by: "cargo build --release --manifest-path second/Cargo.toml",
};

impl Program {
    fn path(&self) -> PathBuf {
        Path::new(env!("CARGO_MANIFEST_DIR")).join("..").join(self.place)
    }
}

/// How often the tape's records are sent.
const TIMES: u64 = 200;

const RUNS: usize = 5;

/// Header and legs of a `long` tape, and its records again and again, their times moved on; how many records. Each time ends without an auction or an open order.
fn session() -> (Vec<u8>, usize) {
    let bytes = gen("long", 1).expect("a profile of the list");
    let tape = Tape::lay_out(&bytes).expect("a whole tape");
    let end = run_tape(&bytes, |_, _, _| {}).expect("a tape that is not turned back");
    let time = end.auction().map_or(end.last_time(), |auction| auction.deadline);
    let clock = Record { kind: 7, time, ..Record::default() };
    let cancel = |order: &Entry| Record { kind: 6, id: order.id, participant: order.participant, ..clock };
    let records: Vec<Record> = tape.records().chain([clock]).chain(end.book().orders().map(cancel)).collect();
    let mut session = [tape.header_bytes(), tape.leg_bytes()].concat();
    for start in (0..TIMES).map(|k| k * time) {
        for record in &records {
            Record { time: record.time.saturating_add(start), ..*record }.write(&mut session);
        }
    }
    (session, TIMES as usize * records.len())
}

/// What a program answers, and how many seconds it takes from its start to its end; an error where it says that it failed.
fn run(command: &mut Command, input: &[u8]) -> io::Result<(Vec<u8>, f64)> {
    let start = Instant::now();
    let mut child = command.stdin(Stdio::piped()).stdout(Stdio::piped()).spawn()?;
    let mut to = child.stdin.take().expect("it is piped");
    let mut from = child.stdout.take().expect("it is piped");
    let mut output = Vec::new();
    thread::scope(|scope| {
        scope.spawn(move || to.write_all(input));
        from.read_to_end(&mut output)
    })?;
    let status = child.wait()?;
    let seconds = start.elapsed().as_secs_f64();
    match status.success() {
        true => Ok((output, seconds)),
        false => Err(io::Error::other(status.to_string())),
    }
}

/// The table; or, where a program is missing, a line that says what builds it.
pub fn print() -> Result<(), String> {
    println!("\n## live through a pipe\n");
    if let Some(Program { place, built_by }) = [PROVED, PLAIN].into_iter().find(|program| !program.path().exists()) {
        println!("Not measured: `{place}` is missing. To build it: `{built_by}`.");
        return Ok(());
    }
    let (input, messages) = session();
    let timed = |command: &mut Command| run(command, &input).map_err(|error| format!("{command:?}: {error}"));
    let (mut proved, mut plain) = (f64::INFINITY, f64::INFINITY);
    for _ in 0..RUNS {
        let one = timed(&mut Command::new(PROVED.path()))?;
        let other = timed(Command::new(PLAIN.path()).arg("live"))?;
        if one.0 != other.0 {
            return Err("live: the outputs differ".into());
        }
        proved = proved.min(one.1);
        plain = plain.min(other.1);
    }
    let speed = |seconds: f64| messages as f64 / seconds;
    println!("| Messages | Proved, messages/s | Plain, messages/s | Ratio |\n|--:|--:|--:|--:|");
    println!("| {messages} | {:.0} | {:.0} | {:.2} |", speed(proved), speed(plain), proved / plain);
    Ok(())
}
