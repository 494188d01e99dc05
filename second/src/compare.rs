//! Another program on random tapes: it must print what this one does.

use second::gen::Profile;
use second::live::{live, live_input};
use second::print::{tapeform, tapeprint};
use std::ffi::OsStr;
use std::io::{self, Read, Write};
use std::ops::Range;
use std::process::{Command, ExitStatus, Stdio};
use std::thread;

/// What the other program is.
#[derive(Clone, Copy)]
pub enum Twin {
    Tapeprint,
    Live,
    Tapeform,
}

impl Twin {
    /// What it reads of a tape. A tape without a session goes to `live` as it is.
    fn input(self, tape: Vec<u8>) -> Vec<u8> {
        match self {
            Twin::Tapeprint | Twin::Tapeform => tape,
            Twin::Live => live_input(&tape).unwrap_or(tape),
        }
    }

    /// What it must print of its input.
    fn expected(self, input: &[u8]) -> Result<Vec<u8>, String> {
        match self {
            Twin::Tapeprint => Ok(tapeprint(input).into_bytes()),
            Twin::Live => {
                let mut output = Vec::new();
                live(input, &mut output)?;
                Ok(output)
            }
            Twin::Tapeform => Ok(tapeform(input)),
        }
    }

    /// Where what it printed first differs from ours, and what each has there.
    fn first_difference(self, theirs: &[u8], ours: &[u8]) -> Option<Difference> {
        match self {
            Twin::Tapeprint | Twin::Live => first_line(theirs, ours),
            // A form is not text.
            Twin::Tapeform => first_byte(theirs, ours),
        }
    }
}

/// Runs the command once for each profile and seed, up to the first difference. The number of
/// tapes is given back.
pub fn compare<'a>(
    twin: Twin,
    command: &OsStr,
    profiles: impl IntoIterator<Item = &'a Profile>,
    seeds: Range<u64>,
) -> Result<u64, String> {
    let mut count = 0;
    for profile in profiles {
        for seed in seeds.clone() {
            compare_one(twin, command, profile.tape(seed))
                .map_err(|difference| format!("{} {seed}: {difference}", profile.name))?;
            count += 1;
        }
    }
    Ok(count)
}

fn compare_one(twin: Twin, command: &OsStr, tape: Vec<u8>) -> Result<(), String> {
    let input = twin.input(tape);
    let expected = twin.expected(&input)?;
    let name = command.to_string_lossy();
    let (printed, status) = run(command, &input, expected.len() + MOST_MORE)
        .map_err(|error| format!("cannot run {name}: {error}"))?;
    if let Some(difference) = twin.first_difference(&printed, &expected) {
        let Difference {
            place,
            theirs,
            ours,
        } = difference;
        return Err(format!(
            "{place} differs\n  {name}: {theirs}\n  second: {ours}"
        ));
    }
    if !status.success() {
        return Err(format!("{name} prints the same, but ends with {status}"));
    }
    Ok(())
}

/// How many bytes more than expected are read: enough to show the line that differs.
const MOST_MORE: usize = 4096;

/// What the command prints with the input, up to so many bytes, and how it ends.
fn run(command: &OsStr, input: &[u8], most: usize) -> io::Result<(Vec<u8>, ExitStatus)> {
    let mut child = Command::new(command)
        .stdin(Stdio::piped())
        .stdout(Stdio::piped())
        .spawn()?;
    let stdin = child.stdin.take();
    let stdout = child.stdout.take();
    let mut printed = Vec::new();
    // Written and read at the same time, so that neither pipe fills up and holds the other.
    let read = thread::scope(|scope| {
        scope.spawn(|| {
            // A command that has its answer may leave the rest unread.
            let _ = stdin.map(|mut stdin| stdin.write_all(input));
        });
        let read = match stdout {
            Some(stdout) => stdout.take(most as u64).read_to_end(&mut printed),
            None => Ok(0),
        };
        if read.is_err() || printed.len() == most {
            // It has said too much already, and might go on for ever.
            let _ = child.kill();
        }
        read
    });
    let status = child.wait()?;
    read?;
    Ok((printed, status))
}

/// A place at which two outputs differ, and what each has there.
struct Difference {
    place: String,
    theirs: String,
    ours: String,
}

/// The first line, from 1, in which two texts differ. A line is shown with its end, if it has one:
/// the end may be all that differs.
fn first_line(theirs: &[u8], ours: &[u8]) -> Option<Difference> {
    let lines = |text| <[u8]>::split_inclusive(text, |&byte| byte == b'\n');
    let show = |line| format!("{:?}", String::from_utf8_lossy(line));
    first_difference(("line", 1), lines(theirs), lines(ours), show)
}

/// The first byte, from 0, in which two outputs differ.
fn first_byte(theirs: &[u8], ours: &[u8]) -> Option<Difference> {
    let show = |byte| format!("0x{byte:02x}");
    first_difference(("byte", 0), theirs.iter(), ours.iter(), show)
}

/// The first item in which two sequences differ, by the word and number that places have.
fn first_difference<T: PartialEq>(
    (word, first): (&str, usize),
    mut theirs: impl Iterator<Item = T>,
    mut ours: impl Iterator<Item = T>,
    show: impl Fn(T) -> String,
) -> Option<Difference> {
    for place in first.. {
        match (theirs.next(), ours.next()) {
            (None, None) => return None,
            (a, b) if a != b => {
                let show = |item: Option<T>| item.map_or("nothing".into(), &show);
                return Some(Difference {
                    place: format!("{word} {place}"),
                    theirs: show(a),
                    ours: show(b),
                });
            }
            _ => {}
        }
    }
    None
}
