//! The second program's commands: what they read, what they write, and how they fail.

mod compare;

use compare::{compare, Twin};
use second::explain::explain;
use second::gen::{gen, Profile, PROFILES};
use second::live::{live, live_input};
use second::print::{tapeform, tapelegs, tapeprint};
use second::tape::{Misfit, Tape};
use second::text::{dump, make};
use std::ffi::{OsStr, OsString};
use std::fs::File;
use std::io::{self, Read, Write};
use std::process::ExitCode;

const USAGE: &str = "\
usage: second COMMAND
  tapeprint [TAPE]    fills, averages, refusals and what is left open
  make [TEXT]         the tape of a session in text
  dump [TAPE]         the text of a tape
  explain [TAPE]      a tape told message by message
  form [TAPE]         the written form of a tape
  legs [TAPE]         the fills of a tape with the price of each leg
  gen PROFILE SEED    a random tape
  gen --list          the profiles
  live                answers the opening and each message on standard input at once
  live-input [TAPE]   a tape's session as live reads it
  compare [--live | --form] COMMAND PROFILE FIRST-SEED COUNT
                      runs a command on random tapes: it must print what tapeprint does,
                      or live, or form; COUNT tapes of the profile, or of each if it is `all`
A file left out is standard input.
";

/// The greatest text that `make` reads.
const MOST_TEXT: usize = 16 * 1024 * 1024;

fn main() -> ExitCode {
    let arguments: Vec<OsString> = std::env::args_os().skip(1).collect();
    match run(&arguments).and_then(|output| write_out(&output)) {
        Ok(()) => ExitCode::SUCCESS,
        Err(what) => {
            // With standard error closed too there is nobody left to tell.
            let _ = writeln!(io::stderr(), "second: {what}");
            ExitCode::FAILURE
        }
    }
}

/// What the command prints; `live` prints as it goes.
fn run(arguments: &[OsString]) -> Result<Vec<u8>, String> {
    let Some((command, rest)) = arguments.split_first() else {
        return Err(format!("no command\n{}", USAGE.trim_end()));
    };
    match command.to_str() {
        Some("tapeprint") => Ok(tapeprint(&read_tape(rest)?).into_bytes()),
        Some("make") => make(&read_text(rest)?).map_err(|error| error.to_string()),
        Some("dump") => dump(&read_tape(rest)?)
            .map(String::into_bytes)
            .map_err(refused_60),
        Some("explain") => Ok(explain(&read_tape(rest)?).into_bytes()),
        Some("form") => Ok(tapeform(&read_tape(rest)?)),
        Some("legs") => Ok(tapelegs(&read_tape(rest)?).into_bytes()),
        Some("gen") => gen_command(rest),
        Some("live") => live_command(rest).map(|()| Vec::new()),
        Some("compare") => compare_command(rest),
        Some("live-input") => live_input(&read_tape(rest)?).map_err(refused_60),
        Some("help" | "--help" | "-h") => Ok(USAGE.as_bytes().to_vec()),
        _ => Err(format!(
            "no such command: {}\n{}",
            command.to_string_lossy(),
            USAGE.trim_end()
        )),
    }
}

fn refused_60(misfit: Misfit) -> String {
    format!("refused 60: {misfit}")
}

fn live_command(arguments: &[OsString]) -> Result<(), String> {
    match arguments {
        [] => live(io::stdin().lock(), io::stdout().lock()),
        [more, ..] => Err(one_too_many(more)),
    }
}

fn one_too_many(argument: &OsStr) -> String {
    format!("one argument too many: {}", argument.to_string_lossy())
}

fn gen_command(arguments: &[OsString]) -> Result<Vec<u8>, String> {
    match arguments {
        [flag] if flag == "--list" => Ok(profile_list().into_bytes()),
        [name, seed] => {
            let seed = number(seed, "seed")?;
            let name = name.to_string_lossy();
            gen(&name, seed).ok_or(no_such_profile(&name))
        }
        _ => Err("gen wants a profile and a seed, or --list".into()),
    }
}

fn compare_command(arguments: &[OsString]) -> Result<Vec<u8>, String> {
    let (twin, rest) = match arguments {
        [flag, rest @ ..] if flag == "--live" => (Twin::Live, rest),
        [flag, rest @ ..] if flag == "--form" => (Twin::Tapeform, rest),
        _ => (Twin::Tapeprint, arguments),
    };
    let [command, profile, first, count] = rest else {
        return Err("compare wants a command, a profile or `all`, a first seed and a count".into());
    };
    let first: u64 = number(first, "seed")?;
    let count: u64 = number(count, "count")?;
    let after = first.checked_add(count).ok_or("the seeds run too far")?;
    let profiles: Vec<&Profile> = PROFILES
        .iter()
        .filter(|each| profile == "all" || profile == each.name)
        .collect();
    if profiles.is_empty() {
        return Err(no_such_profile(&profile.to_string_lossy()));
    }
    let tapes = compare(twin, command, profiles, first..after)?;
    Ok(format!("{tapes} tapes compared\n").into_bytes())
}

/// The number that an argument says.
fn number(argument: &OsStr, what: &str) -> Result<u64, String> {
    let number = argument.to_str().and_then(|word| word.parse().ok());
    number.ok_or(format!("not a {what}: {}", argument.to_string_lossy()))
}

fn no_such_profile(name: &str) -> String {
    format!("no such profile: {name} (gen --list has them)")
}

fn profile_list() -> String {
    let lines = PROFILES.iter();
    lines
        .map(|profile| format!("{:<11} {}\n", profile.name, profile.stresses))
        .collect()
}

/// The tape, or as much of it as shows that it is too long.
fn read_tape(arguments: &[OsString]) -> Result<Vec<u8>, String> {
    read(arguments, Tape::MOST_BYTES + 1)
}

fn read_text(arguments: &[OsString]) -> Result<Vec<u8>, String> {
    let text = read(arguments, MOST_TEXT + 1)?;
    if text.len() > MOST_TEXT {
        return Err(format!("the text is over {MOST_TEXT} bytes"));
    }
    Ok(text)
}

/// At most so many bytes of the file named, or of standard input.
fn read(arguments: &[OsString], most: usize) -> Result<Vec<u8>, String> {
    let mut bytes = Vec::new();
    match arguments {
        [] => io::stdin()
            .take(most as u64)
            .read_to_end(&mut bytes)
            .map_err(|error| format!("cannot read standard input: {error}"))?,
        [path] => File::open(path)
            .and_then(|file| file.take(most as u64).read_to_end(&mut bytes))
            .map_err(|error| format!("cannot read {}: {error}", path.to_string_lossy()))?,
        [_, more, ..] => return Err(one_too_many(more)),
    };
    Ok(bytes)
}

fn write_out(output: &[u8]) -> Result<(), String> {
    let mut out = io::stdout().lock();
    out.write_all(output)
        .and_then(|()| out.flush())
        .map_err(|error| format!("cannot write standard output: {error}"))
}
