//! `compare` with small shell scripts as the other program: this one itself, and wrong ones.

use second::gen::{gen, PROFILES};
use second::print::tapeprint;
use std::path::PathBuf;
use std::process::{Command, Output};

/// A script that may run this program as `$SECOND`.
fn script(name: &str, lines: &str) -> PathBuf {
    let path = PathBuf::from(env!("CARGO_TARGET_TMPDIR")).join(format!("compare-{name}"));
    // A shell writes it: a file that this process had open for writing might still be busy.
    let status = Command::new("sh")
        .args([
            "-c",
            r#"printf '#!/bin/sh\n%s\n' "$1" >"$2" && chmod +x "$2""#,
        ])
        .arg("sh")
        .arg(lines)
        .arg(&path)
        .status();
    assert!(status.unwrap().success());
    path
}

fn compare(flags: &[&str], command: &PathBuf, rest: &[&str]) -> Output {
    let second = env!("CARGO_BIN_EXE_second");
    Command::new(second)
        .arg("compare")
        .args(flags)
        .arg(command)
        .args(rest)
        .env("SECOND", second)
        .output()
        .unwrap()
}

fn agrees(flags: &[&str], command: &PathBuf, rest: &[&str], tapes: usize) {
    let output = compare(flags, command, rest);
    let error = String::from_utf8(output.stderr).unwrap();
    assert!(output.status.success(), "{error}");
    let printed = String::from_utf8(output.stdout).unwrap();
    assert_eq!(printed, format!("{tapes} tapes compared\n"));
}

/// The comparison fails and says so, with the command's path as COMMAND.
fn fails(flags: &[&str], command: &PathBuf, rest: &[&str], what: &str) {
    let output = compare(flags, command, rest);
    let error = String::from_utf8(output.stderr).unwrap();
    let error = error.replace(command.to_str().unwrap(), "COMMAND");
    assert!(!output.status.success(), "{rest:?}");
    assert!(output.stdout.is_empty());
    assert!(error.contains(what), "{error}");
    assert!(!error.contains("panicked"), "{error}");
}

#[test]
fn this_program_agrees_with_itself() {
    let command = script("tapeprint", r#"exec "$SECOND" tapeprint"#);
    agrees(&[], &command, &["all", "1", "12"], 12 * PROFILES.len());
    agrees(&[], &command, &["mix", "18446744073709551000", "3"], 3);
}

#[test]
fn this_program_agrees_with_itself_live() {
    let command = script("live", r#"exec "$SECOND" live"#);
    let tapes = 12 * PROFILES.len();
    agrees(&["--live"], &command, &["all", "1", "12"], tapes);
}

#[test]
fn this_program_agrees_with_itself_on_forms() {
    let command = script("form", r#"exec "$SECOND" form"#);
    let tapes = 12 * PROFILES.len();
    agrees(&["--form"], &command, &["all", "1", "12"], tapes);
}

/// Input that is read late, and output that comes before it: both are more than a pipe holds.
#[test]
fn pipes_do_not_block() {
    let lines = r#"
        tape=$(mktemp)
        cat >"$tape"
        "$SECOND" tapeprint "$tape"
        rm "$tape""#;
    let command = script("late", lines);
    agrees(&[], &command, &["long", "1", "2"], 2);
    let lines = "head -c 1000000 /dev/zero\ncat >/dev/null";
    let command = script("early", lines);
    fails(&[], &command, &["long", "1", "2"], "long 1: line 1 differs");
}

#[test]
fn the_first_difference_is_told() {
    let lines = r#""$SECOND" tapeprint | sed 's/^refused 0 60$/refused 0 61/'"#;
    let command = script("wrong-number", lines);
    agrees(&[], &command, &["book", "1", "5"], 5);
    let what = "size 2: line 1 differs\n  COMMAND: \"refused 0 61\\n\"\n  \
                second: \"refused 0 60\\n\"\n";
    fails(&[], &command, &["size", "1", "20"], what);
    fails(&[], &command, &["all", "1", "4"], "overlap ");
}

#[test]
fn the_first_difference_of_a_live_session_is_told() {
    let lines = r#""$SECOND" live | sed 's/^ended legs /ended order /'"#;
    let command = script("wrong-cause", lines);
    let output = compare(&["--live"], &command, &["endings", "1", "20"]);
    let error = String::from_utf8(output.stderr).unwrap();
    assert!(!output.status.success());
    assert!(error.starts_with("second: endings "), "{error}");
    assert!(error.contains(": \"ended order "), "{error}");
    assert!(error.contains("second: \"ended legs "), "{error}");
}

/// Leg prices where there are none, other ones, and none at all.
#[test]
fn the_leg_prices_of_a_live_session_are_compared() {
    let wrong = [
        (
            "some",
            "s/^legs none$/legs 1 1/",
            "COMMAND: \"legs 1 1\\n\"\n  second: \"legs none\\n\"\n",
        ),
        (
            "none",
            "s/^legs [0-9].*$/legs none/",
            "COMMAND: \"legs none\\n\"\n  second: \"legs ",
        ),
        ("no-lines", "/^legs /d", "\n  second: \"legs "),
    ];
    for (name, change, what) in wrong {
        let lines = format!(r#""$SECOND" live | sed '{change}'"#);
        let command = script(&format!("legs-{name}"), &lines);
        fails(&["--live"], &command, &["legprices", "1", "5"], what);
    }
}

/// A form that is the tape itself, one that is short, one that is long, and a wrong number.
#[test]
fn the_first_byte_of_a_form_that_differs_is_told() {
    let wrong = [
        // The offset of the legs is the first that a form has otherwise.
        (
            "same",
            "exec cat",
            "layout 1: byte 2 differs\n  COMMAND: 0x",
        ),
        ("same", "exec cat", "\n  second: 0x28\n"),
        (
            "cut",
            r#""$SECOND" form | head -c 39"#,
            "layout 1: byte 39 differs\n  COMMAND: nothing\n  second: 0x00\n",
        ),
        (
            "more-bytes",
            r#""$SECOND" form; printf '\377'"#,
            "differs\n  COMMAND: 0xff\n  second: nothing\n",
        ),
        (
            "no-form",
            "exit 0",
            "layout 1: byte 0 differs\n  COMMAND: nothing\n  second: 0x",
        ),
        (
            "form-status",
            r#""$SECOND" form; exit 3"#,
            "layout 1: COMMAND prints the same, but ends with exit status: 3",
        ),
    ];
    for (name, lines, what) in wrong {
        fails(
            &["--form"],
            &script(name, lines),
            &["layout", "1", "2"],
            what,
        );
    }
    // The last digit of 60 and 61.
    let command = script("wrong-refusal", "echo refused 0 61");
    let what = "byte 11 differs\n  COMMAND: 0x31\n  second: 0x30\n";
    agrees(&["--form"], &command, &["badkind", "1", "5"], 5);
    fails(&["--form"], &command, &["truncate", "1", "5"], what);
}

/// Lines left out, lines too many, an end of line that is missing, and nothing at all.
#[test]
fn the_whole_output_counts() {
    let printed = tapeprint(&gen("mix", 1).unwrap());
    let last = printed.lines().last().unwrap();
    let no_end = format!("COMMAND: \"{last}\"\n  second: \"{last}\\n\"\n");
    let wrong = [
        (
            "short",
            r#""$SECOND" tapeprint | sed '$d'"#,
            "COMMAND: nothing\n  second: \"open ",
        ),
        (
            "more",
            r#""$SECOND" tapeprint; echo more"#,
            "COMMAND: \"more\\n\"\n  second: nothing",
        ),
        (
            "endless",
            r#""$SECOND" tapeprint; exec yes"#,
            "COMMAND: \"y\\n\"\n  second: nothing",
        ),
        ("no-end", r#"printf %s "$("$SECOND" tapeprint)""#, &no_end),
        (
            "nothing",
            "exit 0",
            "mix 1: line 1 differs\n  COMMAND: nothing\n  second: \"number ",
        ),
        ("bytes", r"printf '\377\n'", "COMMAND: \"\u{fffd}\\n\""),
        (
            "status",
            r#""$SECOND" tapeprint; exit 3"#,
            "mix 1: COMMAND prints the same, but ends with exit status: 3",
        ),
    ];
    for (name, lines, what) in wrong {
        fails(&[], &script(name, lines), &["mix", "1", "2"], what);
    }
}

#[test]
fn wrong_arguments_are_told() {
    let command = script("unused", "exit 0");
    let told = [
        (&["nosuch", "1", "2"][..], "no such profile: nosuch"),
        (&["mix", "x", "2"], "not a seed: x"),
        (&["mix", "1", "-2"], "not a count: -2"),
        (
            &["mix", "18446744073709551615", "2"],
            "the seeds run too far",
        ),
        (&["mix", "1"], "compare wants a command"),
        (&["mix", "1", "2", "3"], "compare wants a command"),
    ];
    for (rest, what) in told {
        fails(&[], &command, rest, what);
        fails(&["--live"], &command, rest, what);
        fails(&["--form"], &command, rest, what);
    }
    let missing = PathBuf::from("/no/such/command");
    fails(
        &[],
        &missing,
        &["mix", "1", "2"],
        "mix 1: cannot run COMMAND",
    );
}
