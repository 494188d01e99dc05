//! The binary itself: its commands, their standard streams and their statuses.

use std::io::{BufRead, BufReader, Write};
use std::process::{Command, Output, Stdio};

fn second(arguments: &[&str], input: &[u8]) -> Output {
    let mut child = Command::new(env!("CARGO_BIN_EXE_second"))
        .args(arguments)
        .stdin(Stdio::piped())
        .stdout(Stdio::piped())
        .stderr(Stdio::piped())
        .spawn()
        .unwrap();
    // A command that does not read its input may have gone already.
    let _ = child.stdin.take().unwrap().write_all(input);
    child.wait_with_output().unwrap()
}

fn own_case() -> String {
    format!("{}/sessions/own-case.txt", env!("CARGO_MANIFEST_DIR"))
}

fn output(arguments: &[&str], input: &[u8]) -> Vec<u8> {
    let output = second(arguments, input);
    assert!(output.status.success(), "{arguments:?}");
    assert!(output.stderr.is_empty());
    output.stdout
}

#[test]
fn the_own_case_goes_through_all_commands() {
    let tape = output(&["make", &own_case()], b"");
    let text = std::fs::read(own_case()).unwrap();
    assert_eq!(output(&["make"], &text), tape);
    let printed = output(&["tapeprint"], &tape);
    let expected = "number order rank contra price units\n4 8 L 0 100 10\n4 8 R 7 100 5\n\
                    average 8 100 0\nrefused 5 50\nopen 1 answers 0\n";
    assert_eq!(String::from_utf8(printed).unwrap(), expected);
    let legs = output(&["legs"], &tape);
    let expected = "4 8 L 0 100 10 | 220 120\n4 8 R 7 100 5 | none\n";
    assert_eq!(String::from_utf8(legs).unwrap(), expected);
    // It is made in its form.
    assert_eq!(output(&["form"], &tape), tape);
    let dumped = output(&["dump"], &tape);
    assert_eq!(output(&["make"], &dumped), tape);
    let told = String::from_utf8(output(&["explain"], &tape)).unwrap();
    assert!(told.contains("refused 50: no open order 9 of participant 1"));
    assert!(told.contains("fill: 10 units at 100 with the legs, rank L, leg prices 220 120\n"));
    assert!(told.contains("fill: 5 units at 100 with 7, rank R, no leg prices\n"));
    assert!(told.contains("average of order 8: a sum of 1500 over 15 units is 100 remainder 0"));
}

/// Each answer is there before the next message is, and before the input ends.
#[test]
fn live_answers_at_once() {
    let mut child = Command::new(env!("CARGO_BIN_EXE_second"))
        .arg("live")
        .stdin(Stdio::piped())
        .stdout(Stdio::piped())
        .spawn()
        .unwrap();
    let mut input = child.stdin.take().unwrap();
    let mut answers = BufReader::new(child.stdout.take().unwrap()).lines();
    let tape = output(&["make", &own_case()], b"");
    let (opening, records) = tape.split_at(40 + 2 * 24);
    let parts = [
        (opening, &["opened"][..]),
        (&records[..36], &["noted 0"]),
        (&records[36..72], &["noted 0"]),
        (&records[72..108], &["placed 10 0"]),
        (
            &records[108..144],
            &[
                "placed 0 2",
                "4 8 L 0 100 10",
                "legs 220 120",
                "4 8 R 7 100 5",
                "legs none",
                "average 8 100 0",
            ],
        ),
        (&[9; 36], &["refused 61"]),
        (&records[144..], &["refused 50"]),
    ];
    for (part, lines) in parts {
        for piece in part.chunks(13) {
            input.write_all(piece).unwrap();
        }
        for line in lines {
            assert_eq!(&answers.next().unwrap().unwrap(), line);
        }
    }
    input.write_all(&[7]).unwrap();
    drop(input);
    assert_eq!(answers.next().unwrap().unwrap(), "incomplete");
    assert!(answers.next().is_none());
    assert!(child.wait().unwrap().success());
}

#[test]
fn live_ends_with_success_whatever_it_reads() {
    assert_eq!(output(&["live"], b""), b"incomplete\n");
    assert_eq!(output(&["live"], &[0; 40]), b"refused 1\n");
    assert_eq!(output(&["live"], &[1; 40]), b"incomplete\n");
    let tape = output(&["make", &own_case()], b"");
    assert_eq!(output(&["live"], &tape[..88]), b"opened\n");
    assert_eq!(output(&["live-input"], &tape), tape);
}

#[test]
fn form_gives_the_bytes_of_the_form() {
    let tape = second::gen::gen("layout", 3).unwrap();
    let form = second::form::form(&tape).unwrap();
    assert_ne!(tape, form);
    assert_eq!(output(&["form"], &tape), form);
    // It does not open, but it has a form.
    let mut zeros = [0; 40];
    (zeros[2], zeros[6]) = (40, 40);
    assert_eq!(output(&["form"], &[0; 40]), zeros);
}

#[test]
fn gen_gives_tapes_and_lists_its_profiles() {
    let tape = output(&["gen", "auction", "3"], b"");
    assert_eq!(tape, second::gen::gen("auction", 3).unwrap());
    let list = String::from_utf8(output(&["gen", "--list"], b"")).unwrap();
    assert_eq!(list.lines().count(), second::gen::PROFILES.len());
}

#[test]
fn a_refused_tape_is_an_answer_and_not_a_failure() {
    assert_eq!(output(&["tapeprint"], b""), b"refused 0 60\n");
    assert_eq!(output(&["form"], b""), b"refused 0 60\n");
    assert_eq!(output(&["legs"], b""), b"");
    assert_eq!(output(&["form"], &[0; 65_536]), b"refused 0 60\n");
    let wrong_kind = second::gen::gen("badkind", 1).unwrap();
    assert_eq!(output(&["form"], &wrong_kind), b"refused 0 61\n");
    let told = output(&["explain"], &[0; 40]);
    assert!(String::from_utf8(told)
        .unwrap()
        .contains("refused 0 1: not 2 to 4 legs, but 0"));
}

#[test]
fn what_is_wrong_stands_on_standard_error() {
    let fails = |arguments: &[&str], input: &[u8], what: &str| {
        let output = second(arguments, input);
        let error = String::from_utf8(output.stderr).unwrap();
        assert!(!output.status.success(), "{arguments:?}");
        assert!(error.contains(what), "{arguments:?}: {error}");
        assert!(!error.contains("panicked"), "{error}");
        assert!(output.stdout.is_empty());
    };
    fails(&[], b"", "no command");
    fails(&["print"], b"", "no such command: print");
    fails(
        &["tapeprint", "no-such-file"],
        b"",
        "cannot read no-such-file",
    );
    fails(&["dump", env!("CARGO_MANIFEST_DIR")], b"", "cannot read");
    fails(&["explain", "a", "b"], b"", "one argument too many: b");
    fails(&["form", "a", "b"], b"", "one argument too many: b");
    fails(&["legs", "a", "b"], b"", "one argument too many: b");
    fails(
        &["dump"],
        b"short",
        "refused 60: the tape is under 40 bytes",
    );
    fails(
        &["live-input"],
        &[255; 40],
        "refused 60: the legs run past the end",
    );
    fails(&["live", "a"], b"", "one argument too many: a");
    fails(&["make"], b"interval 5\nnonsense 1\n", "line 2: `nonsense`");
    fails(&["make"], b"\xff\xfe", "line 1: ");
    fails(&["gen"], b"", "gen wants a profile and a seed");
    fails(&["gen", "nosuch", "1"], b"", "no such profile: nosuch");
    fails(&["gen", "mix", "x"], b"", "not a seed: x");
    fails(&["gen", "mix", "-1"], b"", "not a seed: -1");
}

/// A reader that goes away early: a failure, but no panic. The account of a long tape is more than
/// a pipe holds.
#[test]
fn a_closed_pipe_does_no_harm() {
    let mut child = Command::new(env!("CARGO_BIN_EXE_second"))
        .arg("explain")
        .stdin(Stdio::piped())
        .stdout(Stdio::piped())
        .stderr(Stdio::piped())
        .spawn()
        .unwrap();
    let tape = second::gen::gen("long", 1).unwrap();
    child.stdin.take().unwrap().write_all(&tape).unwrap();
    // Nobody reads standard output any more.
    drop(child.stdout.take());
    let output = child.wait_with_output().unwrap();
    let error = String::from_utf8(output.stderr).unwrap();
    assert!(!output.status.success());
    assert!(error.contains("cannot write standard output"), "{error}");
}
