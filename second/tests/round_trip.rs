//! Text and tape: `make` of `dump` keeps a tape's meaning, and a plain tape's bytes.

mod common;

use common::meaning;
use second::gen::{gen, PROFILES};
use second::print::tapeprint;
use second::tape::Misfit;
use second::text::{dump, make};

#[test]
fn make_of_dump_keeps_the_meaning() {
    for profile in &PROFILES {
        for seed in 0..25 {
            let tape = gen(profile.name, seed).unwrap();
            let Ok(text) = dump(&tape) else {
                assert_eq!(tapeprint(&tape), "refused 0 60\n");
                continue;
            };
            let again = make(text.as_bytes()).unwrap();
            assert_eq!(meaning(&tape), meaning(&again), "{} {seed}", profile.name);
            assert_eq!(
                tapeprint(&tape),
                tapeprint(&again),
                "{} {seed}",
                profile.name
            );
            // What is made is plain: it comes back byte for byte.
            assert_eq!(dump(&again).unwrap(), text);
            assert_eq!(make(text.as_bytes()).unwrap(), again);
        }
    }
}

/// Profiles that write legs at 40, messages straight after, unused fields zero and a wish as 1.
const PLAIN: [&str; 10] = [
    "auction", "badkind", "badopen", "book", "endings", "filter", "fullbook", "multileg",
    "negative", "queue",
];

#[test]
fn plain_tapes_come_back_byte_for_byte() {
    for profile in PLAIN {
        for seed in 0..25 {
            let tape = gen(profile, seed).unwrap();
            let again = make(dump(&tape).unwrap().as_bytes()).unwrap();
            assert_eq!(tape, again, "{profile} {seed}");
        }
    }
    let own = make(include_bytes!("../sessions/own-case.txt")).unwrap();
    assert_eq!(make(dump(&own).unwrap().as_bytes()).unwrap(), own);
}

/// The readme's example is the own case.
#[test]
fn the_readme_shows_the_own_case() {
    let readme = include_str!("../README.md");
    let example = readme.split("```\n").nth(1).expect("an example");
    let own = make(include_bytes!("../sessions/own-case.txt")).unwrap();
    assert_eq!(make(example.as_bytes()).unwrap(), own);
}

/// The text takes wrong values of used fields, and keeps them.
#[test]
fn wrong_values_are_kept() {
    let text = "\
interval 0
distance 65535
most-legs 9
amount-1 1000
amount-5 0
amount-10 65535
minimum 4294967295
first-number 18446744073709551615
opening-time 18446744073709551615

leg symbol=\"\\x00\\x22\\x5c #= 260116c000200\\xff\" side=X ratio=0 mpv=255
leg symbol=\"XYZ   260116C00025000\" side=0x00 ratio=255 mpv=3

order id=0 participant=0 account=9 side=X units=4294967295 price=-2147483648 wish=yes time=0
modify id=1 participant=2 side=0xff units=0 price=2147483647 time=18446744073709551615
local leg=255 bid=-1 bid-size=0 ask=0 ask-size=4294967295 time=5
record kind=200 side=B account=7 leg=3 id=4 participant=5 units=6 price=-7 ask=8 ask-size=9 time=10
record kind=0
reduce id=0 participant=4294967295 units=4294967295 time=9
clock time=3
";
    let tape = make(text.as_bytes()).unwrap();
    assert_eq!(dump(&tape).unwrap(), text);
    assert_eq!(tape.len(), 40 + 2 * 24 + 7 * 36);
    assert_eq!(tapeprint(&tape), "refused 0 61\n");
}

/// Comments, spaces, names in any sequence, and what may be left out.
#[test]
fn a_text_may_be_written_loosely() {
    let head = "interval 5 # ms\n distance 0\nmost-legs 2\namount-1 1\namount-5 2\namount-10 3\n\
                minimum 1\r\nfirst-number +1\nopening-time 44\n\n   # nothing here\n\
                leg mpv=5 ratio=1 side=B symbol=ABCDEF260116C00020000\n";
    let loose = format!("{head}\torder side=B price=-5 units=2 participant=3 id=4 account=1#end\nclock\nclock time=50\nclock");
    let text = dump(&make(loose.as_bytes()).unwrap()).unwrap();
    let lines: Vec<&str> = text.lines().skip(10).collect();
    assert_eq!(
        lines,
        [
            "leg symbol=\"ABCDEF260116C00020000\" side=B ratio=1 mpv=5",
            "",
            "order id=4 participant=3 account=1 side=B units=2 price=-5 wish=no time=44",
            "clock time=44",
            "clock time=50",
            "clock time=50",
        ]
    );
}

/// A text that cannot be read says on which line, and why.
#[test]
fn unreadable_texts_name_the_line() {
    let head = "interval 5\ndistance 0\nmost-legs 2\namount-1 1\namount-5 2\namount-10 3\n\
                minimum 1\nfirst-number 1\nopening-time 0\n";
    let fails = |line: &str, what: &str| {
        let error = make(format!("{head}{line}\n").as_bytes()).unwrap_err();
        assert_eq!(error.line, 10, "{line}: {error}");
        assert!(error.what.contains(what), "{line}: {error}");
    };
    fails("clok time=1", "`clok` is no setting, leg or message");
    fails("clock time=1 time=2", "`time` is not wanted here, or twice");
    fails("clock time", "`time` needs a value");
    fails("clock time=", "`` is not a number");
    fails("clock time=-1", "-1 does not fit its field");
    fails("clock time=18446744073709551616", "does not fit its field");
    fails(&format!("clock time={}", "9".repeat(80)), "is not a number");
    fails("clock id=1", "`id` is not wanted here, or twice");
    fails("cancel id=1", "`cancel` lacks `participant`");
    fails("reduce id=1 participant=1", "`reduce` lacks `units`");
    fails(
        "cancel id=1 participant=1 units=3",
        "`units` is not wanted here",
    );
    fails(
        "order id=1 participant=1 account=1 side=BB units=1 price=1",
        "side: `BB`",
    );
    fails(
        "order id=1 participant=1 account=256 side=B units=1 price=1",
        "account: 256",
    );
    fails(
        "order id=1 participant=1 account=1 side=B units=1 price=1 wish=maybe",
        "wish: `maybe`",
    );
    fails(
        "leg symbol=ABC side=B ratio=1 mpv=1",
        "the symbol has 3 bytes",
    );
    fails("leg symbol=\"ABC side=B", "a quote is not closed");
    fails("leg symbol=\"\\y\"", "a backslash");
    fails("leg symbol=\"\\xzz\"", "`zz` is not a byte");
    fails("leg symbol=\"\\x+1\"", "`+1` is not a byte");
    fails("leg side=B", "`symbol` is missing");
    fails("interval 5", "`interval` is given twice");
    fails("minimum=5", "stands where a line's word should");
    fails("record side=B", "`kind` is missing");
    fails("record kind=256", "256 does not fit");
    let error = make(b"interval 5\n").unwrap_err();
    assert_eq!(
        error.to_string(),
        "line 2: the setting `distance` is missing"
    );
    let error = make(format!("{head}clock\nminimum 1\n").as_bytes()).unwrap_err();
    assert_eq!(error.line, 11);
    let many = format!("{head}{}", "clock\n".repeat(1_820));
    assert!(make(many.as_bytes())
        .unwrap_err()
        .what
        .contains("over 65535 bytes"));
    let most = format!("{head}{}", "clock\n".repeat(1_819));
    assert_eq!(make(most.as_bytes()).unwrap().len(), 40 + 1_819 * 36);
}

#[test]
fn a_tape_that_meets_60_has_no_text() {
    assert_eq!(dump(&[]), Err(Misfit::TooShort));
    assert_eq!(dump(&[0; 70_000]), Err(Misfit::TooLong));
    assert!(dump(&[0; 40]).is_ok());
}
