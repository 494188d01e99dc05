//! The library's output for a tape against the second program's, on random tapes of every profile, whole and damaged.

mod tapes;

/// How many lines of averages there are; all lines are the second program's.
fn agree(what: &str, tape: &[u8]) -> usize {
    let expected = second::print::tapeprint(tape);
    let printed = tumghavi::print(tape);
    assert!(printed == expected.as_bytes(), "{what}: {} and {}", String::from_utf8_lossy(&printed), expected);
    expected.lines().filter(|line| line.starts_with("average ")).count()
}

#[test]
fn whole_tapes() {
    let averages: usize = tapes::whole().map(|(what, tape)| agree(&what, &tape)).sum();
    assert!(averages > 10_000, "{averages}");
}

#[test]
fn damaged_tapes() {
    let averages: usize = tapes::damaged().map(|(what, tape)| agree(&what, &tape)).sum();
    assert!(averages > 7_000, "{averages}");
}

#[test]
fn the_room_is_kept() {
    let tape = second::gen::gen("book", 1).expect("a profile of the list");
    let all = tumghavi::print(&tape);
    for room in [0, 1, 40, all.len() - 1, all.len(), all.len() + 1] {
        let mut out = vec![7; room + 3];
        let written = tumghavi::print_into(&tape, &mut out[..room]);
        let expected = room.min(all.len());
        assert_eq!(written, expected);
        assert_eq!(out[..expected], all[..expected]);
        assert!(out[expected..].iter().all(|&byte| byte == 7));
    }
}

#[test]
fn no_bytes_are_a_tape() {
    assert_eq!(tumghavi::print(&[]), b"refused 0 60\n");
    assert_eq!(tumghavi::print(&[0; 65_536]), b"refused 0 60\n");
}
