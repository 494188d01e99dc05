//! Damaged and random bytes: nothing panics, and what is refused says so.

use second::explain::explain;
use second::form::form;
use second::gen::random::Random;
use second::gen::{gen, PROFILES};
use second::print::tapeprint;
use second::text::{dump, make};

/// Every reader of tapes gets the bytes; `make` gets the text of them, or the bytes themselves.
fn read_all(bytes: &[u8]) {
    let printed = tapeprint(bytes);
    assert!(printed.starts_with("refused 0 ") || printed.starts_with("number order"));
    assert!(printed.ends_with('\n'));
    let told = explain(bytes);
    assert!(told.ends_with('\n'));
    // The refusals told are the refusals printed.
    let refusals = |text: &str| {
        text.lines()
            .filter(|l| l.trim_start().starts_with("refused "))
            .count()
    };
    assert_eq!(refusals(&printed), refusals(&told));
    match dump(bytes) {
        Ok(text) => {
            make(text.as_bytes()).unwrap();
        }
        Err(_) => assert_eq!(printed, "refused 0 60\n"),
    }
    match form(bytes) {
        Ok(written) => assert_eq!(tapeprint(&written), printed),
        Err(number) => assert_eq!(printed, format!("refused 0 {number}\n")),
    }
    let _ = make(bytes);
}

fn random_bytes(random: &mut Random, most: u64) -> Vec<u8> {
    let length = random.below(most);
    (0..length).map(|_| random.number() as u8).collect()
}

#[test]
fn random_bytes_do_no_harm() {
    let mut random = Random::new(1);
    for _ in 0..3_000 {
        read_all(&random_bytes(&mut random, 300));
    }
    for _ in 0..50 {
        read_all(&random_bytes(&mut random, 70_000));
    }
}

#[test]
fn damaged_tapes_do_no_harm() {
    let mut random = Random::new(2);
    for profile in PROFILES.iter().filter(|p| p.name != "long") {
        for seed in 0..10 {
            let tape = gen(profile.name, seed).unwrap();
            for _ in 0..4 {
                let mut damaged = tape.clone();
                for _ in 0..1 + random.below(6) {
                    if damaged.is_empty() {
                        break;
                    }
                    let at = match random.below(3) {
                        // The header is the tenderest part.
                        0 => random.below(40.min(damaged.len() as u64)) as usize,
                        _ => random.below(damaged.len() as u64) as usize,
                    };
                    damaged[at] = random.pick(&[0, 1, 0x7f, 0x80, 0xff, b'B', random_byte(at)]);
                }
                read_all(&damaged);
            }
        }
    }
}

fn random_byte(at: usize) -> u8 {
    Random::new(at as u64).number() as u8
}

#[test]
fn damaged_texts_do_no_harm() {
    let mut random = Random::new(3);
    for seed in 0..60 {
        let text = dump(&gen("mix", seed).unwrap()).unwrap().into_bytes();
        for _ in 0..20 {
            let mut damaged = text.clone();
            for _ in 0..1 + random.below(4) {
                let at = random.below(damaged.len() as u64) as usize;
                match random.below(3) {
                    0 => damaged[at] = random.number() as u8,
                    1 => {
                        damaged.remove(at);
                    }
                    _ => damaged.insert(at, random.pick(b"\n\"\\=# 0x\xff\x00")),
                }
            }
            if let Ok(tape) = make(&damaged) {
                read_all(&tape);
            }
        }
    }
}

/// Records whose every field is at an end of its range, at every kind.
#[test]
fn extreme_values_do_not_overflow() {
    let mut random = Random::new(4);
    for seed in 0..200 {
        let mut tape = gen("mix", seed).unwrap();
        let messages = usize::from(tape[6]) + 256 * usize::from(tape[7]);
        let mut at = messages;
        while at + 36 <= tape.len() {
            for (from, to) in [
                (4, 8),
                (8, 12),
                (12, 16),
                (16, 20),
                (20, 24),
                (24, 28),
                (28, 36),
            ] {
                if random.once_in(12) {
                    let byte = random.pick(&[0, 0xff, 0x7f, 0x80]);
                    tape[at + from..at + to].fill(byte);
                }
            }
            at += 36;
        }
        read_all(&tape);
    }
}

#[test]
fn undamaged_tapes_are_told_and_dumped() {
    for profile in &PROFILES {
        for seed in 0..3 {
            read_all(&gen(profile.name, seed).unwrap());
        }
    }
}
