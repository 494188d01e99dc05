//! M-100 sentence by sentence: the written form of a tape.

mod common;

use common::{clock, meaning, spread};
use second::form::{form, write_form};
use second::gen::random::Random;
use second::gen::{gen, PROFILES};
use second::print::tapeprint;
use second::text::{dump, make};
use std::ops::Range;

// Tapes by their bytes, with the numbers of the paper.

/// A tape's parts: the settings of its header, its legs and its messages.
#[derive(Clone)]
struct Parts {
    settings: Vec<u8>,
    legs: Vec<u8>,
    messages: Vec<u8>,
}

fn u16_at(tape: &[u8], place: usize) -> usize {
    usize::from(u16::from_le_bytes([tape[place], tape[place + 1]]))
}

impl Parts {
    /// The parts of a tape that is not refused.
    fn of(tape: &[u8]) -> Parts {
        let section = |place, bytes| {
            let (count, offset) = (u16_at(tape, place), u16_at(tape, place + 2));
            match count {
                0 => Vec::new(),
                _ => tape[offset..offset + count * bytes].to_vec(),
            }
        };
        Parts {
            settings: tape[8..40].to_vec(),
            legs: section(0, 24),
            messages: section(4, 36),
        }
    }

    fn bytes(&self) -> usize {
        40 + self.legs.len() + self.messages.len()
    }

    /// A tape of so many bytes with the sections at these offsets. Whatever is no part is a 7.
    fn at(&self, legs_at: usize, messages_at: usize, length: usize) -> Vec<u8> {
        let mut tape = vec![7; length];
        let header = [
            self.legs.len() / 24,
            legs_at,
            self.messages.len() / 36,
            messages_at,
        ];
        for (place, number) in (0..).step_by(2).zip(header) {
            tape[place..place + 2].copy_from_slice(&u16::try_from(number).unwrap().to_le_bytes());
        }
        tape[8..40].copy_from_slice(&self.settings);
        for (at, section) in [(legs_at, &self.legs), (messages_at, &self.messages)] {
            if !section.is_empty() {
                tape[at..at + section.len()].copy_from_slice(section);
            }
        }
        tape
    }

    /// "Legs at offset 40, messages straight after."
    fn plain(&self) -> Vec<u8> {
        self.at(40, 40 + self.legs.len(), self.bytes())
    }
}

/// The own case of document 01, and its parts: two legs, five messages, 268 bytes.
fn own_case() -> (Vec<u8>, Parts) {
    let tape = make(include_bytes!("../sessions/own-case.txt")).unwrap();
    assert_eq!(tape.len(), 40 + 2 * 24 + 5 * 36);
    let parts = Parts::of(&tape);
    (tape, parts)
}

/// The places that a record of a kind uses. "All use time", and the kind itself is told by its
/// byte.
fn used(kind: u8) -> Vec<usize> {
    let fields: &[(usize, usize)] = match kind {
        // Leg; bid size, bid, ask, ask size.
        1 => &[(3, 4), (12, 28)],
        // Leg; bid, ask.
        2 => &[(3, 4), (16, 24)],
        // Side, account, wish, id, participant, units, price.
        3 => &[(1, 20)],
        // The same less wish.
        4 => &[(1, 3), (4, 20)],
        // The same less wish and account.
        5 => &[(1, 2), (4, 20)],
        // Id, participant.
        6 => &[(4, 12)],
        // Nothing.
        7 => &[],
        // Id, participant, units.
        8 => &[(4, 16)],
        _ => panic!("{kind} is no kind"),
    };
    let fields = fields.iter().flat_map(|&(from, to)| from..to);
    [0].into_iter().chain(fields).chain(28..36).collect()
}

/// A record of a kind whose every other byte is its place and 100.
fn full_record(kind: u8) -> [u8; 36] {
    let mut record = std::array::from_fn(|at| at as u8 + 100);
    record[0] = kind;
    record
}

/// The own case with these messages in place of its own.
fn with_messages(messages: &[[u8; 36]]) -> Parts {
    let messages = messages.concat();
    Parts {
        messages,
        ..own_case().1
    }
}

/// The form's messages.
fn form_messages(parts: &Parts) -> Vec<u8> {
    Parts::of(&form(&parts.plain()).unwrap()).messages
}

// "Legs at offset 40, messages straight after, unused fields zero, any auction wish written as 1."

#[test]
fn sections_stand_at_40_and_straight_after() {
    let (own, parts) = own_case();
    assert_eq!((u16_at(&own, 2), u16_at(&own, 6)), (40, 88));
    let spellings = [
        // As it is, and with a gap after, before and between.
        (40, 88, 268),
        (40, 88, 269),
        (40, 88, 65_535),
        (41, 89, 269),
        (40, 101, 281),
        // The messages first, without gaps and with all three.
        (220, 40, 268),
        (247, 55, 300),
        // As far from the header as they go.
        (65_307, 65_355, 65_535),
        (65_487, 65_307, 65_535),
    ];
    for (legs_at, messages_at, length) in spellings {
        let tape = parts.at(legs_at, messages_at, length);
        assert_eq!(form(&tape), Ok(own.clone()), "{legs_at} {messages_at}");
    }
}

#[test]
fn unused_fields_are_zero_and_used_ones_stay() {
    for kind in 1..=8 {
        let record = full_record(kind);
        let mut expected = [0; 36];
        used(kind).iter().for_each(|&at| expected[at] = record[at]);
        if kind == 3 {
            expected[3] = 1;
        }
        assert_eq!(form_messages(&with_messages(&[record])), expected, "{kind}");
    }
}

#[test]
fn any_wish_is_written_as_1_and_a_leg_as_it_is() {
    for byte in 0..=255 {
        let records = [1, 2, 3, 4, 5, 6, 7, 8].map(|kind| {
            let mut record = full_record(kind);
            record[3] = byte;
            record
        });
        let messages = form_messages(&with_messages(&records));
        let written: Vec<u8> = messages.chunks(36).map(|record| record[3]).collect();
        assert_eq!(written, [byte, byte, byte.min(1), 0, 0, 0, 0, 0]);
    }
}

#[test]
fn messages_keep_their_sequence() {
    let records = [7, 3, 8, 1, 6, 6, 2, 5, 8, 4, 1].map(full_record);
    let messages = form_messages(&with_messages(&records));
    let kinds: Vec<u8> = messages.chunks(36).map(|record| record[0]).collect();
    assert_eq!(kinds, [7, 3, 8, 1, 6, 6, 2, 5, 8, 4, 1]);
}

// "Every tape the reader accepts" (reading a): whatever neither 60 nor 61 refuses.

#[test]
fn a_tape_that_does_not_open_has_a_form() {
    let (own, parts) = own_case();
    // A symbol that does not begin with capitals, an interval of 0, a ratio of 0.
    let places = [40, 8, 40 + 22];
    for (place, refusal) in places.into_iter().zip([2, 7, 5]) {
        let mut tape = own.clone();
        tape[place..place + 2].fill(0);
        assert_eq!(tapeprint(&tape), format!("refused 0 {refusal}\n"));
        assert_eq!(form(&tape), Ok(tape));
    }
    // No legs, one, five, and as many as a tape holds.
    for legs in [0, 1, 5, 2_728] {
        let legs = parts.legs.iter().copied().cycle().take(24 * legs);
        let parts = Parts {
            legs: legs.collect(),
            messages: Vec::new(),
            ..parts.clone()
        };
        let tape = parts.at(65_535 - parts.legs.len(), 0, 65_535);
        assert_eq!(tapeprint(&tape), "refused 0 1\n");
        assert_eq!(form(&tape), Ok(parts.plain()));
    }
}

#[test]
fn a_refused_tape_has_no_form() {
    let (own, parts) = own_case();
    let refusals = [
        // Too short, too long.
        (Vec::new(), 60),
        (own[..39].to_vec(), 60),
        (parts.at(40, 88, 65_536), 60),
        // Over the header, over each other by one byte, past the end by one byte.
        (parts.at(39, 88, 268), 60),
        (parts.at(220, 39, 268), 60),
        (parts.at(40, 87, 268), 60),
        (parts.at(40, 88, 268)[..267].to_vec(), 60),
        (parts.at(220, 40, 268)[..267].to_vec(), 60),
        // Of no kind.
        (with_messages(&[[0; 36]]).plain(), 61),
        (with_messages(&[full_record(8), full_record(9)]).plain(), 61),
        (with_messages(&[full_record(10)]).plain(), 61),
        (with_messages(&[full_record(255)]).plain(), 61),
        // Both.
        (with_messages(&[full_record(9)]).at(40, 87, 124), 60),
    ];
    for (tape, refusal) in refusals {
        assert_eq!(form(&tape), Err(refusal));
        assert_eq!(tapeprint(&tape), format!("refused 0 {refusal}\n"));
    }
}

// Empty sections and wrong values (reading b).

#[test]
fn an_empty_section_stands_where_it_would_begin() {
    let (_, parts) = own_case();
    let no_legs = Parts {
        legs: Vec::new(),
        ..parts.clone()
    };
    let no_messages = Parts {
        messages: Vec::new(),
        ..parts
    };
    let neither = Parts {
        legs: Vec::new(),
        ..no_messages.clone()
    };
    let offsets = |parts: &Parts, tape: &[u8]| {
        let form = form(tape).unwrap();
        assert_eq!(form, parts.plain());
        (u16_at(&form, 2), u16_at(&form, 6))
    };
    // In the header, in the other section, at its ends, and past the end of the tape.
    for anywhere in [0, 1, 39, 40, 41, 60, 87, 88, 268, 269, 65_534, 65_535] {
        assert_eq!(offsets(&no_legs, &no_legs.at(anywhere, 40, 220)), (40, 40));
        assert_eq!(offsets(&no_legs, &no_legs.at(anywhere, 51, 240)), (40, 40));
        let tape = no_messages.at(40, anywhere, 88);
        assert_eq!(offsets(&no_messages, &tape), (40, 88));
        let tape = no_messages.at(45, anywhere, 100);
        assert_eq!(offsets(&no_messages, &tape), (40, 88));
        for other in [0, 40, 65_535] {
            assert_eq!(
                offsets(&neither, &neither.at(anywhere, other, 40)),
                (40, 40)
            );
            assert_eq!(
                offsets(&neither, &neither.at(other, anywhere, 77)),
                (40, 40)
            );
        }
    }
    let mut zeros = [0; 40];
    (zeros[2], zeros[6]) = (40, 40);
    assert_eq!(form(&[0; 40]), Ok(zeros.to_vec()));
}

#[test]
fn wrong_values_in_used_fields_stay() {
    let mut order = [0; 36];
    order[..4].copy_from_slice(&[3, b'X', 9, 1]);
    order[16..20].fill(0xff);
    let mut response = [0; 36];
    response[..3].copy_from_slice(&[4, 0, 255]);
    response[28..].fill(0xff);
    let mut modify = [0; 36];
    modify[..2].copy_from_slice(&[5, b'b']);
    modify[12..16].fill(0xff);
    let mut reduce = [0; 36];
    reduce[0] = 8;
    reduce[12..16].fill(0xff);
    let mut local = [0; 36];
    local[..4].copy_from_slice(&[1, 0, 0, 200]);
    local[20..24].copy_from_slice(&i32::MIN.to_le_bytes());
    let mut national = [0; 36];
    national[..4].copy_from_slice(&[2, 0, 0, 255]);
    let records = [order, response, modify, reduce, local, national];
    assert_eq!(form_messages(&with_messages(&records)), records.concat());
}

// "The meaning of a tape is its counts and settings, its legs, and the used fields of its messages
// in their sequence, a wish being yes or no. Two accepted tapes have the same meaning exactly when
// their written forms are the same bytes."

/// The accepted tapes of all profiles, each with its form.
fn accepted(seeds: Range<u64>) -> impl Iterator<Item = (String, Vec<u8>, Vec<u8>)> {
    PROFILES.iter().flat_map(move |profile| {
        let few = |seed: &u64| profile.name != "long" || *seed < 2;
        seeds.clone().filter(few).filter_map(|seed| {
            let tape = gen(profile.name, seed).unwrap();
            let form = form(&tape).ok()?;
            Some((format!("{} {seed}", profile.name), tape, form))
        })
    })
}

/// The tape's meaning in other bytes.
fn respelled(tape: &[u8], random: &mut Random) -> Vec<u8> {
    let mut parts = Parts::of(tape);
    for record in parts.messages.chunks_mut(36) {
        let used = used(record[0]);
        for (at, byte) in record.iter_mut().enumerate() {
            if !used.contains(&at) {
                *byte = random.number() as u8;
            }
        }
        if record[0] == 3 && record[3] != 0 {
            record[3] = random.up_to(255) as u8;
        }
    }
    let mut room = 65_535 - parts.bytes();
    let [before, between, after] = [0; 3].map(|_: usize| {
        let gap = random.below(room.min(60) as u64 + 1) as usize;
        room -= gap;
        gap
    });
    let first = 40 + before;
    let (mut legs_at, mut messages_at) = if random.once_in(2) {
        (first, first + parts.legs.len() + between)
    } else {
        (first + parts.messages.len() + between, first)
    };
    if parts.legs.is_empty() {
        legs_at = random.below(65_536) as usize;
    }
    if parts.messages.is_empty() {
        messages_at = random.below(65_536) as usize;
    }
    let length = parts.bytes() + before + between + after;
    let mut respelled = parts.at(legs_at, messages_at, length);
    let legs = legs_at..legs_at + parts.legs.len();
    let messages = messages_at..messages_at + parts.messages.len();
    for (at, byte) in respelled.iter_mut().enumerate().skip(40) {
        if !legs.contains(&at) && !messages.contains(&at) {
            *byte = random.number() as u8;
        }
    }
    respelled
}

#[test]
fn one_meaning_has_one_form() {
    let mut random = Random::new(100);
    let mut others = 0;
    for (name, tape, form_of_tape) in accepted(0..40) {
        let other = respelled(&tape, &mut random);
        assert_eq!(meaning(&tape), meaning(&other), "{name}");
        assert_eq!(form(&other), Ok(form_of_tape), "{name}");
        others += usize::from(tape != other);
    }
    assert!(others >= 500, "{others}");
}

/// One byte of the form at a time: all of them mean something, but for the offsets, the unused
/// fields and which yes a wish is.
#[test]
fn tapes_that_differ_in_one_used_byte_differ_in_their_forms() {
    let mut random = Random::new(101);
    let mut tapes = 0;
    for (name, _, form_of_tape) in accepted(40..55) {
        let messages = u16_at(&form_of_tape, 6);
        let mut places: Vec<usize> = (8..messages).collect();
        for at in (messages..form_of_tape.len()).step_by(36) {
            let used = used(form_of_tape[at]);
            places.extend(used[1..].iter().map(|place| at + place));
        }
        for _ in 0..20 {
            let place = random.pick(&places);
            let mut other = form_of_tape.clone();
            let is_wish =
                place >= messages && (place - messages) % 36 == 3 && form_of_tape[place - 3] == 3;
            if is_wish {
                other[place] ^= 1;
            } else {
                other[place] ^= random.up_to(255) as u8;
            }
            let other = respelled(&other, &mut random);
            assert_ne!(meaning(&form_of_tape), meaning(&other), "{name} {place}");
            assert_ne!(form(&other).unwrap(), form_of_tape, "{name} {place}");
            tapes += 1;
        }
    }
    assert!(tapes >= 5_000, "{tapes}");
}

/// Any bytes of a tape changed, whatever they are: the forms are the same if the meanings are.
#[test]
fn forms_are_the_same_exactly_when_meanings_are() {
    let mut random = Random::new(102);
    let (mut same, mut differ) = (0, 0);
    for (name, tape, form_of_tape) in accepted(55..75) {
        for _ in 0..10 {
            let mut other = respelled(&tape, &mut random);
            for _ in 0..1 + random.below(2) {
                let at = random.below(other.len() as u64) as usize;
                other[at] = random.pick(&[0, 1, 7, random_byte(at)]);
            }
            let Ok(form_of_other) = form(&other) else {
                continue;
            };
            let one_meaning = meaning(&tape) == meaning(&other);
            assert_eq!(form_of_tape == form_of_other, one_meaning, "{name}");
            *(if one_meaning { &mut same } else { &mut differ }) += 1;
        }
    }
    assert!(same >= 500 && differ >= 500, "{same} {differ}");
}

fn random_byte(at: usize) -> u8 {
    Random::new(at as u64).number() as u8
}

#[test]
fn counts_are_part_of_the_meaning() {
    let (own, parts) = own_case();
    let fewer = Parts {
        messages: parts.messages[..4 * 36].to_vec(),
        ..parts.clone()
    };
    // The fifth message is still there, but in a gap.
    let mut tape = own.clone();
    tape[4] = 4;
    assert_eq!(form(&tape), Ok(fewer.plain()));
    assert_ne!(form(&tape).unwrap(), own);
    // The second leg's bytes alone, as the only leg.
    let mut tape = own.clone();
    tape[0] = 1;
    tape[2] = 64;
    let one = Parts {
        legs: parts.legs[24..].to_vec(),
        ..parts
    };
    assert_eq!(form(&tape), Ok(one.plain()));
}

// "And the written form of a written form is itself."

#[test]
fn the_form_of_a_form_is_itself() {
    for (name, tape, form_of_tape) in accepted(0..40) {
        assert_eq!(form(&form_of_tape), Ok(form_of_tape.clone()), "{name}");
        assert!(form_of_tape.len() <= tape.len(), "{name}");
    }
}

#[test]
fn a_form_prints_what_its_tape_prints() {
    for (name, tape, form_of_tape) in accepted(0..25) {
        assert_eq!(tapeprint(&form_of_tape), tapeprint(&tape), "{name}");
    }
}

/// The text has the meaning alone, and `make` writes it as the form has it.
#[test]
fn a_form_is_what_make_writes_of_the_text() {
    for (name, tape, form_of_tape) in accepted(0..25) {
        let made = make(dump(&tape).unwrap().as_bytes());
        assert_eq!(made, Ok(form_of_tape), "{name}");
    }
}

#[test]
fn the_greatest_tapes_have_forms() {
    let most = spread().tape(&[clock(1); 1_817]);
    assert_eq!(most.len(), 40 + 2 * 24 + 1_817 * 36);
    assert_eq!(form(&most), Ok(most.clone()));
    let parts = Parts::of(&most);
    assert_eq!(form(&parts.at(65_487, 40, 65_535)), Ok(most.clone()));
    assert_eq!(form(&parts.at(75, 123, 65_535)), Ok(most));
    let clocks = spread().legs(&[]).tape(&[clock(1); 1_819]);
    let parts = Parts::of(&clocks);
    assert_eq!(form(&parts.at(0, 51, 65_535)), Ok(clocks));
}

// "Bytes of the lent buffer past the form stay. A buffer too short for it is refused with 70, after
// 60 and 61, and under each of the three it is left untouched."

/// A buffer with a byte of its own in each place.
fn buffer(length: usize) -> Vec<u8> {
    (0..length).map(random_byte).collect()
}

#[test]
fn bytes_past_the_form_stay() {
    let (own, parts) = own_case();
    let tape = parts.at(247, 55, 300);
    for length in [268, 269, 300, 1_000, 70_000] {
        let mut lent = buffer(length);
        assert_eq!(write_form(&tape, &mut lent), Ok(268));
        assert_eq!(lent[..268], own);
        assert_eq!(lent[268..], buffer(length)[268..]);
    }
}

#[test]
fn a_buffer_too_short_is_refused_with_70_and_stays() {
    let (_, parts) = own_case();
    let tape = parts.at(247, 55, 300);
    for length in 0..268 {
        let mut lent = buffer(length);
        assert_eq!(write_form(&tape, &mut lent), Err(70));
        assert_eq!(lent, buffer(length));
    }
}

#[test]
fn a_refused_tape_comes_before_a_short_buffer_and_leaves_it() {
    let (own, _) = own_case();
    let mut wrong_kind = own.clone();
    wrong_kind[88 + 4 * 36] = 9;
    let both = &wrong_kind[..267];
    for (tape, refusal) in [(&own[..267], 60), (&wrong_kind, 61), (both, 60)] {
        for length in [0, 1, 267, 268, 70_000] {
            let mut lent = buffer(length);
            assert_eq!(write_form(tape, &mut lent), Err(refusal));
            assert_eq!(lent, buffer(length));
        }
    }
}

/// Every tape, into a buffer that is longer, one that fits and one that is too short by one.
#[test]
fn a_lent_buffer_gets_the_form() {
    for profile in &PROFILES {
        for seed in 0..25 {
            let tape = gen(profile.name, seed).unwrap();
            let mut lent = buffer(65_535);
            match form(&tape) {
                Ok(form) => {
                    let length = form.len();
                    assert_eq!(write_form(&tape, &mut lent), Ok(length));
                    assert_eq!(lent[..length], form);
                    assert_eq!(lent[length..], buffer(65_535)[length..]);
                    let mut exact = buffer(length);
                    assert_eq!(write_form(&tape, &mut exact), Ok(length));
                    assert_eq!(exact, form);
                    let mut short = buffer(length - 1);
                    assert_eq!(write_form(&tape, &mut short), Err(70));
                    assert_eq!(short, buffer(length - 1));
                }
                Err(refusal) => {
                    assert_eq!(tapeprint(&tape), format!("refused 0 {refusal}\n"));
                    assert_eq!(write_form(&tape, &mut lent), Err(refusal));
                    assert_eq!(lent, buffer(65_535));
                }
            }
        }
    }
}
