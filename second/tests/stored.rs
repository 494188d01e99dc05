//! Stored sessions: a tape prints what its .out file holds, its form is what its .form file holds,
//! and its fills with their leg prices are what its .legs file holds, byte for byte.

use second::print::{tapeform, tapelegs, tapeprint};
use std::collections::BTreeSet;
use std::fs;
use std::path::{Path, PathBuf};

/// The stored files of an extension.
fn stored(extension: &str) -> BTreeSet<PathBuf> {
    let folder = Path::new(env!("CARGO_MANIFEST_DIR")).join("sessions/stored");
    let files = fs::read_dir(folder)
        .unwrap()
        .map(|file| file.unwrap().path());
    files
        .filter(|path| path.extension().unwrap() == extension)
        .collect()
}

/// The tape beside a stored file.
fn tape_of(stored: &Path) -> Vec<u8> {
    fs::read(stored.with_extension("tape")).unwrap()
}

#[test]
fn stored_tapes_print_as_stored() {
    let outs = stored("out");
    assert_eq!(outs.len(), 68);
    for out in outs {
        let expected = fs::read_to_string(&out).unwrap();
        assert_eq!(tapeprint(&tape_of(&out)), expected, "{}", out.display());
    }
}

#[test]
fn stored_tapes_have_their_stored_forms() {
    let forms = stored("form");
    assert_eq!(forms.len(), 124);
    for form in forms {
        let expected = fs::read(&form).unwrap();
        assert_eq!(tapeform(&tape_of(&form)), expected, "{}", form.display());
    }
}

#[test]
fn stored_tapes_have_their_stored_leg_prices() {
    let all = stored("legs");
    assert_eq!(all.len(), 68);
    for legs in all {
        let expected = fs::read_to_string(&legs).unwrap();
        assert_eq!(tapelegs(&tape_of(&legs)), expected, "{}", legs.display());
    }
}

/// No tape is stored for nothing.
#[test]
fn each_stored_tape_has_an_out_or_a_form() {
    let beside = |extension| -> BTreeSet<PathBuf> {
        let files = stored(extension).into_iter();
        files.map(|path| path.with_extension("tape")).collect()
    };
    assert_eq!(stored("tape"), &beside("out") | &beside("form"));
}
