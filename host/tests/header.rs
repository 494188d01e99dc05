//! The C header: programs over it, built as C and as C++, and run under valgrind where that is installed.

use std::path::{Path, PathBuf};
use std::process::Command;

const HERE: &str = env!("CARGO_MANIFEST_DIR");

/// A compiler, how it is told the language, and what the programs' names end with.
struct Language(&'static str, [&'static str; 3], &'static str);

const C: Language = Language("cc", ["-x", "c", "-std=c99"], "c");
const CPP: Language = Language("c++", ["-x", "c++", "-std=c++11"], "cpp");

fn is_installed(program: &str) -> bool {
    Command::new(program).arg("--version").output().is_ok()
}

/// Builds a program of this folder, all warnings errors.
fn built(name: &str, Language(compiler, language, end): &Language) -> PathBuf {
    let program = Path::new(env!("CARGO_TARGET_TMPDIR")).join(format!("{name}_{end}"));
    let built = Command::new(compiler)
        .current_dir(HERE)
        .args(["-Wall", "-Wextra", "-Wpedantic", "-Werror", "-O2", "-Iinclude"])
        .args(language)
        .arg(format!("tests/{name}.c"))
        .args(["-x", "none", "../target/staticlib/libtumghavi.a", "-o"])
        .arg(&program)
        .output()
        .expect("the compiler runs");
    assert!(built.status.success(), "{}", String::from_utf8_lossy(&built.stderr));
    program
}

fn prints(mut command: Command, expected: &str) {
    let output = command.output().expect("the program runs");
    assert_eq!(String::from_utf8_lossy(&output.stdout), expected);
    assert!(output.status.success(), "{}", String::from_utf8_lossy(&output.stderr));
}

/// A program prints what it must in both languages, and touches nothing else than it may.
fn prints_in_both(name: &str, expected: &str) {
    let program = built(name, &C);
    prints(Command::new(&program), expected);
    if is_installed("valgrind") {
        let mut command = Command::new("valgrind");
        command.args(["--quiet", "--leak-check=full", "--error-exitcode=1"]).arg(&program);
        prints(command, expected);
    }
    if is_installed(CPP.0) {
        prints(Command::new(built(name, &CPP)), expected);
    }
}

/// Document 01's own case, as tapeprint prints it.
#[test]
fn own_case() {
    let expected = Path::new(HERE).join("../crates/tapeprint/stdout");
    prints_in_both("own_case", &std::fs::read_to_string(expected).expect("the stored output"));
}

/// Each field stands where the library has it.
#[test]
fn fields() {
    prints_in_both("fields", "");
}
