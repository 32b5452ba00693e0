//! The way in from C and C++: the header, and the examples that use it.

use std::io::Write;
use std::path::{Path, PathBuf};
use std::process::{Command, Stdio};

use release::example::SMALL_SHOP;

/// The project's folder.
const PROJECT: &str = concat!(env!("CARGO_MANIFEST_DIR"), "/../..");

const C: Language = Language {
    compiler: "cc",
    words: &["-x", "c", "-std=c11"],
};

const CPP: Language = Language {
    compiler: "c++",
    words: &["-x", "c++", "-std=c++11"],
};

const WARNINGS: [&str; 4] = ["-Wall", "-Wextra", "-Wpedantic", "-Werror"];

struct Language {
    compiler: &'static str,
    words: &'static [&'static str],
}

impl Language {
    fn has_compiler(&self) -> bool {
        let version = Command::new(self.compiler).arg("--version").output();
        version.is_ok()
    }

    /// Compiles a file of the project against the library and names the
    /// program.
    fn compile(&self, source: &str, program: &str) -> PathBuf {
        let program = Path::new(env!("CARGO_TARGET_TMPDIR")).join(program);
        let compiler = self.compiler;
        let output = Command::new(compiler)
            .current_dir(PROJECT)
            .args(self.words)
            .args(WARNINGS)
            .args(["-Iinclude", source])
            .args(["-x", "none", "target/staticlib/libexports.a", "-o"])
            .arg(&program)
            .output()
            .unwrap_or_else(|error| panic!("no compiler {compiler}: {error}"));
        let messages = String::from_utf8_lossy(&output.stderr);
        assert!(output.status.success(), "{compiler} {source}:\n{messages}");
        program
    }
}

/// What a program prints on this input. It has to end well.
fn printed(program: &Path, input: &[u8]) -> String {
    let mut running = Command::new(program)
        .stdin(Stdio::piped())
        .stdout(Stdio::piped())
        .spawn()
        .expect("the program starts");
    let mut stdin = running.stdin.take().expect("its input is piped");
    let _ = stdin.write_all(input);
    drop(stdin);
    let output = running.wait_with_output().expect("the program ends");
    let text = String::from_utf8(output.stdout).expect("it prints text");
    assert!(output.status.success(), "{:?}:\n{text}", output.status);
    text
}

/// The lines are those of program `release_list` for the same base.
#[test]
fn the_example_prints_the_small_shops_report() {
    let example = C.compile("examples/shop.c", "shop");
    let expected = format!("{PROJECT}/crates/release_list/stdout");
    let expected = std::fs::read_to_string(expected).expect("the program's expected output");
    assert_eq!(printed(&example, &[]), expected);
    assert_eq!(expected, "permission 0: 2 0/0 1/1\nreleasable 1\n");
}

#[test]
fn the_example_prints_a_morning() {
    let example = C.compile("examples/morning.c", "morning");
    let expected = "\
        minute 500: 0/0 signed, release refused 17\n\
        minute 530: 0/1 refused 14, release refused 17\n\
        minute 560: 2/1 refused 15, release refused 17\n\
        minute 590: 1/2 signed, release granted\n\
        minute 620: 0 withdrawn, release refused 17\n\
        minute 650: 0 refused 23, release refused 17\n\
        minute 680: 0/0 signed, release granted\n\
        permission 0: 1/2 0/0\n";
    assert_eq!(printed(&example, &[]), expected);
}

#[test]
fn the_example_prints_who_can_release_by_lists() {
    let example = C.compile("examples/overrides.c", "overrides");
    let expected = "\
        policies 0 and 3 conflict\n\
        table order: 0/0 1/1\n\
        later day: nobody\n\
        larger rank: 0/0 1/1\n\
        smaller weight: nobody\n\
        larger rank, later day: 0/0 1/1\n\
        no rule: refused 22\n";
    assert_eq!(printed(&example, &[]), expected);
}

#[test]
fn the_example_prints_who_vouches() {
    let example = C.compile("examples/vouching.c", "vouching");
    let expected = "\
        manager with a clerk: granted\n\
        clerk with the manager: refused 26\n\
        manager with the buyer: refused 26\n\
        requester 0: 0/0 2/2\n\
        requester 1: no group\n\
        requester 2: no group\n\
        requester 3: 3/2 0/0\n\
        requester 4: refused 13\n";
    assert_eq!(printed(&example, &[]), expected);
}

#[test]
fn the_example_prints_a_refresh() {
    let example = C.compile("examples/refresh.c", "refresh");
    let expected = "\
        minute 480\n\
        milk, price: drawn\n\
        milk, offer: refused 17\n\
        bread, price: refused 16\n\
        bread, allergens: refused 12\n\
        eggs, price: refused 15\n\
        eggs, offer: refused 16\n\
        eggs, origin: refused 10\n\
        minute 600\n\
        milk, price: drawn\n\
        milk, offer: refused 17\n\
        bread, price: drawn\n\
        bread, allergens: refused 12\n\
        eggs, price: refused 15\n\
        eggs, offer: drawn\n\
        eggs, origin: refused 10\n";
    assert_eq!(printed(&example, &[]), expected);
}

#[test]
fn every_call_from_c() {
    let calls = C.compile("rust/release/tests/calls.c", "calls_c");
    assert_eq!(printed(&calls, &SMALL_SHOP), "ok\n");
}

#[test]
fn every_call_from_cpp() {
    if !CPP.has_compiler() {
        eprintln!("no C++ compiler: not tried");
        return;
    }
    let calls = CPP.compile("rust/release/tests/calls.c", "calls_cpp");
    assert_eq!(printed(&calls, &SMALL_SHOP), "ok\n");
}

/// The program's input is minute 480, day 0, zone 0, some date in 2 bytes and the
/// same base.
#[test]
fn the_example_base_is_the_programs_input() {
    let input = std::fs::read(format!("{PROJECT}/crates/release_list/stdin"));
    let input = input.expect("the program's input");
    assert_eq!(input[..4], [0xe0, 0x01, 0, 0]);
    assert_eq!(input[6..], SMALL_SHOP);
}
