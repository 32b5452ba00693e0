//! What the library's calls cost, beside the model and a tuned twin.
//!
//!     cargo run --offline -p bench --profile measure
//!     cargo run --offline -p bench --profile measure -- --instructions
//!     cargo run --offline -p bench --profile measure -- --stack
//!
//! The first prints nanoseconds a call, the second instructions by valgrind,
//! the third bytes of stack. With words behind, only cases with one of them in
//! their names.
//!
//!     bench --growth
//!     bench --climb SEED STEPS BASE FILE WHO
//!     bench --fit SEED BASES WHO
//!     bench --climb-vouched SEED STEPS BASE FILE WHO
//!
//! The first prints how a report's instructions grow. The second looks for a
//! base whose report costs `library` or `twin` more than that of one of the bases
//! made to cost most: the library by its instructions, three steps a second, the
//! twin by costs like those that the third fits to the instructions of either. The
//! last looks so for a base and a register, by the instructions of either.
//!
//!     bench --once CASE WHO
//!     bench --input CASE FILE
//!
//! The first makes one call by `library`, `twin` or `model`, for a tool that
//! counts. The second writes a file: what program `release_list` reads to
//! report on the case's base. In place of a case a file's name stands for the
//! report on the base in it, by the register in the file `FILE.register`, for
//! user 0, where there is one.

mod bases;
mod batches;
mod cases;
mod climb;
mod climb_vouched;
mod counting;
mod fit;
mod growth;
mod registers;
mod stack;
mod timing;
mod worst;

use cases::{cases, Case, Who, ALL};

fn main() {
    let words: Vec<String> = std::env::args().skip(1).collect();
    let words: Vec<&str> = words.iter().map(String::as_str).collect();
    match words[..] {
        ["--once", name, by] => counting::once(&case_named(name), who_named(by)),
        ["--input", name, file] => {
            std::fs::write(file, case_named(name).input()).expect("the file can be written");
        }
        ["--instructions", ref some @ ..] => {
            let cases = chosen(some);
            let counts = cases.iter().map(counting::instructions).collect();
            print_table("instructions", &cases, counts);
        }
        ["--stack", ref some @ ..] => {
            let cases = chosen(some);
            let bytes = cases.iter().map(stack::bytes).collect();
            print_table("bytes of stack", &cases, bytes);
        }
        ["--growth"] => growth::print(),
        ["--climb", seed, steps, base, file, by] => {
            climb::print(number(seed), number(steps), base, file, who_named(by));
        }
        ["--climb-vouched", seed, steps, base, file, by] => {
            climb_vouched::print(number(seed), number(steps), base, file, who_named(by));
        }
        ["--fit", seed, bases, by] => fit::print(number(seed), number(bases), who_named(by)),
        ref some => {
            let cases = chosen(some);
            print_table("ns", &cases, timing::least_times(&cases));
        }
    }
}

/// The cases with one of the words in their names, or all.
fn chosen(words: &[&str]) -> Vec<Case> {
    let mut cases = cases();
    cases.extend(cases::batches());
    cases.retain(|case| words.is_empty() || words.iter().any(|word| case.name.contains(word)));
    cases
}

fn number(word: &str) -> u64 {
    word.parse()
        .unwrap_or_else(|_| panic!("{word} is no number"))
}

fn who_named(name: &str) -> Who {
    let who = ALL.into_iter().find(|who| who.name() == name);
    who.unwrap_or_else(|| panic!("nobody is called {name}"))
}

/// The case with this name, or the report on the base in the file, by the register
/// beside it if there is one.
fn case_named(name: &str) -> Case {
    if let Ok(base) = std::fs::read(name) {
        return match std::fs::read(format!("{name}{}", counting::REGISTER)) {
            Ok(register) => cases::report_vouched(name, &base, registers::lent(register)),
            Err(_) => cases::report(name, &base),
        };
    }
    let cases = match name.starts_with("batch") {
        true => cases::batches(),
        false => cases(),
    };
    let case = cases.into_iter().find(|case| case.name == name);
    case.unwrap_or_else(|| panic!("there is no case {name}"))
}

/// A line a case: the three costs, library over twin and model over library.
fn print_table(unit: &str, cases: &[Case], costs: Vec<[f64; 3]>) {
    println!(
        "{unit:<28}{:>12}{:>12}{:>12}{:>14}{:>15}",
        "library", "twin", "model", "library/twin", "model/library"
    );
    for (case, [library, twin, model]) in cases.iter().zip(costs) {
        println!(
            "{:<28}{library:>12.0}{twin:>12.0}{model:>12.0}{:>14.2}{:>15.2}",
            case.name,
            library / twin,
            model / library
        );
    }
}
