//! Instructions a call, counted by valgrind's callgrind.

use std::process::Command;

use crate::cases::{Buffer, Case, Who, ALL};

/// The instructions of one call by each of [`ALL`].
pub fn instructions(case: &Case) -> [f64; 3] {
    ALL.map(|who| counted(&case.name, who) as f64)
}

/// The instructions of a report on a base.
pub fn of_report(base: &[u8], who: Who) -> u64 {
    of_written(&[("", base)], who)
}

/// The same by a register, for user 0.
pub fn of_report_vouched(base: &[u8], register: &[u8], who: Who) -> u64 {
    of_written(&[("", base), (REGISTER, register)], who)
}

/// What the name of a register's file has behind that of its base.
pub const REGISTER: &str = ".register";

/// The instructions of the report on what is written to these files, by the ends of
/// their names.
fn of_written(files: &[(&str, &[u8])], who: Who) -> u64 {
    let name = format!("bench-{}.base", std::process::id());
    let name = std::env::temp_dir().join(name).display().to_string();
    for (end, bytes) in files {
        std::fs::write(format!("{name}{end}"), bytes).expect("the file can be written");
    }
    let count = counted(&name, who);
    for (end, _) in files {
        std::fs::remove_file(format!("{name}{end}")).expect("the file can be removed");
    }
    count
}

/// This program runs itself under valgrind, which counts while the function
/// `measured` runs.
fn counted(case: &str, who: Who) -> u64 {
    let program = std::env::current_exe().expect("this program has a path");
    let output = Command::new("valgrind")
        .args(["--tool=callgrind", "--callgrind-out-file=/dev/null"])
        .arg("--toggle-collect=measured")
        .arg(program)
        .args(["--once", case, who.name()])
        .output()
        .expect("valgrind runs");
    let text = String::from_utf8_lossy(&output.stderr);
    let count = text
        .lines()
        .find_map(|line| line.split("Collected : ").nth(1));
    count
        .and_then(|count| count.trim().parse().ok())
        .unwrap_or_else(|| panic!("valgrind gives no count: {text}"))
}

/// Makes the call once.
pub fn once(case: &Case, who: Who) {
    let mut out: Buffer = [0; 3 * 2_784];
    println!("{}", measured(case, who, &mut out));
}

#[inline(never)]
#[no_mangle]
pub fn measured(case: &Case, who: Who, out: &mut Buffer) -> u64 {
    case.answer(who, out)
}
