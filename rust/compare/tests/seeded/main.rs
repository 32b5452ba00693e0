//! Compares the calls on many random bases, sound, damaged and of the form before
//! users had days, shows that each wrong reading of the rules would be noticed,
//! and tries what is said of a changed weight, of trust and of a threshold.

mod batched;
mod bounds;
mod checks;
mod conflicts;
mod dated;
mod decisions;
mod forms;
mod listed;
mod lists;
mod parameters;
mod queried;
mod readings;
mod reports;
mod seen;
mod sheets;
mod shifts;
mod shifts_by_lists;
mod tried;
mod trust_laws;
mod trusted;
mod vouched;
mod withdrawn;

use std::time::{Duration, Instant};

use seen::Seen;

/// All of it is done in this time.
const LONGEST: Duration = Duration::from_secs(300);

#[test]
fn seeded_comparison() {
    let start = Instant::now();
    let mut seen = Seen::default();
    checks::compare(&mut seen);
    decisions::compare(&mut seen);
    reports::compare(&mut seen);
    conflicts::compare(&mut seen);
    sheets::compare(&mut seen);
    bounds::compare(&mut seen);
    lists::compare(&mut seen);
    parameters::compare(&mut seen);
    forms::compare(&mut seen);
    vouched::compare(&mut seen);
    batched::compare(&mut seen);
    let taken = start.elapsed();
    seen.print(taken);
    seen.expect_all();
    assert!(taken <= LONGEST, "the comparison took {taken:?}");
}
