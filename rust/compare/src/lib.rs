//! Bases to try, and the comparison of the library's answers with the model's.

pub mod acting;
pub mod batches;
pub mod bounds;
pub mod builder;
pub mod calls;
pub mod capped;
pub mod cases;
pub mod changes;
pub mod choices;
pub mod clashing;
pub mod damage;
pub mod days;
mod decisions;
pub mod excluded;
#[cfg(test)]
mod kinds;
pub mod lent;
pub mod lists;
pub mod lively;
pub mod mornings;
pub mod parameters;
pub mod products;
pub mod queries;
pub mod questions;
pub mod random;
mod reports;
pub mod rivals;
pub mod sheets;
pub mod shop;
pub mod shown;
pub mod sparse;
pub mod tally;
pub mod trust;
pub mod valid;
pub mod vouchers;
pub mod ways;
pub mod withdrawn;

use lent::Lent;
use model::Context;

pub use decisions::{
    agreed_decision, agreed_decision_by, agreed_decision_vouched, expect_decision,
    expect_decision_by, expect_decision_vouched, library_decision, sums_that_tell,
};
pub use reports::{
    agreed_report, agreed_report_by, agreed_report_vouched, expect_report, expect_report_by,
    expect_report_by_refused, expect_report_refused, expect_report_vouched,
    expect_report_vouched_refused, library_report,
};

/// The answer to the base check that the library and the model agree on.
pub fn agreed_check(base: &[u8]) -> u8 {
    let by_model = model::check(base);
    let by_library = release::answers::check(base);
    assert!(
        by_library == u32::from(by_model),
        "model {by_model}, library {by_library}, base {}",
        hex(base)
    );
    by_model
}

/// Asserts that the library and the model both give this answer.
pub fn expect_check(base: &[u8], answer: u8) {
    let agreed = agreed_check(base);
    assert!(
        agreed == answer,
        "expected {answer}, both gave {agreed}, base {}",
        hex(base)
    );
}

/// The context as the library takes it.
pub fn library_context(at: Context) -> release::Context {
    release::Context {
        minute: at.minute,
        day: at.day,
        zone: at.zone,
        date: at.date,
    }
}

/// The answer to a call for the conflict list that the library and the model
/// agree on. They also agree on each byte that the buffer and its guards hold
/// afterwards.
pub fn agreed_conflicts(base: &[u8], lent: &mut Lent) -> model::Answer {
    let mut models = lent.clone();
    let by_model = model::conflicts(base, models.buffer());
    let base_before = base.to_vec();
    let by_library = release::answers::conflicts(base, lent.buffer());
    let case = || format!("{} bytes lent, base {}", lent.length(), hex(&base_before));
    assert!(
        by_library.refusal == u32::from(by_model.refusal) && by_library.count == by_model.count,
        "model {by_model:?}, library {by_library:?}, {}",
        case()
    );
    if let Some(place) = lent.first_difference(&models) {
        panic!(
            "{by_model:?}, byte {place} of the buffer differs, {}",
            case()
        );
    }
    assert!(base == base_before, "the base was written, {}", case());
    by_model
}

/// Asserts that the library and the model both give this answer and write
/// these bytes at the buffer's start and no others, whatever it held before.
pub fn expect_conflicts(base: &[u8], length: usize, answer: (u8, u32), written: &[u8]) {
    let noise = Lent::noisy(&mut random::Random::new(length as u64), length);
    for before in [noise.inverted(), noise] {
        let mut lent = before.clone();
        let agreed = agreed_conflicts(base, &mut lent);
        assert!(
            (agreed.refusal, agreed.count) == answer,
            "expected {answer:?}, both gave {agreed:?}, {length} bytes lent, base {}",
            hex(base)
        );
        let mut expected = before;
        expected.buffer()[..written.len()].copy_from_slice(written);
        let difference = lent.first_difference(&expected);
        assert!(difference.is_none(), "both wrote byte {difference:?}");
    }
}

/// The number of permissions, or 0 if the base is refused.
pub fn permission_count(base: &[u8]) -> usize {
    model::Base::read(base).map_or(0, |base| base.permissions.len())
}

fn hex(bytes: &[u8]) -> String {
    bytes.iter().map(|byte| format!("{byte:02x}")).collect()
}
