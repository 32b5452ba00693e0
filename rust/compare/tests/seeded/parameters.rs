//! The check of one parameter: of sets of roles, near them, and any numbers.

use compare::parameters::{agreed_parameter, Checked};
use compare::products::random_parameters;

use crate::seen::{Call, Seen};

pub fn compare(seen: &mut Seen) {
    parameters(200_000, |checked| {
        let (refusal, tried) = agreed_parameter(checked);
        seen.answer(Call::Parameter, refusal);
        seen.tried.note(checked.roles, refusal, tried);
    });
}

/// The first parameters of the comparison.
pub fn parameters(cases: usize, attempt: impl FnMut(Checked)) {
    random_parameters(181, cases, attempt);
}
