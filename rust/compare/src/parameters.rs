//! Parameters checked one by one, and the comparison of the answers.

use model::Reading;

use crate::agreed_check;
use crate::builder::{BaseBuilder, User};

/// What is checked: a parameter, where there are so many roles.
#[derive(Clone, Copy, Debug)]
pub struct Checked {
    pub parameter: u32,
    pub roles: u32,
}

impl Checked {
    /// The refusal and the number of codes tried.
    pub fn by_library(self) -> (u32, u32) {
        let answer = release::answers::parameter(self.parameter, self.roles);
        (answer.refusal, answer.count)
    }

    pub fn by_twin(self) -> (u32, u32) {
        let answer = twin::parameter(self.parameter, self.roles);
        (answer.refusal.into(), answer.count)
    }

    pub fn by_model(self, reading: Reading) -> (u32, u32) {
        let answer = model::parameter_as(reading, self.parameter, self.roles);
        (answer.refusal.into(), answer.count)
    }

    /// The bytes of a base of one user with this parameter, if a base can have so
    /// many roles.
    pub fn base_of_one(self) -> Option<Vec<u8>> {
        let Checked { parameter, roles } = self;
        (1..=8).contains(&roles).then(|| {
            let mut base = BaseBuilder::new(roles as u8);
            base.users.push(User::always(parameter));
            base.bytes()
        })
    }
}

/// The refusal and the number of codes tried that the library, the twin and the
/// model agree on. For a base of one user they all give the same refusal.
pub fn agreed_parameter(checked: Checked) -> (u8, u32) {
    let by_model = checked.by_model(Reading::Paper);
    let others = [
        ("library", checked.by_library()),
        ("twin", checked.by_twin()),
    ];
    for (name, answer) in others {
        assert!(
            answer == by_model,
            "model {by_model:?}, {name} {answer:?}, {checked:?}"
        );
    }
    let (refusal, tried) = (by_model.0 as u8, by_model.1);
    if let Some(base) = checked.base_of_one() {
        let of_base = [agreed_check(&base), twin::check(&base)];
        assert!(
            of_base == [refusal; 2],
            "{by_model:?}, of a base {of_base:?}, {checked:?}"
        );
    }
    (refusal, tried)
}

/// Asserts that all three give this refusal and this number.
pub fn expect_parameter(parameter: u32, roles: u32, answer: (u8, u32)) {
    let checked = Checked { parameter, roles };
    let agreed = agreed_parameter(checked);
    assert!(
        agreed == answer,
        "expected {answer:?}, all gave {agreed:?}, {checked:?}"
    );
}
