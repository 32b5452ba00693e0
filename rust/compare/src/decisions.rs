//! The comparison of decisions: by a resolution list or without one, and for a
//! requester by a register.

use model::Reading;

use crate::batches::expect_query;
use crate::calls::Decision;
use crate::hex;
use crate::lists::List;
use crate::questions::Asked;
use crate::trust::Trust;

/// The library's answer to a question about a base, by a list or without one.
pub fn library_decision(base: &[u8], list: List, asked: &Asked) -> u32 {
    Decision::By(list).by_library(base, asked)
}

/// The answer to a question about a base that the library, the twin and the
/// model agree on.
pub fn agreed_decision(base: &[u8], asked: &Asked) -> u8 {
    agreed(base, Decision::By(None), asked)
}

/// The same by a list.
pub fn agreed_decision_by(base: &[u8], list: &[u8], asked: &Asked) -> u8 {
    agreed(base, Decision::By(Some(list)), asked)
}

/// The same for the user of the group's first entry as requester.
pub fn agreed_decision_vouched(base: &[u8], trust: &Trust, asked: &Asked) -> u8 {
    agreed(base, Decision::Vouched(trust), asked)
}

fn agreed(base: &[u8], decision: Decision, asked: &Asked) -> u8 {
    let by_model = decision.by_model(Reading::Paper, base, asked);
    let by_library = ("library", decision.by_library(base, asked));
    let by_twin = ("twin", decision.by_twin(base, asked).into());
    for (name, answer) in [by_library, by_twin] {
        assert!(
            answer == u32::from(by_model),
            "model {by_model}, {name} {answer}, {}",
            described(base, decision, asked)
        );
    }
    by_model
}

/// Sums that tell a weight: the answer to one entry of that weight where the sum
/// has to be this number. It is granted at the weight, and not at one more or
/// less; a role without weight is told by 16.
pub fn sums_that_tell(weight: u8) -> Vec<(u8, u8)> {
    if weight == 0 {
        return vec![(0, 16)];
    }
    vec![(weight - 1, 17), (weight, 0), (weight + 1, 17)]
}

/// Asserts that all of them give this answer, and the library to a query too that
/// asks the same.
pub fn expect_decision(base: &[u8], asked: &Asked, answer: u8) {
    expect(base, Decision::By(None), asked, answer);
    expect_query(base, asked, answer);
}

/// The same by a list.
pub fn expect_decision_by(base: &[u8], list: &[u8], asked: &Asked, answer: u8) {
    expect(base, Decision::By(Some(list)), asked, answer);
}

/// The same for the user of the group's first entry as requester.
pub fn expect_decision_vouched(base: &[u8], trust: &Trust, asked: &Asked, answer: u8) {
    expect(base, Decision::Vouched(trust), asked, answer);
}

fn expect(base: &[u8], decision: Decision, asked: &Asked, answer: u8) {
    let agreed = agreed(base, decision, asked);
    assert!(
        agreed == answer,
        "expected {answer}, all gave {agreed}, {}",
        described(base, decision, asked)
    );
}

fn described(base: &[u8], decision: Decision, asked: &Asked) -> String {
    let Asked {
        permission,
        at,
        group,
    } = asked;
    let (group, base) = (hex(group), hex(base));
    format!("permission {permission}, {at:?}, {decision:?}, group {group}, base {base}")
}
