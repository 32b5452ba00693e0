//! Bounds on what a changed weight can shift, and the comparison of the answers.

use model::Reading;

use crate::hex;

/// What a bound is asked for: a policy's number, its new weight and a group.
pub struct Changed {
    pub policy: u32,
    pub weight: u32,
    pub group: Vec<u8>,
}

impl Changed {
    /// The question about these entries: user and role acted in.
    pub fn new(policy: u32, weight: u32, entries: &[[u8; 2]]) -> Changed {
        Changed {
            policy,
            weight,
            group: entries.concat(),
        }
    }

    /// The refusal and the bound.
    pub fn by_library(&self, base: &[u8]) -> (u32, u32) {
        let answer = release::answers::bound(base, self.policy, self.weight, &self.group);
        (answer.refusal, answer.count)
    }

    pub fn by_twin(&self, base: &[u8]) -> (u32, u32) {
        let answer = twin::bound(base, self.policy, self.weight, &self.group);
        (answer.refusal.into(), answer.count)
    }

    pub fn by_model(&self, reading: Reading, base: &[u8]) -> (u32, u32) {
        let answer = model::bound_as(reading, base, self.policy, self.weight, &self.group);
        (answer.refusal.into(), answer.count)
    }
}

/// The refusal and the bound that the library, the twin and the model agree on.
pub fn agreed_bound(base: &[u8], changed: &Changed) -> (u8, u32) {
    let by_model = changed.by_model(Reading::Paper, base);
    let others = [
        ("library", changed.by_library(base)),
        ("twin", changed.by_twin(base)),
    ];
    for (name, answer) in others {
        assert!(
            answer == by_model,
            "model {by_model:?}, {name} {answer:?}, {}",
            described(base, changed)
        );
    }
    let (refusal, bound) = by_model;
    (refusal as u8, bound)
}

/// Asserts that all three give this refusal and this bound.
pub fn expect_bound(base: &[u8], changed: &Changed, answer: (u8, u32)) {
    let agreed = agreed_bound(base, changed);
    assert!(
        agreed == answer,
        "expected {answer:?}, all gave {agreed:?}, {}",
        described(base, changed)
    );
}

fn described(base: &[u8], changed: &Changed) -> String {
    let Changed {
        policy,
        weight,
        group,
    } = changed;
    let (group, base) = (hex(group), hex(base));
    format!("policy {policy}, weight {weight}, group {group}, base {base}")
}

/// A base with another byte for the weight of one of its policies, where the
/// trailer says that it lies.
pub fn with_weight(base: &[u8], policy: usize, weight: u8) -> Vec<u8> {
    let trailer = &base[base.len() - 36..];
    let policies = usize::from(u16::from_le_bytes([trailer[20], trailer[21]]));
    let mut changed = base.to_vec();
    changed[policies + 8 * policy + 2] = weight;
    changed
}

#[cfg(test)]
mod tests {
    use super::*;
    use crate::lively::lively_base;
    use crate::random::Random;

    #[test]
    fn a_weight_alone_is_replaced() {
        let mut random = Random::new(111);
        for _ in 0..200 {
            let mut records = lively_base(&mut random, 8);
            let bytes = records.bytes();
            for policy in 0..records.policies.len() {
                let weight = random.byte();
                let changed = with_weight(&bytes, policy, weight);
                let old = std::mem::replace(&mut records.policies[policy].weight, weight);
                assert_eq!(changed, records.bytes());
                records.policies[policy].weight = old;
            }
        }
    }
}
