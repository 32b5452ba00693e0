//! Bases that the edges start from, and what is expected of their lists.

use compare::builder::*;
use compare::expect_conflicts;

/// 0 over 1 over 2 over .. over 7.
pub const CHAIN: [(u8, u8); 7] = [(0, 1), (1, 2), (2, 3), (3, 4), (4, 5), (5, 6), (6, 7)];

/// Each two of eight roles: 0 and 1, 0 and 2, 1 and 2, 0 and 3 and so on.
pub fn each_two() -> Vec<(u8, u8)> {
    let pairs = (1..8).flat_map(|b| (0..b).map(move |a| (a, b)));
    pairs.collect()
}

/// Expects this list, with buffers too short, just long enough and longer.
pub fn expect_list(base: &BaseBuilder, list: &[[u8; 3]]) {
    let whole = 3 * list.len();
    let short = [0, 1, 2, 3, whole / 2, whole.saturating_sub(1)];
    let enough = [whole, whole + 1, whole + 3, whole + 40];
    for length in short.into_iter().chain(enough) {
        expect_list_at(base, length, list);
    }
}

/// Expects this list in a buffer of this length, or 18 if it is too short.
pub fn expect_list_at(base: &BaseBuilder, length: usize, list: &[[u8; 3]]) {
    let count = list.len() as u32;
    let bytes = list.concat();
    if length < bytes.len() {
        expect_conflicts(&base.bytes(), length, (18, count), &[]);
    } else {
        expect_conflicts(&base.bytes(), length, (0, count), &bytes);
    }
}

/// A policy by role, permission, weight and type, under no context.
pub fn policy(role: u8, permission: u8, weight: u8, inheritable: u8) -> Policy {
    Policy::new(role, permission, weight, inheritable, NO_CONTEXT)
}

/// X records: kind, a, b.
pub fn exclusions(records: &[(u8, u8, u8)]) -> Vec<Exclusion> {
    let records = records.iter();
    records
        .map(|&(kind, a, b)| Exclusion { kind, a, b })
        .collect()
}

/// X records of kind 0: a, b.
pub fn role_exclusions(pairs: &[(u8, u8)]) -> Vec<Exclusion> {
    let pairs = pairs.iter();
    pairs.map(|&(a, b)| Exclusion { kind: 0, a, b }).collect()
}

/// Users by their parameters.
pub fn users(parameters: &[u32]) -> Vec<User> {
    let parameters = parameters.iter();
    parameters
        .map(|&parameter| User::always(parameter))
        .collect()
}

/// Three policies of role 1 for permission 0 with weights 1, 2 and 3: the list
/// is that of [`THREE`].
pub fn three_conflicts() -> BaseBuilder {
    BaseBuilder {
        policies: (1..=3).map(|weight| policy(1, 0, weight, 0)).collect(),
        ..BaseBuilder::new(2).with_permissions(1)
    }
}

pub const THREE: [[u8; 3]; 3] = [[1, 0, 1], [1, 0, 2], [1, 1, 2]];
