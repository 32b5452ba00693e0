//! The order of refusals: 1 to 9, 12 to 15, 21. With two faults present the
//! earlier one is named, wherever they stand.

use crate::setups::*;
use compare::bounds::{expect_bound, Changed};
use compare::shop::{refused_bases, small_shop};

/// Changes that aren't: a policy that isn't there, no weight, and both.
const NO_CHANGES: [(u32, u32); 5] = [(3, 1), (0, 0), (0, 6), (256, 257), (u32::MAX, u32::MAX)];

const ABSENT_USER: [u8; 2] = [4, 2];
const ABSENT_ROLE: [u8; 2] = [0, 3];
const AS_SENIOR: [u8; 2] = [2, 1];

/// Expects this refusal of the small shop for these bytes and the group from its
/// end, whatever the change.
fn expect_first(entries: &[[u8; 2]], refusal: u8) {
    let reversed: Vec<[u8; 2]> = entries.iter().rev().copied().collect();
    for (policy, weight) in NO_CHANGES.into_iter().chain([(0, 1), (2, 5)]) {
        expect_refused(&small_shop(), policy, weight, entries, refusal);
        expect_refused(&small_shop(), policy, weight, &reversed, refusal);
    }
}

#[test]
fn refusals_1_to_9_beat_every_other() {
    let groups = [
        vec![],
        vec![0],
        ABSENT_USER.to_vec(),
        [MANAGER, MANAGER].concat(),
        AS_SENIOR.to_vec(),
        MANAGER.to_vec(),
    ];
    for (refusal, base) in (1..).zip(refused_bases()) {
        for group in &groups {
            for (policy, weight) in [(0, 1), (3, 1), (0, 0), (256, 256)] {
                let group = group.clone();
                let changed = Changed {
                    policy,
                    weight,
                    group,
                };
                expect_bound(&base, &changed, (refusal, 0));
            }
        }
    }
}

/// An odd length, absent users, one of them twice, and no change.
#[test]
fn refusal_12_beats_13_to_15_and_21() {
    for group in [
        vec![9; 3],
        vec![9; 14],
        [AS_SENIOR; 7].concat(),
        vec![0; 13],
    ] {
        for (policy, weight) in NO_CHANGES {
            let group = group.clone();
            let changed = Changed {
                policy,
                weight,
                group,
            };
            expect_bound(&small_shop().bytes(), &changed, (12, 0));
        }
    }
    expect_first(&[], 12);
}

#[test]
fn refusal_13_beats_14_and_15() {
    for absent in [ABSENT_USER, ABSENT_ROLE] {
        expect_first(&[absent, MANAGER, MANAGER], 13);
        expect_first(&[absent, AS_SENIOR], 13);
        expect_first(&[absent, absent], 13);
        expect_first(&[BUYER, BUYER, AS_SENIOR, absent], 13);
    }
}

#[test]
fn refusal_14_beats_15() {
    expect_first(&[AS_SENIOR, MANAGER, MANAGER], 14);
    expect_first(&[AS_SENIOR, CLERK], 14);
    expect_first(&[AS_SENIOR, AS_SENIOR], 14);
}

#[test]
fn refusals_13_14_and_15_beat_21() {
    for (policy, weight) in NO_CHANGES {
        expect_refused(&small_shop(), policy, weight, &[ABSENT_USER], 13);
        expect_refused(&small_shop(), policy, weight, &[ABSENT_ROLE], 13);
        expect_refused(&small_shop(), policy, weight, &[CLERK, CLERK], 14);
        expect_refused(&small_shop(), policy, weight, &[AS_SENIOR], 15);
        expect_refused(&small_shop(), policy, weight, &[MANAGER, AS_SENIOR], 15);
        expect_refused(&small_shop(), policy, weight, &[MANAGER, CLERK], 21);
    }
}

/// Without users each group gets 13, without policies a sound one 21.
#[test]
fn tables_without_records() {
    let mut shop = small_shop();
    shop.policies.clear();
    expect_refused(&shop, 0, 1, &[], 12);
    expect_refused(&shop, 0, 1, &[AS_SENIOR], 15);
    expect_refused(&shop, 0, 1, &[MANAGER], 21);
    shop.users.clear();
    expect_refused(&shop, 0, 1, &[MANAGER], 13);
}

/// The bound has neither permission nor context, so nothing gets 10, 11, 16 or
/// 17: a base without permissions has no policies either.
#[test]
fn no_permission_is_asked_for() {
    let mut shop = small_shop();
    shop.policies.clear();
    shop.group_clauses.clear();
    shop.permissions.clear();
    expect_refused(&shop, 0, 1, &[MANAGER], 21);
    expect(&small_shop(), 2, 5, &[CLERK], 4);
}
