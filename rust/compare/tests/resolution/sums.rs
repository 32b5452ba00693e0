//! What a changed weight shifts by a list. By rule 2 another policy may be chosen.

use crate::setups::*;
use compare::bounds::{expect_bound, Changed};
use compare::builder::Policy;
use compare::lists::LEGAL;

/// Expects this weight of role 2 by a list, before and after a policy gets a new
/// weight, and this bound for two entries in that role: twice the difference.
fn expect_shift(
    policies: &[Policy],
    list: &[u8],
    (policy, weight): (usize, u8),
    weights: [u8; 2],
    bound: u32,
) {
    let base = with_policies(policies);
    let changed = Changed::new(policy as u32, weight.into(), &[[0, 2], [1, 2]]);
    expect_bound(&base.bytes(), &changed, (0, bound));
    let mut after = policies.to_vec();
    after[policy].weight = weight;
    expect_own(policies, list, weights[0]);
    expect_own(&after, list, weights[1]);
    let shift = 2 * u32::from(weights[0].abs_diff(weights[1]));
    assert!(shift <= bound);
}

#[test]
fn the_chosen_policys_weight_shifts_by_the_bound() {
    let policies = [issued(1, 1, 4), issued(2, 2, 3)];
    for list in [&[0][..], &[1], &[0, 1, 2], &[1, 0, 2]] {
        expect_shift(&policies, list, (1, 1), [3, 1], 4);
        expect_shift(&policies, list, (1, 5), [3, 5], 4);
        expect_shift(&policies, list, (0, 1), [3, 3], 6);
    }
}

/// From 2 to 5 where another of 4 is there: the choice changes, and the weight by
/// 2 of 3.
#[test]
fn a_policy_that_gets_heavy_gives_way_to_another() {
    let policies = [issued(1, 1, 2), issued(2, 2, 4)];
    expect_shift(&policies, &[2], (0, 5), [2, 4], 6);
    expect_shift(&policies, &[2, 1], (0, 5), [2, 4], 6);
    expect_shift(&policies, &[0, 2], (0, 5), [4, 4], 6);
}

/// From 5 to 2 where another of 4 is there.
#[test]
fn a_policy_that_gets_light_goes_before_another() {
    let policies = [issued(1, 1, 4), issued(1, 1, 5)];
    for list in [&[2][..], &[0, 2], &[1, 2], &[0, 1, 2], &[1, 0, 2]] {
        expect_shift(&policies, list, (1, 2), [4, 2], 6);
    }
    for list in [&[0][..], &[1], &[0, 1], &[1, 0]] {
        expect_shift(&policies, list, (1, 2), [4, 4], 6);
    }
}

/// To the weight of the other: whichever is chosen, the weight is the same.
#[test]
fn a_policy_that_gets_as_heavy_as_another() {
    let policies = [issued(1, 1, 2), issued(1, 1, 4)];
    expect_shift(&policies, &[2], (0, 4), [2, 4], 4);
    expect_shift(&policies, &[2], (1, 2), [2, 2], 4);
}

#[test]
fn the_weight_as_it_is_shifts_nothing() {
    let policies = [issued(1, 1, 2), issued(2, 2, 4)];
    for list in LEGAL {
        let weight = if list[0] == 2 { 2 } else { 4 };
        expect_shift(&policies, list, (0, 2), [weight, weight], 0);
        expect_shift(&policies, list, (1, 4), [weight, weight], 0);
    }
}
