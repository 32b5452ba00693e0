//! Refusal 9: X records.

use compare::builder::{BaseBuilder, Exclusion};
use compare::expect_check;

/// A base of three roles and five permissions with these X records.
fn with_exclusions(exclusions: &[(u8, u8, u8)]) -> Vec<u8> {
    let mut base = BaseBuilder::new(3).with_permissions(5);
    base.exclusions = records(exclusions);
    base.bytes()
}

/// X records by kind, a and b.
fn records(exclusions: &[(u8, u8, u8)]) -> Vec<Exclusion> {
    let exclusions = exclusions.iter();
    exclusions
        .map(|&(kind, a, b)| Exclusion { kind, a, b })
        .collect()
}

#[test]
fn kind_0_passes() {
    expect_check(&with_exclusions(&[(0, 0, 1)]), 0);
}

#[test]
fn kind_1_passes() {
    expect_check(&with_exclusions(&[(1, 0, 1)]), 0);
}

#[test]
fn kind_2_is_refused() {
    expect_check(&with_exclusions(&[(2, 0, 1)]), 9);
    expect_check(&with_exclusions(&[(255, 0, 1)]), 9);
}

#[test]
fn a_equal_to_b_is_refused() {
    expect_check(&with_exclusions(&[(0, 1, 1)]), 9);
    expect_check(&with_exclusions(&[(1, 0, 0)]), 9);
}

#[test]
fn a_above_b_is_refused() {
    expect_check(&with_exclusions(&[(0, 1, 0)]), 9);
    expect_check(&with_exclusions(&[(1, 255, 1)]), 9);
}

#[test]
fn the_last_role_may_be_excluded() {
    expect_check(&with_exclusions(&[(0, 1, 2)]), 0);
}

#[test]
fn b_at_the_number_of_roles_is_refused() {
    expect_check(&with_exclusions(&[(0, 0, 3)]), 9);
    expect_check(&with_exclusions(&[(0, 0, 255)]), 9);
}

/// 3 and 4 are permissions but no roles.
#[test]
fn kind_0_is_held_against_the_roles_alone() {
    expect_check(&with_exclusions(&[(0, 3, 4)]), 9);
}

#[test]
fn the_last_permission_may_be_excluded() {
    expect_check(&with_exclusions(&[(1, 3, 4)]), 0);
}

#[test]
fn b_at_the_number_of_permissions_is_refused() {
    expect_check(&with_exclusions(&[(1, 0, 5)]), 9);
    expect_check(&with_exclusions(&[(1, 0, 255)]), 9);
}

/// 6 and 7 are roles but no permissions.
#[test]
fn kind_1_is_held_against_the_permissions_alone() {
    let mut base = BaseBuilder::new(8).with_permissions(2);
    base.exclusions = records(&[(0, 6, 7)]);
    expect_check(&base.bytes(), 0);
    base.exclusions = records(&[(1, 6, 7)]);
    expect_check(&base.bytes(), 9);
}

#[test]
fn without_permissions_kind_1_is_refused() {
    let mut base = BaseBuilder::new(8);
    base.exclusions = records(&[(1, 0, 1)]);
    expect_check(&base.bytes(), 9);
}

#[test]
fn one_role_excludes_no_role() {
    let mut base = BaseBuilder::new(1).with_permissions(2);
    base.exclusions = records(&[(0, 0, 1)]);
    expect_check(&base.bytes(), 9);
}

#[test]
fn repeated_exclusions_pass() {
    let exclusions = [(0, 0, 1), (1, 0, 1), (0, 0, 1), (1, 0, 1)];
    expect_check(&with_exclusions(&exclusions), 0);
}

#[test]
fn a_bad_exclusion_is_found_at_every_place() {
    for place in 0..32 {
        let mut exclusions = [(0, 0, 2); 32];
        exclusions[place] = (0, 2, 2);
        expect_check(&with_exclusions(&exclusions), 9);
    }
}
