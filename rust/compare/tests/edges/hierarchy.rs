//! Refusal 4: H records.

use compare::builder::{edges, BaseBuilder};
use compare::expect_check;

/// A base with these H records: senior, junior.
fn with_edges(roles: u8, pairs: &[(u8, u8)]) -> Vec<u8> {
    let mut base = BaseBuilder::new(roles);
    base.hierarchy = edges(pairs);
    base.bytes()
}

#[test]
fn a_senior_below_its_junior_passes() {
    expect_check(&with_edges(3, &[(0, 1)]), 0);
}

#[test]
fn a_senior_equal_to_its_junior_is_refused() {
    expect_check(&with_edges(3, &[(1, 1)]), 4);
    expect_check(&with_edges(3, &[(0, 0)]), 4);
}

#[test]
fn a_senior_above_its_junior_is_refused() {
    expect_check(&with_edges(3, &[(1, 0)]), 4);
    expect_check(&with_edges(3, &[(255, 2)]), 4);
}

#[test]
fn the_last_role_may_be_junior() {
    expect_check(&with_edges(3, &[(0, 2)]), 0);
    expect_check(&with_edges(8, &[(6, 7)]), 0);
}

#[test]
fn a_junior_at_r_is_refused() {
    expect_check(&with_edges(3, &[(0, 3)]), 4);
    expect_check(&with_edges(8, &[(0, 8)]), 4);
    expect_check(&with_edges(8, &[(254, 255)]), 4);
}

#[test]
fn one_role_has_no_junior() {
    expect_check(&with_edges(1, &[(0, 1)]), 4);
    expect_check(&with_edges(1, &[(0, 0)]), 4);
}

#[test]
fn repeated_hierarchy_records_pass() {
    expect_check(&with_edges(3, &[(0, 1), (0, 1), (0, 2), (0, 1)]), 0);
}

#[test]
fn two_chains_to_one_junior_pass() {
    expect_check(&with_edges(4, &[(0, 1), (0, 2), (1, 3), (2, 3)]), 0);
}

#[test]
fn all_28_pairs_of_eight_roles_pass() {
    expect_check(&with_edges(8, &all_pairs()), 0);
}

#[test]
fn a_bad_record_is_found_at_every_place() {
    for place in 0..28 {
        let mut edges = all_pairs();
        edges[place] = (7, 7);
        expect_check(&with_edges(8, &edges), 4);
    }
}

fn all_pairs() -> Vec<(u8, u8)> {
    let pairs: Vec<(u8, u8)> = (0..8)
        .flat_map(|senior| (senior + 1..8).map(move |junior| (senior, junior)))
        .collect();
    assert_eq!(pairs.len(), 28);
    pairs
}
