//! Refusal 3: a count is above its limit. The tables fill the base each time.

use compare::builder::*;
use compare::expect_check;
use compare::shop::small_shop;

#[test]
fn hierarchy_of_28_records_passes() {
    expect_check(&with_edges(28), 0);
}

#[test]
fn hierarchy_of_29_records_is_refused() {
    expect_check(&with_edges(29), 3);
}

fn with_edges(count: usize) -> Vec<u8> {
    let mut base = BaseBuilder::new(2);
    let edge = Edge {
        senior: 0,
        junior: 1,
    };
    base.hierarchy = vec![edge; count];
    base.bytes()
}

/// 24 times 8 bytes, and the trailer's 36.
#[test]
fn users_24_pass() {
    assert_eq!(with_users(24).len(), 192 + 36);
    expect_check(&with_users(24), 0);
}

#[test]
fn users_25_are_refused() {
    expect_check(&with_users(25), 3);
}

fn with_users(count: usize) -> Vec<u8> {
    let mut base = BaseBuilder::new(1);
    base.users = vec![User::always(3); count];
    base.bytes()
}

#[test]
fn permissions_16_pass() {
    expect_check(&BaseBuilder::new(1).with_permissions(16).bytes(), 0);
}

#[test]
fn permissions_17_are_refused() {
    expect_check(&BaseBuilder::new(1).with_permissions(17).bytes(), 3);
}

#[test]
fn group_clauses_64_pass() {
    expect_check(&with_group_clauses(64), 0);
}

#[test]
fn group_clauses_65_are_refused() {
    expect_check(&with_group_clauses(65), 3);
}

fn with_group_clauses(count: usize) -> Vec<u8> {
    let mut base = BaseBuilder::new(1).with_permissions(1);
    base.group_clauses = vec![GroupClause::new(0, &[(0, 2, 1)]); count];
    base.bytes()
}

#[test]
fn context_clauses_32_pass() {
    expect_check(&with_context_clauses(32), 0);
}

#[test]
fn context_clauses_33_are_refused() {
    expect_check(&with_context_clauses(33), 3);
}

fn with_context_clauses(count: usize) -> Vec<u8> {
    let mut base = BaseBuilder::new(1);
    base.context_clauses = vec![ContextClause::new(0, &[(1, 4, 6)]); count];
    base.bytes()
}

#[test]
fn policies_64_pass() {
    expect_check(&with_policies(64), 0);
}

#[test]
fn policies_65_are_refused() {
    expect_check(&with_policies(65), 3);
}

fn with_policies(count: usize) -> Vec<u8> {
    let mut base = BaseBuilder::new(1).with_permissions(1);
    base.policies = vec![Policy::new(0, 0, 1, 0, NO_CONTEXT); count];
    base.bytes()
}

#[test]
fn exclusions_32_pass() {
    expect_check(&with_exclusions(32), 0);
}

#[test]
fn exclusions_33_are_refused() {
    expect_check(&with_exclusions(33), 3);
}

fn with_exclusions(count: usize) -> Vec<u8> {
    let mut base = BaseBuilder::new(2);
    base.exclusions = vec![
        Exclusion {
            kind: 0,
            a: 0,
            b: 1
        };
        count
    ];
    base.bytes()
}

#[test]
fn the_largest_count_is_refused_in_every_table() {
    for table in 0..7 {
        let base = small_shop().bytes_with(|trailer| trailer.places[table].count = u16::MAX);
        expect_check(&base, 3);
    }
}

/// 8,192 users would take 65,536 bytes, which is 0 in 16 bits.
#[test]
fn a_count_whose_bytes_wrap_to_0_is_refused() {
    let base = BaseBuilder::new(1).bytes_with(|trailer| trailer.places[1].count = 8_192);
    expect_check(&base, 3);
}
