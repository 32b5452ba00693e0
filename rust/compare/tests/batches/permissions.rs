//! Each query's own permission: its weights and its condition.

use crate::setups::*;
use compare::batches::{query, Query};
use compare::builder::*;
use compare::random::Random;

/// Eight users of a role each, and 16 permissions. Each permission is for one role
/// alone, which has weight for it, and any group passes.
fn own_roles() -> BaseBuilder {
    let policy = |permission| Policy::new(permission % 8, permission, 1, 0, NO_CONTEXT);
    let clause = |permission| GroupClause::new(permission, &[(0, 2, 1)]);
    BaseBuilder {
        users: CODES.map(User::always).to_vec(),
        group_clauses: (0..16).map(clause).collect(),
        policies: (0..16).map(policy).collect(),
        ..BaseBuilder::new(8).with_permissions(16)
    }
}

/// One entry of each user about each permission: 0 for the role that it is for.
fn one_of_each() -> Vec<(Query, u8)> {
    let of_permission = |permission: u8| {
        (0..8).map(move |user| {
            let answer = if permission % 8 == user { 0 } else { 16 };
            (query(permission, &[[user, user]], 0), answer)
        })
    };
    (0..16).flat_map(of_permission).collect()
}

fn expect_pairs(base: &BaseBuilder, pairs: &[(Query, u8)]) {
    let (queries, answers): (Vec<Query>, Vec<u8>) = pairs.iter().copied().unzip();
    expect(base, &queries, &answers);
}

#[test]
fn the_weights_are_those_of_each_querys_permission() {
    let mut pairs = one_of_each();
    expect_pairs(&own_roles(), &pairs);
    pairs.sort_by_key(|(query, _)| query[2]);
    expect_pairs(&own_roles(), &pairs);
    pairs.reverse();
    expect_pairs(&own_roles(), &pairs);
    let mut random = Random::new(351);
    for _ in 0..20 {
        random.shuffle(&mut pairs);
        expect_pairs(&own_roles(), &pairs);
    }
}

/// One permission alone in each batch.
#[test]
fn and_where_all_queries_are_about_one() {
    for part in one_of_each().chunks(8) {
        expect_pairs(&own_roles(), part);
    }
}

/// Of every two permissions there is a batch that asks about both.
#[test]
fn after_a_query_about_any_other() {
    let all = one_of_each();
    for first in &all {
        for user in [0, 3, 7] {
            for permission in 0..16_u8 {
                let second = all[8 * usize::from(permission) + user];
                expect_pairs(&own_roles(), &[*first, second, *first]);
            }
        }
    }
}

#[test]
fn permissions_from_16_on_are_not_there() {
    for permission in 16..=255 {
        let not_there = (
            query(permission, &[[permission % 8, permission % 8]], 0),
            10,
        );
        expect_pairs(&own_roles(), &[not_there]);
        let there = one_of_each()[usize::from(9 * (permission % 8))];
        expect_pairs(&own_roles(), &[there, not_there, there]);
    }
}

/// Each permission asks for another number of entries.
#[test]
fn the_condition_is_that_of_each_querys_permission() {
    let clause = |permission| GroupClause::new(permission, &[(0, 4, permission + 1)]);
    let policy = |permission| Policy::new(0, permission, 1, 0, NO_CONTEXT);
    let base = BaseBuilder {
        users: vec![User::always(3); 6],
        group_clauses: (0..6).rev().map(clause).collect(),
        policies: (0..7).rev().map(policy).collect(),
        ..BaseBuilder::new(1).with_permissions(8)
    };
    let entries = [[0, 0], [1, 0], [2, 0], [3, 0], [4, 0], [5, 0]];
    let mut pairs = Vec::new();
    for permission in 0..9 {
        for count in 1..=6_u8 {
            let query = query(permission, &entries[..usize::from(count)], 0);
            let answer = match permission {
                0..=5 if count == permission + 1 => 0,
                0..=6 => 17,
                7 => 16,
                _ => 10,
            };
            pairs.push((query, answer));
        }
    }
    expect_pairs(&base, &pairs);
    pairs.sort_by_key(|(query, _)| query[1]);
    expect_pairs(&base, &pairs);
}

/// A sum of 240 and one of 1, by two permissions of the same base.
#[test]
fn the_greatest_sum_and_the_smallest() {
    let heavy = |role| Policy::new(role, 0, 5, 1, NO_CONTEXT);
    let mut base = BaseBuilder {
        hierarchy: (1..8).map(|junior| Edge::new(junior - 1, junior)).collect(),
        users: vec![User::always(3); 6],
        policies: (0..8).map(heavy).collect(),
        ..BaseBuilder::new(8).with_permissions(2)
    };
    base.policies.push(Policy::new(7, 1, 1, 0, NO_CONTEXT));
    let six = [0, 1, 2, 3, 4, 5].map(|user| [user, 0]);
    let queries = [query(0, &six, 0), query(1, &[[0, 7]], 0), query(0, &six, 0)];
    for (greatest, smallest, answers) in [
        (240, 1, [0, 0, 0]),
        (239, 2, [17, 17, 17]),
        (241, 1, [17, 0, 17]),
        (240, 0, [0, 17, 0]),
    ] {
        base.group_clauses = vec![
            GroupClause::new(0, &[(1, 4, greatest)]),
            GroupClause::new(1, &[(1, 4, smallest)]),
        ];
        expect(&base, &queries, &answers);
    }
}
