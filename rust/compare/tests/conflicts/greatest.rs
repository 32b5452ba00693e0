//! Numbers of conflicts that don't fit a byte, up to the greatest.

use crate::setups::*;
use compare::builder::*;

/// So many users with both of two roles, and so many exclusions of them.
fn users_and_records(members: usize, records: usize) -> BaseBuilder {
    BaseBuilder {
        users: users(&vec![15; members]),
        exclusions: exclusions(&vec![(0, 0, 1); records]),
        ..BaseBuilder::new(2).with_permissions(2)
    }
}

/// Every user with every record.
fn all_pairs(users: u8, records: u8) -> Vec<[u8; 3]> {
    let pairs = (0..users).flat_map(|u| (0..records).map(move |e| [3, u, e]));
    pairs.collect()
}

#[test]
fn at_and_around_256() {
    expect_list(&users_and_records(15, 17), &all_pairs(15, 17));
    expect_list(&users_and_records(16, 16), &all_pairs(16, 16));
    let mut base = users_and_records(16, 16);
    base.policies = vec![policy(0, 0, 1, 0), policy(0, 0, 2, 0)];
    let list = [vec![[1, 0, 1]], all_pairs(16, 16)].concat();
    assert_eq!(list.len(), 257);
    expect_list(&base, &list);
}

#[test]
fn all_768_of_kind_3() {
    expect_list(&users_and_records(24, 32), &all_pairs(24, 32));
}

/// Every user holds role 0 alone and acts in the seven roles behind it. The
/// exclusions are of each two of the seven, 21, and of eleven of them once more. H
/// has a chain, or is full, with a record from each role to each behind it.
#[test]
fn all_768_of_kind_3_through_role_0() {
    let behind = each_two().into_iter().filter(|&(a, _)| a != 0);
    let excluded: Vec<(u8, u8)> = behind.cycle().take(32).collect();
    assert_eq!(each_two().len(), 28);
    for pairs in [CHAIN.to_vec(), each_two()] {
        let mut base = BaseBuilder {
            hierarchy: edges(&pairs),
            users: users(&[3; 24]),
            exclusions: role_exclusions(&excluded),
            ..BaseBuilder::new(8)
        };
        expect_list(&base, &all_pairs(24, 32));
        base.hierarchy.clear();
        expect_list(&base, &[]);
    }
}

/// 64 policies of one role whose permission, weight and type repeat after 20:
/// permission 0 takes the first ten, permission 1 the others. Record 7 excludes
/// the permissions, and 24 users hold the two roles of the other 31.
fn greatest() -> BaseBuilder {
    let mut base = users_and_records(24, 32);
    base.exclusions[7].kind = 1;
    base.policies = (0..64)
        .map(|i| i % 20)
        .map(|class| policy(1, class / 10, 1 + class % 5, class / 5 % 2))
        .collect();
    base
}

/// The pairs of policies of one class don't conflict; the others are of kind 1
/// with the same permission and of kind 2 with two permissions.
fn greatest_list() -> Vec<[u8; 3]> {
    let pairs = || (0..64_u8).flat_map(|i| (i + 1..64).map(move |j| (i, j)));
    let class = |i| i % 20;
    let same_permission = |i, j| (class(i) < 10) == (class(j) < 10);
    let mut list: Vec<[u8; 3]> = pairs()
        .filter(|&(i, j)| same_permission(i, j) && class(i) != class(j))
        .map(|(i, j)| [1, i, j])
        .collect();
    let kind_2 = pairs().filter(|&(i, j)| !same_permission(i, j));
    list.extend(kind_2.map(|(i, j)| [2, i, j]));
    list.extend(all_pairs(24, 32).into_iter().filter(|pair| pair[2] != 7));
    list
}

/// Kind 1: of the 34 policies for permission 0 there are 561 pairs, 42 alike,
/// of the 30 for permission 1 435, 30 alike. Kind 2: 34 * 30. Kind 3: 24 * 31.
#[test]
fn the_greatest_number() {
    let list = greatest_list();
    assert_eq!(list.len(), 519 + 405 + 1_020 + 744);
    assert_eq!(list.len(), 2_688);
    assert_eq!(list[0], [1, 0, 1]);
    assert_eq!(list[923..925], [[1, 62, 63], [2, 0, 10]]);
    assert_eq!(list[1_943..1_945], [[2, 59, 63], [3, 0, 0]]);
    assert_eq!(list[2_687], [3, 23, 31]);
    expect_list(&greatest(), &list);
}

/// The users hold role 0 alone, which is over role 1. Without that H record none of
/// kind 3 is left.
#[test]
fn the_greatest_number_through_role_0() {
    let list = greatest_list();
    let mut base = greatest();
    base.users = users(&[3; 24]);
    base.hierarchy = edges(&[(0, 1)]);
    expect_list(&base, &list);
    base.hierarchy.clear();
    expect_list(&base, &list[..1_944]);
}

/// Lengths whose low bytes alone would suffice, or wouldn't.
#[test]
fn the_greatest_number_in_other_buffers() {
    let list = greatest_list();
    for length in [
        128, 255, 256, 384, 2_688, 7_808, 8_063, 8_064, 8_065, 8_192, 65_536,
    ] {
        expect_list_at(&greatest(), length, &list);
    }
}
