//! Kind 3: users who may act in both roles of an exclusion of kind 0.

use crate::setups::*;
use compare::builder::*;

/// Three roles, 0 over 1 over 2, and three permissions, with these users'
/// parameters and X records. Who holds a role acts in it and in all behind it.
fn base(parameters: &[u32], records: &[(u8, u8, u8)]) -> BaseBuilder {
    BaseBuilder {
        hierarchy: edges(&[(0, 1), (1, 2)]),
        ..flat_base(parameters, records)
    }
}

/// The same without H records: users act in the roles held alone.
fn flat_base(parameters: &[u32], records: &[(u8, u8, u8)]) -> BaseBuilder {
    BaseBuilder {
        users: users(parameters),
        exclusions: exclusions(records),
        ..BaseBuilder::new(3).with_permissions(3)
    }
}

/// The user holds both.
#[test]
fn a_user_of_both_roles_conflicts() {
    for base in [base, flat_base] {
        expect_list(&base(&[15], &[(0, 0, 1)]), &[[3, 0, 0]]);
        expect_list(&base(&[21], &[(0, 0, 2)]), &[[3, 0, 0]]);
        expect_list(&base(&[35], &[(0, 1, 2)]), &[[3, 0, 0]]);
        expect_list(&base(&[105], &[(0, 1, 2)]), &[[3, 0, 0]]);
    }
}

/// Users 1 and 4 hold role 0, which is senior to role 1; the others act in role 1
/// alone, or in neither.
#[test]
fn a_user_who_acts_in_one_of_them_or_none_does_not() {
    let parameters = [1, 3, 5, 7, 21, 35];
    let list = [[3, 1, 0], [3, 4, 0]];
    expect_list(&base(&parameters, &[(0, 0, 1)]), &list);
    expect_list(&flat_base(&parameters, &[(0, 0, 1)]), &[]);
}

/// User 0 holds role 0 alone, user 1 role 1, user 2 role 2.
#[test]
fn a_senior_stands_for_its_juniors_roles() {
    let records = [(0, 0, 1), (0, 0, 2), (0, 1, 2)];
    let list = [[3, 0, 0], [3, 0, 1], [3, 0, 2], [3, 1, 2]];
    expect_list(&base(&[3, 5, 7], &records), &list);
    expect_list(&flat_base(&[3, 5, 7], &records), &[]);
}

/// User 0 holds all three roles, user 1 acts in them.
#[test]
fn an_exclusion_of_permissions_excludes_no_roles() {
    let records = [(1, 0, 1), (1, 0, 2), (1, 1, 2)];
    expect_list(&base(&[105, 3], &records), &[]);
}

/// Records 1 and 4 are of roles. Users 0 and 2 act in all three roles, user 1 in 1
/// and 2.
#[test]
fn second_is_the_records_number_in_the_whole_table() {
    let records = [(1, 0, 1), (0, 0, 2), (1, 0, 2), (1, 1, 2), (0, 0, 1)];
    let list = [[3, 0, 1], [3, 0, 4], [3, 2, 1], [3, 2, 4]];
    expect_list(&base(&[15, 35, 3], &records), &list);
    expect_list(&flat_base(&[15, 35, 3], &records), &[[3, 0, 4]]);
    expect_list(&flat_base(&[105], &records), &[[3, 0, 1], [3, 0, 4]]);
}

/// User 1 holds both roles, user 3 acts in role 1 by role 0.
#[test]
fn a_repeated_record_gives_its_own_entry() {
    let records = [(0, 0, 1), (1, 0, 1), (0, 0, 1), (0, 0, 1)];
    let of = |user| [0, 2, 3].map(|record| [3, user, record]);
    let list = [of(1), of(3)].concat();
    expect_list(&base(&[1, 15, 5, 3], &records), &list);
    expect_list(&flat_base(&[1, 15, 5, 3], &records), &of(1));
}

/// Users 0, 2, 3 and 5 act in all roles; user 1 holds roles 1 and 2, user 4 role 2.
#[test]
fn users_come_in_order_and_equal_ones_each() {
    let records = [(0, 1, 2), (0, 0, 1)];
    let parameters = [15, 35, 3, 3, 7, 105];
    let list = [
        [3, 0, 0],
        [3, 0, 1],
        [3, 1, 0],
        [3, 2, 0],
        [3, 2, 1],
        [3, 3, 0],
        [3, 3, 1],
        [3, 5, 0],
        [3, 5, 1],
    ];
    expect_list(&base(&parameters, &records), &list);
    let held = [[3, 0, 1], [3, 1, 0], [3, 5, 0], [3, 5, 1]];
    expect_list(&flat_base(&parameters, &records), &held);
}

/// Without H records each user of two of eight roles has that record alone of all
/// 28.
#[test]
fn every_two_of_eight_roles() {
    for (number, (a, b)) in (0..).zip(each_two()) {
        let parameter = CODES[usize::from(a)] * CODES[usize::from(b)];
        let base = BaseBuilder {
            users: users(&[1, parameter]),
            exclusions: role_exclusions(&each_two()),
            ..BaseBuilder::new(8)
        };
        expect_list(&base, &[[3, 1, number]]);
    }
}

/// User 23 holds role 1, which is over role 2; the others hold role 2. Only the
/// last record is of these two.
#[test]
fn the_last_user_and_the_last_record() {
    let mut parameters = [7; 24];
    parameters[23] = 5;
    let mut records = [(0, 0, 2); 32];
    records[31] = (0, 1, 2);
    expect_list(&base(&parameters, &records), &[[3, 23, 31]]);
    expect_list(&flat_base(&parameters, &records), &[]);
    parameters[23] = 35;
    expect_list(&flat_base(&parameters, &records), &[[3, 23, 31]]);
}
