//! The order of the list: by kind, then first, then second.

use crate::setups::*;
use compare::builder::*;

/// Policies 0 and 3 are for permission 1, the others for permission 0; 1 and 2 are
/// alike. Role 0 is over role 1: user 0 holds both, user 1 role 0, user 2 all three
/// roles, user 3 role 1.
fn mixed() -> BaseBuilder {
    BaseBuilder {
        hierarchy: edges(&[(0, 1)]),
        users: users(&[15, 3, 105, 5]),
        policies: vec![
            policy(1, 1, 1, 0),
            policy(1, 0, 1, 0),
            policy(1, 0, 1, 0),
            policy(1, 1, 2, 0),
            policy(1, 0, 1, 1),
        ],
        exclusions: exclusions(&[(0, 0, 1), (1, 0, 1), (0, 1, 2)]),
        ..BaseBuilder::new(3).with_permissions(2)
    }
}

#[test]
fn by_kind_then_first_then_second() {
    let list = [
        [1, 0, 3],
        [1, 1, 4],
        [1, 2, 4],
        [2, 0, 1],
        [2, 0, 2],
        [2, 0, 4],
        [2, 1, 3],
        [2, 2, 3],
        [2, 3, 4],
        [3, 0, 0],
        [3, 1, 0],
        [3, 2, 0],
        [3, 2, 2],
    ];
    expect_list(&mixed(), &list);
}

#[test]
fn without_exclusions_kind_1_is_left() {
    let mut base = mixed();
    base.exclusions = vec![];
    expect_list(&base, &[[1, 0, 3], [1, 1, 4], [1, 2, 4]]);
}

#[test]
fn without_policies_kind_3_is_left() {
    let mut base = mixed();
    base.policies = vec![];
    expect_list(&base, &[[3, 0, 0], [3, 1, 0], [3, 2, 0], [3, 2, 2]]);
}

#[test]
fn in_policies_of_one_weight_and_type_kinds_2_and_3_are_left() {
    let mut base = mixed();
    base.users.truncate(2);
    base.policies = vec![policy(1, 1, 1, 0), policy(1, 0, 1, 0), policy(1, 0, 1, 0)];
    expect_list(&base, &[[2, 0, 1], [2, 0, 2], [3, 0, 0], [3, 1, 0]]);
}
