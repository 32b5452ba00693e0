//! Which policies a list compares: those of one role and permission.

use crate::setups::*;
use compare::builder::Policy;
use compare::lists::LEGAL;
use compare::questions::{at_minute, Asked};
use compare::sheets::{expect_call, SheetCall};
use compare::shop::small_shop;
use compare::{agreed_decision, agreed_decision_by, expect_decision, expect_decision_by};

#[test]
fn another_roles_policy_does_not_go_before() {
    let of_role_1 = Policy {
        role: 1,
        ..issued(9, 9, 1)
    };
    for list in LEGAL {
        expect_weights(&[of_role_1.clone(), issued(1, 1, 4)], list, [0, 1, 4]);
        expect_weights(&[issued(1, 1, 4), of_role_1.clone()], list, [0, 1, 4]);
    }
}

#[test]
fn another_permissions_policy_does_not_go_before() {
    let of_permission_1 = Policy {
        permission: 1,
        ..inherited(9, 9, 1)
    };
    for list in LEGAL {
        expect_weights(&[of_permission_1.clone(), inherited(1, 1, 4)], list, [4; 3]);
        expect_weights(&[inherited(1, 1, 4), of_permission_1.clone()], list, [4; 3]);
    }
}

/// By no list a weight is a sum over policies.
#[test]
fn one_policy_is_chosen() {
    for list in LEGAL {
        expect_weights(&[inherited(7, 7, 1), inherited(7, 7, 1)], list, [1; 3]);
    }
}

#[test]
fn a_policy_alone_is_chosen_by_every_list() {
    for list in LEGAL {
        for (issue_day, rank) in [(0, 0), (65_535, 255)] {
            for weight in 1..=5 {
                expect_weights(&[inherited(issue_day, rank, weight)], list, [weight; 3]);
            }
        }
    }
}

/// 64 policies of one role and permission, each one going before all in front of
/// it by days, all behind it by ranks.
#[test]
fn sixty_four_rivals() {
    let policy = |i: u8| issued(u16::from(i) * 1_000, 255 - i, 1 + i % 5);
    let policies: Vec<Policy> = (0..64).map(policy).collect();
    expect_own(&policies, &[0], 4);
    expect_own(&policies, &[1], 1);
    expect_own(&policies, &[2], 1);
    expect_own(&policies[1..], &[1], 2);
    expect_own(&policies[..63], &[0], 3);
}

/// Each role of the small shop has one policy at most.
#[test]
fn without_rivals_a_list_changes_nothing() {
    let base = small_shop().bytes();
    let groups = [
        &[[0, 0]][..],
        &[[0, 0], [2, 2]],
        &[[1, 1], [2, 2], [3, 2]],
        &[[0, 1], [1, 1], [2, 2]],
    ];
    for minute in [480, 539, 540, 1020, 1021] {
        for group in groups {
            let asked = Asked::new(0, at_minute(minute), group);
            let without = agreed_decision(&base, &asked);
            for list in LEGAL {
                assert_eq!(agreed_decision_by(&base, list, &asked), without);
            }
        }
    }
}

/// Two policies of which the lists choose the second, and table order the first.
fn second_before() -> Vec<u8> {
    let mut base = with_policies(&[issued(1, 1, 4), issued(2, 2, 2)]);
    base.group_clauses[0].conditions[0] = (1, 4, 4);
    base.bytes()
}

#[test]
fn without_a_list_table_order_stays() {
    let asked = Asked::new(0, at_minute(600), &[[0, 2]]);
    expect_decision(&second_before(), &asked, 0);
    for list in LEGAL {
        expect_decision_by(&second_before(), list, &asked, 17);
    }
}

#[test]
fn a_sheet_is_asked_without_a_list() {
    let sheet = [0, 1, 0, 2, 0, 0, 0, 0, 0, 0, 0, 0, 0, 0];
    let call = SheetCall::Ask { at: at_minute(600) };
    expect_call(&second_before(), call, sheet, 0, sheet);
}
