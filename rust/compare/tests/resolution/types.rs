//! Own chooses among policies of either type, inh among those of type 1 alone.
//! Role 2's own is its weight; its inh is what roles 0 and 1 inherit.

use crate::setups::*;
use compare::builder::Policy;
use compare::lists::LEGAL;

/// Expects this own and inh of role 2 by a list.
fn expect_both(policies: &[Policy], list: &[u8], own: u8, inh: u8) {
    expect_weights(policies, list, [inh, inh, own]);
}

#[test]
fn a_policy_of_type_0_goes_before_one_of_type_1() {
    let policies = [inherited(1, 1, 4), issued(2, 2, 2)];
    for list in LEGAL {
        expect_both(&policies, list, 2, 4);
    }
}

#[test]
fn a_policy_of_type_1_goes_before_one_of_type_0() {
    let policies = [issued(1, 1, 4), inherited(2, 2, 2)];
    for list in LEGAL {
        expect_both(&policies, list, 2, 2);
    }
}

/// Behind the one of type 0 the lists order the others.
#[test]
fn inh_takes_the_one_of_type_1_that_no_other_of_type_1_goes_before() {
    let policies = [
        inherited(1, 2, 4),
        issued(9, 9, 1),
        inherited(2, 1, 3),
        inherited(1, 1, 2),
    ];
    for (rule, inh) in [(0, 3), (1, 4), (2, 2)] {
        expect_both(&policies, &[rule], 1, inh);
    }
    expect_both(&policies, &[0, 1, 2], 1, 3);
    expect_both(&policies, &[1, 0, 2], 1, 4);
    expect_both(&policies, &[2, 1, 0], 1, 2);
}

#[test]
fn without_type_1_nothing_is_inherited() {
    let policies = [issued(1, 1, 4), issued(2, 2, 2)];
    for list in LEGAL {
        expect_both(&policies, list, 2, 0);
    }
}

#[test]
fn each_choice_falls_back_to_table_order_by_itself() {
    let policies = [issued(7, 7, 5), inherited(7, 7, 4), inherited(7, 7, 3)];
    for list in [&[0][..], &[1], &[0, 1], &[1, 0]] {
        expect_both(&policies, list, 5, 4);
    }
    expect_both(&policies, &[0, 2], 3, 3);
}

/// Own of roles 0, 1 and 2 is chosen from each role's policies, and role 0
/// inherits from roles 1 and 2, role 1 from role 2.
#[test]
fn each_role_chooses_by_itself() {
    let of = |role, policy| Policy { role, ..policy };
    let policies = [
        of(0, issued(1, 2, 5)),
        of(1, inherited(1, 2, 4)),
        of(2, inherited(1, 2, 3)),
        of(2, inherited(2, 1, 1)),
        of(1, inherited(2, 1, 2)),
        of(0, issued(2, 1, 4)),
    ];
    expect_weights(&policies, &[0], [7, 3, 1]);
    expect_weights(&policies, &[1], [12, 7, 3]);
    expect_weights(&policies, &[2], [7, 3, 1]);
}
