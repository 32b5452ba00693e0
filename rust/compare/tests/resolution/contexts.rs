//! Only active policies are chosen among. Context 0 holds at minute 600 and not
//! at minute 480; context 1 has no clause.

use crate::setups::*;
use compare::builder::Policy;
use compare::lists::LEGAL;

/// Expects these weights at minutes 600 and 480 by a list.
fn expect_day(policies: &[Policy], list: &[u8], by_day: [u8; 3], early: [u8; 3]) {
    let base = with_policies(policies);
    expect_weights_at(600, &base, list, by_day);
    expect_weights_at(480, &base, list, early);
}

#[test]
fn an_inactive_policy_that_would_go_before_is_passed_over() {
    let policies = [issued(1, 1, 4), within(0, issued(9, 9, 1))];
    for list in LEGAL {
        expect_day(&policies, list, [0, 0, 1], [0, 0, 4]);
    }
    let turned = [policies[1].clone(), policies[0].clone()];
    for list in LEGAL {
        expect_day(&turned, list, [0, 0, 1], [0, 0, 4]);
    }
}

#[test]
fn a_context_without_a_clause_is_never_chosen() {
    let policies = [within(1, inherited(9, 9, 1)), inherited(1, 1, 4)];
    for list in LEGAL {
        expect_day(&policies, list, [4; 3], [4; 3]);
        expect_day(&policies[..1], list, [0; 3], [0; 3]);
    }
}

/// Of three the first choice by day is inactive early, and the second goes
/// before the third.
#[test]
fn the_next_one_counts_where_the_first_is_inactive() {
    let policies = [
        inherited(1, 1, 4),
        within(0, inherited(9, 9, 1)),
        inherited(2, 2, 3),
    ];
    for list in LEGAL {
        expect_day(&policies, list, [1; 3], [3; 3]);
    }
}

/// By day the one of type 1 goes before in both; early the one of type 0 is own.
#[test]
fn own_and_inh_pass_over_inactive_ones_each_by_itself() {
    let policies = [
        inherited(1, 1, 5),
        issued(2, 2, 3),
        within(0, inherited(9, 9, 2)),
    ];
    for list in LEGAL {
        expect_day(&policies, list, [2; 3], [5, 5, 3]);
    }
}

#[test]
fn without_an_active_policy_there_is_no_weight() {
    let policies = [within(0, inherited(1, 1, 4)), within(0, issued(2, 2, 2))];
    for list in LEGAL {
        expect_day(&policies, list, [4, 4, 2], [0; 3]);
    }
}
