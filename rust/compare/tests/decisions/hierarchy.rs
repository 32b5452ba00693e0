//! What a senior inherits: from each junior once, by whatever chains.

use crate::setups::*;
use compare::builder::*;

/// A base with these H records whose roles have policies of type 1 with these
/// weights; weight 0 is no policy.
fn inheriting(pairs: &[(u8, u8)], weights: &[u8]) -> BaseBuilder {
    let mut base = BaseBuilder::new(weights.len() as u8).with_permissions(1);
    base.hierarchy = edges(pairs);
    base.policies = (0..)
        .zip(weights)
        .filter(|(_, &weight)| weight > 0)
        .map(|(role, &weight)| Policy::new(role, 0, weight, 1, NO_CONTEXT))
        .collect();
    base
}

fn expect_inherited(pairs: &[(u8, u8)], policies: &[u8], weights: &[u8]) {
    expect_weights(600, &inheriting(pairs, policies), weights);
}

#[test]
fn without_records_each_role_has_its_own_weight() {
    expect_inherited(&[], &[1, 2, 3], &[1, 2, 3]);
}

/// Not 6, though the policy is of type 1.
#[test]
fn a_roles_own_policy_of_type_1_does_not_count_twice() {
    expect_inherited(&[], &[3], &[3]);
    expect_inherited(&[(0, 1)], &[3, 1], &[4, 1]);
}

#[test]
fn a_senior_inherits_and_a_junior_does_not() {
    expect_inherited(&[(0, 1)], &[1, 2, 4], &[3, 2, 4]);
    expect_inherited(&[(1, 2)], &[1, 2, 4], &[1, 6, 4]);
}

#[test]
fn a_senior_inherits_along_a_chain() {
    expect_inherited(&[(0, 1), (1, 2)], &[1, 2, 4], &[7, 6, 4]);
    expect_inherited(&[(0, 1), (1, 2), (2, 3)], &[0, 0, 0, 5], &[5, 5, 5, 5]);
}

#[test]
fn a_chain_may_stand_in_any_order() {
    expect_inherited(&[(1, 2), (0, 1)], &[1, 2, 4], &[7, 6, 4]);
    let records = [(2, 3), (0, 1), (1, 2)];
    expect_inherited(&records, &[1, 1, 1, 5], &[8, 7, 6, 5]);
}

#[test]
fn a_chain_may_pass_roles_without_a_policy() {
    expect_inherited(&[(0, 1), (1, 2)], &[1, 0, 4], &[5, 4, 4]);
}

#[test]
fn two_juniors_of_one_senior_do_not_inherit_from_each_other() {
    expect_inherited(&[(0, 1), (0, 2)], &[1, 2, 4], &[7, 2, 4]);
}

#[test]
fn two_seniors_of_one_junior_both_inherit() {
    expect_inherited(&[(0, 2), (1, 2)], &[1, 2, 4], &[5, 6, 4]);
}

/// 0 over 1 and 2, both over 3: role 0 has 1 and 2, not 1 and 2 and 2.
#[test]
fn two_chains_to_one_junior_count_once() {
    let diamond = [(0, 1), (0, 2), (1, 3), (2, 3)];
    expect_inherited(&diamond, &[1, 0, 0, 2], &[3, 2, 2, 2]);
    expect_inherited(&diamond, &[1, 1, 1, 2], &[5, 3, 3, 2]);
}

#[test]
fn a_record_beside_a_chain_counts_once() {
    let records = [(0, 1), (1, 2), (0, 2)];
    expect_inherited(&records, &[1, 1, 5], &[7, 6, 5]);
}

/// 0 over 1 and 2, both over 3; 3 over 4 and 5, both over 6.
#[test]
fn four_chains_through_two_diamonds_count_once() {
    let twice = [
        (0, 1),
        (0, 2),
        (1, 3),
        (2, 3),
        (3, 4),
        (3, 5),
        (4, 6),
        (5, 6),
    ];
    let weights = [6, 5, 5, 5, 5, 5, 5];
    expect_inherited(&twice, &[1, 0, 0, 0, 0, 0, 5], &weights);
}

#[test]
fn repeated_records_count_once() {
    expect_inherited(&[(0, 1); 2], &[1, 2], &[3, 2]);
    expect_inherited(&[(0, 1); 28], &[1, 2], &[3, 2]);
    let records = [(0, 1), (1, 2), (0, 1), (1, 2), (0, 1)];
    expect_inherited(&records, &[1, 2, 4], &[7, 6, 4]);
}

#[test]
fn all_28_pairs_of_eight_roles_count_each_junior_once() {
    let pairs: Vec<(u8, u8)> = (0..8)
        .flat_map(|senior| (senior + 1..8).map(move |junior| (senior, junior)))
        .collect();
    expect_inherited(&pairs, &[1; 8], &[8, 7, 6, 5, 4, 3, 2, 1]);
}

#[test]
fn policies_of_type_0_are_not_inherited() {
    let mut base = inheriting(&[(0, 1), (1, 2)], &[1, 2, 4]);
    base.policies[1].inheritable = 0;
    expect_weights(600, &base, &[5, 6, 4]);
    base.policies[2].inheritable = 0;
    expect_weights(600, &base, &[1, 2, 4]);
}

/// The senior's own policy is of type 0: it counts for the senior.
#[test]
fn a_policy_of_type_0_counts_for_its_role() {
    let mut base = inheriting(&[(0, 1)], &[3, 1]);
    base.policies[0].inheritable = 0;
    expect_weights(600, &base, &[4, 1]);
}

/// 0 over 1 over 2 over .. over 7.
fn longest_chain() -> BaseBuilder {
    let chain = [0, 1, 2, 3, 4, 5, 6].map(|role| (role, role + 1));
    inheriting(&chain, &[5; 8])
}

#[test]
fn a_weight_reaches_40() {
    let weights = [40, 35, 30, 25, 20, 15, 10, 5];
    expect_weights(600, &longest_chain(), &weights);
}

/// Expects this answer for six users of weight 40, by one condition on the
/// sum.
fn expect_heaviest(operator: u8, value: u8, answer: u8) {
    let mut base = longest_chain();
    base.users = vec![User::always(3); 6];
    base.group_clauses = vec![GroupClause::new(0, &[(1, operator, value)])];
    let group = [0, 1, 2, 3, 4, 5].map(|user| [user, 0]);
    expect(&base, &group, answer);
}

#[test]
fn a_sum_reaches_240() {
    expect_heaviest(4, 240, 0);
    expect_heaviest(4, 239, 17);
    expect_heaviest(4, 241, 17);
}

#[test]
fn operators_compare_a_sum_of_240() {
    let below = [0, 17, 0, 17, 17, 0];
    let equal = [17, 17, 0, 0, 0, 17];
    let above = [17, 0, 17, 0, 17, 0];
    for operator in 0..6 {
        let place = usize::from(operator);
        expect_heaviest(operator, 0, below[place]);
        expect_heaviest(operator, 127, below[place]);
        expect_heaviest(operator, 239, below[place]);
        expect_heaviest(operator, 240, equal[place]);
        expect_heaviest(operator, 241, above[place]);
        expect_heaviest(operator, 255, above[place]);
    }
}
