//! The attributes of a group: entries, sum, different roles and their set.

use crate::setups::*;
use compare::builder::*;

/// Expects this answer at minute 600 of the small shop with one condition.
fn expect_shop(condition: GroupCondition, entries: &[[u8; 2]], answer: u8) {
    expect(&shop_with_clauses(&[&[condition]]), entries, answer);
}

/// Expects this answer of eight roles, each of weight 1, with one condition.
/// Different users act in these roles.
fn expect_roles(condition: GroupCondition, roles: &[u8], answer: u8) {
    let mut base = open_base(8);
    base.group_clauses = vec![GroupClause::new(0, &[condition])];
    let entries: Vec<[u8; 2]> = (0..).zip(roles).map(|(user, &role)| [user, role]).collect();
    expect(&base, &entries, answer);
}

#[test]
fn attribute_0_is_the_number_of_entries() {
    for count in 1..=6 {
        let roles = vec![0; count.into()];
        expect_roles((0, 4, count), &roles, 0);
        expect_roles((0, 4, count - 1), &roles, 17);
        expect_roles((0, 4, count + 1), &roles, 17);
    }
}

/// 5, 2, 1 and 1.
#[test]
fn attribute_1_is_the_sum_of_the_roles_weights() {
    expect_shop((1, 4, 9), &[MANAGER, BUYER, CLERK, OTHER_CLERK], 0);
    expect_shop((1, 4, 7), &[MANAGER, BUYER], 0);
    expect_shop((1, 4, 6), &[CLERK, MANAGER], 0);
    expect_shop((1, 4, 3), &[BUYER, OTHER_CLERK], 0);
}

/// A role's weight counts once for each entry, not once for the role.
#[test]
fn attribute_1_counts_each_entry() {
    expect_shop((1, 4, 2), &[CLERK, OTHER_CLERK], 0);
    expect_shop((1, 4, 1), &[CLERK, OTHER_CLERK], 17);
}

#[test]
fn attribute_2_is_the_number_of_different_roles() {
    let group = [MANAGER, CLERK, OTHER_CLERK];
    expect_shop((2, 4, 2), &group, 0);
    expect_shop((2, 4, 3), &group, 17);
    expect_shop((2, 4, 1), &group, 17);
    expect_shop((2, 4, 1), &[CLERK, OTHER_CLERK], 0);
    expect_shop((2, 4, 2), &[CLERK, OTHER_CLERK], 17);
}

#[test]
fn attribute_2_counts_up_to_six_roles() {
    expect_roles((2, 4, 6), &[0, 1, 2, 3, 4, 5], 0);
    expect_roles((2, 4, 6), &[2, 3, 4, 5, 6, 7], 0);
    expect_roles((2, 4, 5), &[7, 3, 4, 5, 6, 7], 0);
    expect_roles((2, 4, 3), &[7, 0, 4, 0, 4, 7], 0);
    expect_roles((2, 4, 1), &[7, 7, 7, 7, 7, 7], 0);
    expect_roles((2, 4, 6), &[7, 7, 7, 7, 7, 7], 17);
}

#[test]
fn attribute_2_is_not_the_set_byte() {
    expect_roles((2, 4, 4), &[2], 17);
    expect_roles((2, 4, 1), &[2], 0);
    expect_roles((2, 4, 1), &[7], 0);
}

#[test]
fn attribute_3_always_contains_value_0() {
    expect_roles((3, 6, 0), &[0], 0);
    expect_roles((3, 6, 0), &[7, 7], 0);
    expect_shop((3, 6, 0), &[MANAGER, CLERK], 0);
    expect_shop((3, 6, 0), &[OTHER_CLERK], 0);
}

#[test]
fn attribute_3_has_bit_r_for_role_r() {
    for role in 0..8 {
        for other in 0..8 {
            let answer = if role == other { 0 } else { 17 };
            expect_roles((3, 6, 1 << role), &[other], answer);
        }
    }
}

#[test]
fn a_missing_bit_is_not_contained() {
    expect_roles((3, 6, 0b0000_0011), &[0], 17);
    expect_roles((3, 6, 0b0000_0011), &[1], 17);
    expect_roles((3, 6, 0b0000_0011), &[0, 1], 0);
    expect_roles((3, 6, 0b1000_0001), &[0, 1, 2, 3, 4, 5], 17);
    expect_roles((3, 6, 0b1000_0001), &[7, 1, 0], 0);
    expect_roles((3, 6, 0b0011_1111), &[5, 4, 3, 2, 1, 0], 0);
    expect_roles((3, 6, 0b0011_1111), &[5, 4, 3, 2, 1, 1], 17);
    expect_roles((3, 6, 0b1111_1111), &[5, 4, 3, 2, 1, 0], 17);
}

#[test]
fn the_set_may_hold_more_than_the_value() {
    expect_roles((3, 6, 0b0000_0100), &[1, 2, 3], 0);
    expect_roles((3, 6, 0b0000_0100), &[1, 3], 17);
}

#[test]
fn a_senior_is_not_its_junior_in_the_set() {
    expect_shop((3, 6, 0b001), &[MANAGER], 0);
    expect_shop((3, 6, 0b010), &[MANAGER], 17);
    expect_shop((3, 6, 0b100), &[MANAGER], 17);
    expect_shop((3, 6, 0b100), &[MANAGER, BUYER], 17);
    expect_shop((3, 6, 0b110), &[MANAGER, CLERK], 17);
    expect_shop((3, 6, 0b110), &[BUYER, CLERK], 0);
}

#[test]
fn a_junior_is_not_its_senior_in_the_set() {
    expect_shop((3, 6, 0b001), &[BUYER, CLERK], 17);
    expect_shop((3, 6, 0b010), &[CLERK], 17);
}

#[test]
fn a_senior_is_one_role_of_attribute_2() {
    expect_shop((2, 4, 1), &[MANAGER], 0);
    expect_shop((2, 4, 3), &[MANAGER], 17);
}

/// Each user holds all eight roles.
#[test]
fn roles_held_but_not_acted_in_do_not_count() {
    expect_roles((3, 6, 0b0000_0010), &[0, 0], 17);
    expect_roles((2, 4, 8), &[0, 0], 17);
    expect_roles((2, 4, 1), &[0, 0], 0);
}

/// Three entries, in two roles, with a sum of 7.
#[test]
fn the_attributes_have_their_own_numbers() {
    let group = [CLERK, MANAGER, OTHER_CLERK];
    for (attribute, value) in [(0, 3), (1, 7), (2, 2)] {
        for asked in [2, 3, 7] {
            let answer = if asked == value { 0 } else { 17 };
            expect_shop((attribute, 4, asked), &group, answer);
        }
    }
}
