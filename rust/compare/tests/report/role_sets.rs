//! Which roles are acted in, and how many different ones. A role without weight
//! is never acted in.

use crate::setups::*;
use compare::builder::*;

const ALL: &[u8] = &[0, 1, 2, 3, 4, 5, 6, 7];

/// Roles 1 and 2 weigh 2. Role 0 has no weight, though all hold it.
#[test]
fn a_role_without_weight_is_not_let_in() {
    let roles: [&[u8]; 4] = [&[0], &[0, 1], &[0], &[0, 2]];
    for (conditions, k) in [
        (vec![(3, 6, 0b001)], 0),
        (vec![(3, 6, 0b011)], 0),
        (vec![(3, 6, 0b111)], 0),
        (vec![(3, 6, 0b110)], 2),
        (vec![(2, 2, 3)], 0),
        (vec![(2, 2, 2)], 2),
        (vec![(0, 2, 3)], 0),
        (vec![(0, 2, 2)], 2),
        (vec![(0, 4, 2), (1, 4, 2)], 0),
        (vec![(1, 4, 0)], 0),
        (vec![(1, 1, 2)], 0),
        (vec![(1, 3, 2)], 1),
    ] {
        expect_one(&[0, 2, 2], &roles, &[&conditions], k);
    }
    let or_else: &[&[GroupCondition]] = &[&[(3, 6, 0b001)], &[(3, 6, 0b100)]];
    expect_one(&[0, 2, 2], &roles, or_else, 1);
}

/// The same wherever the roles without weight stand.
#[test]
fn roles_without_weight_between_others() {
    let all: Vec<&[u8]> = vec![&[0, 1, 2, 3, 4]; 6];
    for weights in [[1, 0, 1, 0, 1], [0, 0, 1, 1, 1], [1, 1, 1, 0, 0]] {
        let weightless = (0..5).find(|role| weights[*role] == 0);
        let needed = 1 << weightless.expect("one has no weight");
        for (conditions, k) in [
            (vec![(2, 4, 3)], 3),
            (vec![(2, 4, 4)], 0),
            (vec![(3, 6, needed)], 0),
            (vec![(3, 6, 0b11111)], 0),
            (vec![(1, 4, 6), (2, 0, 2)], 6),
            (vec![(1, 4, 6), (2, 0, 3)], 0),
        ] {
            expect_one(&weights, &all, &[&conditions], k);
        }
    }
    for role in 0..5 {
        let mut weights = [0; 5];
        weights[role] = 4;
        expect_one(&weights, &all, &[&[(2, 2, 2)]], 0);
        expect_one(&weights, &all, &[&[(3, 6, 1 << role), (0, 2, 5)]], 5);
        expect_one(&weights, &all, &[&[(3, 6, 1 << (4 - role)), (1, 4, 24)]], {
            if role == 2 {
                6
            } else {
                0
            }
        });
    }
}

/// A policy of another permission gives no weight.
#[test]
fn weight_for_another_permission_only() {
    let any: &[GroupCondition] = &[(3, 6, 0b10)];
    let mut base = base_of(&[1, 1], vec![user(&[0, 1]); 3], &[any]);
    base.permissions.push(base.permissions[0].clone());
    base.group_clauses.push(GroupClause::new(1, any));
    base.policies[1].permission = 1;
    expect_with_more_roles(&base, &[0, 1]);
    base.policies[0].permission = 1;
    base.policies[1].permission = 0;
    expect_with_more_roles(&base, &[1, 0]);
}

#[test]
fn no_role_is_needed() {
    for (conditions, k) in [
        (vec![(3, 6, 0)], 1),
        (vec![(3, 6, 0), (0, 2, 4)], 4),
        (vec![(3, 6, 0), (1, 4, 12), (3, 6, 0)], 6),
        (vec![(3, 6, 0), (2, 2, 2)], 2),
    ] {
        expect_one(&[2, 2], &[&[0, 1][..]; 6], &[&conditions], k);
    }
    expect_one(&[0, 0], &[&[0, 1][..]; 6], &[&[(3, 6, 0)]], 0);
    expect_one(&[2, 2], &[&[][..]; 6], &[&[(3, 6, 0)]], 0);
    expect_one(&[2, 2], &[], &[&[(3, 6, 0)]], 0);
}

/// Six entries act in up to six of the roles; more can't be needed.
#[test]
fn many_roles_are_needed() {
    for roles in 1..=8 {
        let all = vec![user(&ALL[..usize::from(roles)]); 24];
        let set = ((1_u16 << roles) - 1) as u8;
        let k = if roles <= 6 { roles } else { 0 };
        for conditions in [vec![(3, 6, set)], vec![(2, 4, roles)]] {
            let base = base_of(&vec![1; roles.into()], all.clone(), &[&conditions]);
            expect_numbers(&base, &[k]);
        }
    }
}

/// Two conditions on the roles, or on their number, hold together.
#[test]
fn conditions_on_roles_join() {
    let all: Vec<&[u8]> = vec![&[0, 1, 2, 3, 4]; 6];
    for (conditions, k) in [
        (vec![(3, 6, 0b00011), (3, 6, 0b00110)], 3),
        (vec![(3, 6, 0b00011), (3, 6, 0b11000)], 4),
        (vec![(3, 6, 0b00011), (2, 4, 1)], 0),
        (vec![(3, 6, 0b00011), (2, 4, 2), (0, 4, 5)], 5),
        (vec![(3, 6, 0b00011), (2, 5, 2)], 3),
        (vec![(2, 2, 2), (2, 3, 2), (0, 0, 2)], 3),
        (vec![(2, 2, 3), (2, 3, 2)], 0),
        (vec![(2, 5, 1), (2, 5, 2), (2, 5, 3)], 4),
        (vec![(2, 5, 1), (2, 5, 2), (2, 5, 3), (0, 3, 3)], 0),
    ] {
        expect_one(&[1; 5], &all, &[&conditions], k);
    }
}

/// The smallest number of which the operator holds, if the numbers go from 1
/// to `last`.
fn least(operator: u8, value: u8, last: u8) -> u8 {
    let holds = |n: &u8| match operator {
        0 => *n > value,
        1 => *n < value,
        2 => *n >= value,
        3 => *n <= value,
        4 => *n == value,
        _ => *n != value,
    };
    (1..=last).find(holds).unwrap_or(0)
}

const VALUES: [u8; 16] = [0, 1, 2, 3, 4, 5, 6, 7, 8, 15, 16, 17, 31, 32, 33, 255];

/// n different roles need n entries.
#[test]
fn the_number_of_roles_by_every_operator() {
    for roles in [1, 3, 5, 6, 8] {
        let all = vec![user(&ALL[..usize::from(roles)]); 6];
        let weights = vec![1; roles.into()];
        for operator in 0..=5 {
            for value in VALUES {
                let k = least(operator, value, roles.min(6));
                let base = base_of(&weights, all.clone(), &[&[(2, operator, value)]]);
                expect_numbers(&base, &[k]);
            }
        }
    }
}

#[test]
fn the_number_of_entries_by_every_operator() {
    for (users, last) in [(6, 6), (4, 4), (9, 6)] {
        for operator in 0..=5 {
            for value in VALUES {
                let k = least(operator, value, last);
                expect_with_more_roles(&alike(users, &[(0, operator, value)]), &[k]);
            }
        }
    }
}

/// Each entry weighs 1, so the sum is the number of entries.
#[test]
fn the_sum_by_every_operator() {
    for operator in 0..=5 {
        for value in [0, 1, 2, 5, 6, 7, 127, 128, 239, 240, 241, 254, 255] {
            let k = least(operator, value, 6);
            expect_with_more_roles(&alike(8, &[(1, operator, value)]), &[k]);
        }
    }
}
