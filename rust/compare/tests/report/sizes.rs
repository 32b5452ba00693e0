//! Numbers of entries: too few users, one role alone, equal weights, and
//! numbers that the weights rule out.

use crate::setups::*;
use compare::builder::*;

const ALL: &[u8] = &[0, 1, 2, 3, 4, 5, 6, 7];

#[test]
fn five_users_are_no_six() {
    for (count, k) in [(5, 0), (6, 6), (7, 6)] {
        expect_with_more_roles(&alike(count, &[(0, 2, 6)]), &[k]);
        let base = base_of(&[1; 8], vec![user(ALL); count], &[&[(0, 2, 6)]]);
        expect_numbers(&base, &[k]);
        let base = base_of(&[1; 5], vec![user(&ALL[..5]); count], &[&[(1, 4, 6)]]);
        expect_with_more_roles(&base, &[k]);
    }
}

/// Of six users one holds no role, or only one without weight.
#[test]
fn a_sixth_user_without_a_role_that_counts() {
    let mut six: Vec<&[u8]> = vec![&[0, 1, 2]; 6];
    expect_one(&[1, 2, 3, 0], &six, &[&[(0, 4, 6)]], 6);
    for none in [&[][..], &[3]] {
        six[2] = none;
        expect_one(&[1, 2, 3, 0], &six, &[&[(0, 4, 6)]], 0);
        expect_one(&[1, 2, 3, 0], &six, &[&[(0, 4, 5)]], 5);
    }
}

#[test]
fn one_role() {
    for weight in 1..=5 {
        for entries in 1..=6 {
            let base = |count| {
                let sum = [(1, 4, weight * entries)];
                base_of(&[weight], vec![user(&[0]); count], &[&sum])
            };
            let (count, k) = (usize::from(entries), entries);
            expect_with_more_roles(&base(6), &[k]);
            expect_with_more_roles(&base(count), &[k]);
            expect_with_more_roles(&base(count - 1), &[0]);
        }
    }
    for (conditions, k) in [
        ([(2, 4, 1), (0, 2, 6)], 6),
        ([(2, 4, 2), (0, 2, 1)], 0),
        ([(2, 5, 1), (0, 2, 1)], 0),
        ([(3, 6, 1), (0, 2, 4)], 4),
        ([(3, 6, 0), (0, 2, 3)], 3),
    ] {
        expect_with_more_roles(&alike(6, &conditions), &[k]);
    }
}

/// All roles weigh 3, and of eight users each holds another one.
#[test]
fn equal_weights() {
    let each: Vec<User> = ALL.iter().map(|role| user(&[*role])).collect();
    let expect = |conditions: &[GroupCondition], k| {
        expect_numbers(&base_of(&[3; 8], each.clone(), &[conditions]), &[k]);
        let all = vec![user(ALL); 6];
        expect_numbers(&base_of(&[3; 8], all, &[conditions]), &[k]);
    };
    for entries in 1..=6 {
        expect(&[(1, 4, 3 * entries)], entries);
        expect(&[(1, 4, 3 * entries + 1)], 0);
        expect(&[(1, 0, 3 * entries - 3)], entries);
        expect(&[(2, 4, entries)], entries);
        expect(&[(2, 4, entries), (1, 4, 3 * entries)], entries);
        expect(&[(3, 6, 255 << (8 - entries)), (1, 1, 19)], entries);
    }
    expect(&[(1, 1, 3)], 0);
    expect(&[(1, 1, 4)], 1);
    expect(&[(1, 2, 19)], 0);
    expect(&[(1, 5, 3), (1, 5, 6), (1, 5, 9), (1, 5, 12)], 5);
}

/// The heaviest role weighs 5, so six entries have 30 at most.
#[test]
fn more_than_six_of_the_heaviest() {
    let users: Vec<&[u8]> = vec![&[0, 1]; 7];
    for (sum, k) in [(5, 1), (6, 2), (10, 2), (11, 3), (25, 5), (26, 6), (30, 6)] {
        expect_one(&[5, 3], &users, &[&[(1, 2, sum)]], k);
        expect_one(&[5, 3], &users, &[&[(1, 0, sum - 1)]], k);
    }
    for sum in [31, 36, 240, 255] {
        expect_one(&[5, 3], &users, &[&[(1, 2, sum)]], 0);
        expect_one(&[5, 3], &users, &[&[(1, 4, sum)]], 0);
        expect_one(&[5, 3], &users, &[&[(1, 0, sum - 1)]], 0);
    }
}

/// The lightest role weighs 2, so n entries have at least twice n.
#[test]
fn less_than_the_lightest() {
    let users: Vec<&[u8]> = vec![&[0, 1]; 7];
    for entries in 1..=6 {
        let least = 2 * entries;
        for (cap, k) in [((1, 3, least), entries), ((1, 1, least + 1), entries)] {
            expect_one(&[3, 2], &users, &[&[(0, 2, entries), cap]], k);
        }
        for cap in [(1, 3, least - 1), (1, 1, least), (1, 4, least - 1)] {
            expect_one(&[3, 2], &users, &[&[(0, 2, entries), cap]], 0);
        }
    }
    expect_one(&[3, 2], &users, &[&[(1, 4, 1)]], 0);
    expect_one(&[3, 2], &users, &[&[(1, 4, 0)]], 0);
}

/// Sums for which only some numbers of entries come into question: 7 is 5 and
/// 2, or 2, 2 and 3 which nobody weighs; 12 is 5, 5 and 2, or six times 2.
#[test]
fn some_numbers_of_entries_only() {
    let users: Vec<&[u8]> = vec![&[0], &[0, 1], &[1], &[1], &[1], &[1], &[1]];
    for (conditions, k) in [
        (vec![(1, 4, 7)], 2),
        (vec![(1, 4, 7), (0, 5, 2)], 0),
        (vec![(1, 4, 12)], 3),
        (vec![(1, 4, 12), (0, 5, 3)], 6),
        (vec![(1, 4, 12), (0, 5, 3), (0, 5, 6)], 0),
        (vec![(1, 4, 12), (0, 0, 3), (0, 1, 6)], 0),
        (vec![(1, 4, 13)], 5),
    ] {
        expect_one(&[5, 2], &users, &[&conditions], k);
    }
}
