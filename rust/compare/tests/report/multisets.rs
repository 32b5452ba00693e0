//! Groups by how often each role is acted in: one way alone meets the clause.

use crate::setups::*;
use compare::builder::*;
use compare::expect_report;
use compare::questions::at_minute;
use compare::shown::RECORD;

/// Where the holders of the role that counts stand among 24 users.
const PLACES: [u8; 6] = [2, 3, 9, 14, 20, 23];

/// One role weighs 5, the others weigh 1 to 4. So many users hold the role,
/// and all others hold all other roles. The sum of so many entries in the role
/// is asked for.
fn times_one_role(roles: u8, role: u8, holders: usize, entries: u8) -> BaseBuilder {
    let weights: Vec<u8> = (0..roles)
        .map(|other| if other == role { 5 } else { 1 + other % 4 })
        .collect();
    let others: Vec<u8> = (0..roles).filter(|other| *other != role).collect();
    let mut users = vec![user(&others); 24];
    for place in &PLACES[..holders] {
        users[usize::from(*place)] = user(&[role]);
    }
    base_of(&weights, users, &[&[(1, 4, 5 * entries), (0, 3, entries)]])
}

/// Only six entries that weigh 5 make 30: six times the first role, the last
/// or one between.
#[test]
fn six_times_one_role() {
    let group = PLACES.map(|place| [place, 0]);
    for roles in 1..=8 {
        for role in 0..roles {
            let group = group.map(|[place, _]| [place, role]);
            expect_only_group(&times_one_role(roles, role, 6, 6), &group);
            expect_numbers(&times_one_role(roles, role, 5, 6), &[0]);
        }
    }
}

/// The same with fewer entries, for the first role and the last.
#[test]
fn one_to_five_times_one_role() {
    for roles in [1, 3, 5, 6, 8] {
        for (entries, role) in (1..=5).flat_map(|entries| [(entries, 0), (entries, roles - 1)]) {
            let holders = usize::from(entries);
            let group: Vec<[u8; 2]> = PLACES[..holders].iter().map(|p| [*p, role]).collect();
            expect_only_group(&times_one_role(roles, role, holders, entries), &group);
            let base = times_one_role(roles, role, holders - 1, entries);
            expect_numbers(&base, &[0]);
        }
    }
}

/// The last two roles weigh 4 and 5, the others up to 3: 29 is five times 5
/// and 4; 28 is five times 5 and 3, or four times 5 and twice 4.
#[test]
fn beside_six_times_the_last_role() {
    let base = |heavy: &[&[u8]], sum: u8| {
        let mut roles = vec![&[0, 1, 2][..]; 24 - heavy.len()];
        roles.extend(heavy);
        base_of(&[1, 2, 3, 4, 5], users(&roles), &[&[(1, 4, sum)]])
    };
    let five_and_one: [&[u8]; 6] = [&[4], &[4], &[3], &[4], &[4], &[4]];
    expect_with_more_roles(&base(&five_and_one, 29), &[6]);
    expect_with_more_roles(&base(&five_and_one, 30), &[0]);
    expect_with_more_roles(&base(&five_and_one, 28), &[6]);
    let four_and_two: [&[u8]; 6] = [&[3], &[4], &[4], &[4], &[4], &[3]];
    expect_with_more_roles(&base(&four_and_two, 28), &[6]);
    expect_with_more_roles(&base(&four_and_two, 29), &[0]);
    let five: [&[u8]; 5] = [&[4], &[4], &[4], &[4], &[4]];
    expect_with_more_roles(&base(&five, 28), &[6]);
    expect_with_more_roles(&base(&five, 29), &[0]);
}

/// The ways to act in so many of eight roles, each role as often as may be.
fn all_ways(entries: usize) -> Vec<Vec<u8>> {
    match entries {
        0 => vec![vec![]],
        _ => all_ways(entries - 1)
            .into_iter()
            .flat_map(|way| {
                let first = way.last().map_or(0, |role| *role);
                (first..8).map(move |role| [&way[..], &[role]].concat())
            })
            .collect(),
    }
}

/// There are as many users as are asked for, and each holds one role: all 3,002
/// ways to act in up to six of eight roles, with users in another order each.
#[test]
fn every_way_to_act_in_up_to_six_roles() {
    let mut tried = 0;
    for entries in 1..=6 {
        for way in all_ways(entries) {
            let mut held = way.clone();
            held.rotate_left(tried % entries);
            if tried % 2 == 1 {
                held.reverse();
            }
            let users = held.iter().map(|role| user(&[*role])).collect();
            let set = way.iter().fold(0, |set, role| set | 1 << role);
            let conditions: &[GroupCondition] = &[(3, 6, set), (0, 2, entries as u8)];
            let base = base_of(&[1, 2, 3, 4, 5, 4, 3, 2], users, &[conditions]);
            expect_report(&base.bytes(), at_minute(600), RECORD, &[entries as u8]);
            tried += 1;
        }
    }
    assert_eq!(tried, 3_002);
}
