//! Random bases of every number of roles, whose clauses cap or name sums,
//! numbers and roles: with few users or many, of few roles or many, at times of
//! the first roles alone, and with weights that are equal, even or any.

use crate::builder::*;
use crate::days::give_days;
use crate::random::Random;
use crate::valid::{random_edge, times};

/// A random base of so many roles that passes the check. Its policies have no
/// context.
pub fn capped_base(random: &mut Random, roles: u8) -> BaseBuilder {
    let permissions = random.pick(&[1, 1, 2, 2, 3, 5]);
    let mut base = BaseBuilder::new(roles).with_permissions(permissions.into());
    let users = random.pick(&[3, 5, 6, 6, 7, 8, 12, 24]);
    let one_in = random.pick(&[1, 2, 3, 6]);
    let held = random.pick(&[roles, roles, roles.div_ceil(2)]);
    base.users = times(users, || user(random, held, one_in));
    give_days(random, &mut base.users);
    if roles > 1 {
        base.hierarchy = times(random.pick(&[0, 0, 1, 3, 12]), || {
            random_edge(random, roles)
        });
    }
    for permission in 0..permissions {
        base.policies.extend(policies(random, roles, permission));
        let count = random.pick(&[1, 1, 2, 4]);
        base.group_clauses.extend(times(count, || {
            GroupClause::new(permission, &conditions(random, roles))
        }));
    }
    base
}

/// A user who holds about one in so many of the first roles.
fn user(random: &mut Random, roles: u8, one_in: usize) -> User {
    let codes = CODES[..usize::from(roles)].iter();
    let parameter = codes.filter(|_| random.chance(one_in)).product();
    User::always(parameter)
}

/// A policy for most roles, of equal, even or any weights.
fn policies(random: &mut Random, roles: u8, permission: u8) -> Vec<Policy> {
    let equal = random.between(1, 5);
    let weights = random.pick(&[[equal; 4], [2, 2, 4, 4], [1, 2, 3, 5]]);
    let (without, kind) = (random.pick(&[3, 8, 100]), random.between(0, 1));
    let policy = |role| {
        let policy = Policy::new(role, permission, random.pick(&weights), kind, NO_CONTEXT);
        (!random.chance(without)).then_some(policy)
    };
    (0..roles).filter_map(policy).collect()
}

/// Mostly a number of entries and a cap on the sum that so many can keep.
fn conditions(random: &mut Random, roles: u8) -> Vec<GroupCondition> {
    let entries = random.pick(&[1, 2, 3, 4, 5, 5, 6, 6, 6]);
    let size = (0, random.pick(&[2, 2, 4, 0]), entries);
    let each = random.pick(&[1, 2, 3, 4, 5, 6, 12, 20]);
    let sum = entries * each + random.between(0, 3);
    let cap = (1, random.pick(&[1, 3, 4, 4, 5]), sum);
    let different = (2, random.between(0, 5), random.between(1, roles.min(6)));
    let needed = 1 << random.between(0, roles - 1);
    match random.below(8) {
        0 => vec![size, cap],
        1 => vec![cap, (1, 2, sum.saturating_sub(4)), (1, 5, sum - 1)],
        2 => vec![cap, different],
        3 => vec![size, different, (3, 6, needed)],
        4 => vec![(3, 6, needed), cap, size],
        5 => vec![(1, 4, sum)],
        6 => vec![size, (2, 3, 1)],
        _ => vec![size, (1, 5, sum), different, cap],
    }
}

#[cfg(test)]
mod tests {
    use super::*;
    use crate::questions::at_minute;

    /// The smallest numbers, of bases of few users by trying all groups.
    #[test]
    fn both_ways_find_the_same_number() {
        let mut random = Random::new(55);
        for roles in (1..=8).cycle().take(80) {
            let mut records = capped_base(&mut random, roles);
            records.users.truncate(5);
            let base = records.bytes();
            for permission in 0..records.permissions.len() as u32 {
                let by_trial = model::smallest_by_trial(&base, at_minute(0), None, permission);
                let by_reach = model::smallest_by_reach(&base, at_minute(0), None, permission);
                assert_eq!(by_reach, by_trial);
            }
        }
    }

    #[test]
    fn every_smallest_number_comes_up_for_every_number_of_roles() {
        let mut random = Random::new(56);
        for roles in 1..=8 {
            let mut tally = [0; 7];
            for _ in 0..300 {
                let records = capped_base(&mut random, roles);
                let mut out = [0; 5 * 13];
                let answer = twin::report(&records.bytes(), at_minute(0), &mut out);
                assert_eq!(answer.refusal, 0);
                let shown = &out[..13 * records.permissions.len()];
                for k in crate::shown::numbers(shown) {
                    tally[usize::from(k)] += 1;
                }
            }
            println!("{roles} roles: {tally:?}");
            assert!(tally.iter().all(|&times| times >= 8), "{tally:?}");
        }
    }
}
