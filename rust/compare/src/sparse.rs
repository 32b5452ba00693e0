//! Random bases with few ways to a group: users with few roles, and clauses
//! that are made for one group and hold for hardly another.

use model::{Base, Question, Reading};

use crate::builder::*;
use crate::days::give_days;
use crate::questions::{at_minute, sound_group};
use crate::random::Random;
use crate::valid::{random_edge, times};

/// A random base that passes the check, with six to `most_users` users. Its
/// policies have no context, and its clauses are made for users of all days.
pub fn sparse_base(random: &mut Random, most_users: usize) -> BaseBuilder {
    let roles = random.between(4, 8);
    let permissions = random.pick(&[1, 1, 2, 3]);
    let users = 6 + random.below(most_users - 5);
    let held = random.pick(&[1, 2, 2, 3, 4]);
    let mut base = BaseBuilder::new(roles).with_permissions(permissions.into());
    base.users = times(users, || user(random, roles, held));
    base.hierarchy = times(random.below(8), || random_edge(random, roles));
    for permission in 0..permissions {
        base.policies.extend(policies(random, roles, permission));
    }
    base.group_clauses = clauses(random, &base);
    give_days(random, &mut base.users);
    base
}

/// A user who holds one role to `most`, at times none.
fn user(random: &mut Random, roles: u8, most: usize) -> User {
    let mut codes = CODES[..usize::from(roles)].to_vec();
    random.shuffle(&mut codes);
    let some = 1 + random.below(most);
    let held = random.pick(&[some, some, some, some, 0]);
    User::always(codes.iter().take(held).product())
}

/// A policy for most roles.
fn policies(random: &mut Random, roles: u8, permission: u8) -> Vec<Policy> {
    let policy = |role| {
        let (weight, inheritable) = (random.between(1, 5), random.between(0, 1));
        let policy = Policy::new(role, permission, weight, inheritable, NO_CONTEXT);
        (!random.chance(6)).then_some(policy)
    };
    (0..roles).filter_map(policy).collect()
}

/// One clause or two for each permission.
fn clauses(random: &mut Random, records: &BaseBuilder) -> Vec<GroupClause> {
    let bytes = records.bytes();
    let base = Base::read(&bytes).expect("the base passes");
    let mut clauses = Vec::new();
    for permission in 0..base.permissions.len() as u8 {
        let question = Question::new(&base, permission.into(), at_minute(0), Reading::Paper)
            .expect("the question is allowed");
        for _ in 0..random.pick(&[1, 1, 2]) {
            let conditions = narrow_conditions(random, &question);
            clauses.push(GroupClause::new(permission, &conditions));
        }
    }
    clauses
}

/// Conditions that a random group passes, or just fails.
fn narrow_conditions(random: &mut Random, question: &Question) -> Vec<GroupCondition> {
    let group = sound_group(random, question);
    let entries = group.len() as u8;
    let sum: u32 = group.iter().map(|entry| question.weight(entry[1])).sum();
    let sum = sum as u8;
    let set = group.iter().fold(0_u8, |set, entry| set | 1 << entry[1]);
    let different = set.count_ones() as u8;
    match random.below(10) {
        0 => vec![(1, 4, sum)],
        1 => vec![(0, 2, entries), (1, 4, sum)],
        2 => vec![(0, 2, entries), (1, 1, sum + random.between(0, 2))],
        3 => vec![(2, 4, different), (1, 4, sum)],
        4 => vec![(3, 6, set), (1, 3, sum)],
        5 => vec![(3, 6, set), (0, 0, entries.saturating_sub(1)), (1, 4, sum)],
        6 => vec![(0, 2, entries), (2, 3, different), (1, 5, sum)],
        7 => vec![(3, 6, set), (0, 3, entries), (1, 1, sum)],
        8 => vec![(0, 4, entries), (2, 4, different), (1, 4, sum + 1)],
        _ => vec![(1, 2, sum), (2, 2, different), (1, 3, sum + 1)],
    }
}

#[cfg(test)]
mod tests {
    use super::*;

    #[test]
    fn a_sparse_base_passes_and_every_smallest_number_comes_up_often() {
        let mut random = Random::new(51);
        let mut tally = [0; 7];
        for _ in 0..500 {
            let bytes = sparse_base(&mut random, 24).bytes();
            let base = Base::read(&bytes).expect("a sparse base passes");
            for permission in 0..base.permissions.len() as u32 {
                let k = model::smallest_by_reach(&bytes, at_minute(0), None, permission);
                tally[usize::from(k)] += 1;
            }
        }
        assert!(tally.iter().all(|&times| times >= 20), "{tally:?}");
    }

    #[test]
    fn both_ways_find_the_same_number() {
        let mut random = Random::new(52);
        for _ in 0..40 {
            let base = sparse_base(&mut random, 6).bytes();
            for permission in 0..crate::permission_count(&base) as u32 {
                let by_trial = model::smallest_by_trial(&base, at_minute(0), None, permission);
                let by_reach = model::smallest_by_reach(&base, at_minute(0), None, permission);
                assert_eq!(by_reach, by_trial);
            }
        }
    }
}
