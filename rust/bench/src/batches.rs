//! Batches of queries: a permission, the number of entries, and six entries.

use compare::batches::{query, Query, MOST_QUERIES};
use compare::random::Random;
use model::{Base, Context, Question, Reading};

/// How often a group is drawn anew that isn't granted.
const DRAWS: usize = 3;

/// As many queries as there may be, about the first so many permissions. Users who
/// come act in any role with weight that is open to them, one to six at once. A group
/// is mostly granted, where some can be, else refused by 17; one in 16 has a fault.
pub fn queries(base: &[u8], at: Context, permissions: u32) -> Vec<Query> {
    let base = Base::read(base).expect("the base passes");
    let question = |permission| Question::new(&base, permission, at, Reading::Paper);
    let questions: Vec<Question> = (0..permissions)
        .map(|permission| question(permission).expect("the permission is there"))
        .collect();
    let mut random = Random::new(10);
    let any = |_| {
        let permission = random.below(questions.len());
        let group = any_group(&mut random, &questions[permission]);
        let mut asked = query(permission as u8, &group, random.byte());
        if random.chance(16) {
            spoil(&mut random, &mut asked);
        }
        asked
    };
    (0..MOST_QUERIES).map(any).collect()
}

fn any_group(random: &mut Random, question: &Question) -> Vec<[u8; 2]> {
    let mut users: Vec<u8> = (0..question.base.users.len() as u8).collect();
    let mut group = Vec::new();
    for _ in 0..DRAWS {
        random.shuffle(&mut users);
        let count = 1 + random.below(users.len().min(6));
        let open = users.iter().map(|&user| question.entries_of(user));
        let choices = open.map(|entries| entries.map(|entry| entry.bytes()).collect());
        let choices = choices.filter(|choices: &Vec<_>| !choices.is_empty());
        group = choices
            .take(count)
            .map(|choices| random.pick(&choices))
            .collect();
        if question.grants(group.as_flattened()) {
            break;
        }
    }
    group
}

/// Another permission, number of entries, user or role that isn't there, or the first
/// user twice.
fn spoil(random: &mut Random, query: &mut Query) {
    match random.below(5) {
        0 => query[0] = 16,
        1 => query[1] = random.pick(&[0, 7]),
        2 => query[2] = 24,
        3 => query[3] = 8,
        _ => (query[1], query[4]) = (query[1].max(2), query[2]),
    }
}

#[cfg(test)]
mod tests {
    use super::*;
    use crate::bases::{full_base, mixed_base, typical_shop};
    use compare::questions::at_minute;
    use compare::shop::small_shop;

    /// How often each answer comes up.
    fn answers(base: &[u8], permissions: u32) -> [usize; 25] {
        let queries = queries(base, at_minute(600), permissions);
        let mut found = [0; MOST_QUERIES];
        let refusal = model::batch(base, at_minute(600), queries.as_flattened(), &mut found);
        assert_eq!(refusal, 0);
        let mut times = [0; 25];
        found
            .iter()
            .for_each(|&answer| times[usize::from(answer)] += 1);
        times
    }

    /// On the full base no group is granted.
    #[test]
    fn most_are_granted_or_refused_by_17() {
        for (base, permissions, granted) in [
            (small_shop(), 1, 500..900),
            (typical_shop(), 8, 500..900),
            (mixed_base(), 16, 500..900),
            (full_base(), 1, 0..1),
        ] {
            let times = answers(&base.bytes(), permissions);
            assert!(granted.contains(&times[0]), "{times:?}");
            assert!(times[0] + times[17] > 900, "{times:?}");
            let refused = (1..25).filter(|&answer| times[answer] > 0);
            assert!(refused.eq([10, 12, 13, 14, 17]), "{times:?}");
        }
    }
}
