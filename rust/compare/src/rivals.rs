//! Random bases with many policies of equal role and permission.

use model::{Base, Question, Reading, Resolution};

use crate::builder::*;
use crate::lists::LEGAL;
use crate::lively::lively_base;
use crate::questions::{context_in_range, sound_group};
use crate::random::Random;

/// A lively base with one to `most_users` users, where most policies have
/// rivals: others of their role and permission, with few different issue days,
/// ranks and weights, of either type, active or not. Most clauses ask for a sum
/// that some group has by some list.
pub fn rival_base(random: &mut Random, most_users: usize) -> BaseBuilder {
    let mut base = lively_base(random, most_users);
    let pool = Pool::random(random, &base);
    let permissions = base.permissions.len() as u8;
    let most = random.pick(&[2, 3, 4, 6, 12]);
    base.policies.clear();
    for permission in 0..permissions {
        for role in 0..base.roles {
            for _ in 0..random.below(most + 1) {
                base.policies.push(pool.policy(random, role, permission));
            }
        }
    }
    random.shuffle(&mut base.policies);
    base.policies.truncate(LIMITS[5]);
    for permission in 0..permissions {
        if !random.chance(4) {
            ask_for_sum(random, &mut base, permission);
        }
    }
    base
}

/// Gives the permission one clause alone, which asks for the sum of some group in
/// some context by some list.
fn ask_for_sum(random: &mut Random, base: &mut BaseBuilder, permission: u8) {
    let at = context_in_range(random, base);
    let read = Base::read(&base.bytes()).expect("the base passes");
    let resolution = Resolution::read(random.pick(&LEGAL)).expect("the list is legal");
    let question = Question::by(resolution, &read, permission.into(), at, Reading::Paper);
    let question = question.expect("the permission is there and the context in range");
    let group = sound_group(random, &question);
    let sum: u32 = group.iter().map(|entry| question.weight(entry[1])).sum();
    let operator = random.pick(&[2, 3, 4, 4, 5]);
    base.group_clauses
        .retain(|clause| clause.permission != permission);
    let clause = GroupClause::new(permission, &[(1, operator, sum as u8)]);
    base.group_clauses.push(clause);
}

/// The values that a base's policies have.
struct Pool {
    days: Vec<u16>,
    ranks: Vec<u8>,
    weights: Vec<u8>,
    kinds: Vec<u8>,
    contexts: Vec<u8>,
}

impl Pool {
    /// One to three days, ranks and weights, close or far apart; the context
    /// numbers that have clauses, one that may have none, and none.
    fn random(random: &mut Random, base: &BaseBuilder) -> Pool {
        let day = u16::from_le_bytes([random.byte(), random.byte()]);
        let rank = random.byte();
        let numbers = base.context_clauses.iter().map(|clause| clause.context);
        let mut contexts: Vec<u8> = numbers.collect();
        contexts.push(random.between(0, 15));
        contexts.extend(vec![NO_CONTEXT; contexts.len()]);
        let days = [day, day.wrapping_add(1), day ^ 256, 0, 255, 256, 65_535];
        let ranks = [rank, rank.wrapping_add(1), rank ^ 128, 0, 127, 128, 255];
        Pool {
            days: few(random, &days),
            ranks: few(random, &ranks),
            weights: few(random, &[1, 2, 3, 4, 5]),
            kinds: random.pick(&[[0, 1], [0, 1], [1, 1]]).to_vec(),
            contexts,
        }
    }

    fn policy(&self, random: &mut Random, role: u8, permission: u8) -> Policy {
        Policy {
            role,
            permission,
            weight: random.pick(&self.weights),
            inheritable: random.pick(&self.kinds),
            context: random.pick(&self.contexts),
            rank: random.pick(&self.ranks),
            issue_day: random.pick(&self.days),
        }
    }
}

/// One to three of them, or all.
fn few<T: Copy>(random: &mut Random, all: &[T]) -> Vec<T> {
    let mut all = all.to_vec();
    random.shuffle(&mut all);
    let count = random.pick(&[1, 2, 2, 3, 3, all.len()]);
    all.truncate(count);
    all
}

#[cfg(test)]
mod tests {
    use super::*;
    use crate::lists::{any_list, illegal_list};
    use crate::questions::{random_question_by, Asked};
    use crate::shown::{numbers, RECORD};

    /// Policies for which another is of the same role and permission, and all.
    fn rivals(base: &BaseBuilder) -> [usize; 2] {
        let of = |policy: &Policy| (policy.role, policy.permission);
        let all = base.policies.iter();
        let with_rival = all.filter(|one| {
            let same = |other: &&Policy| of(other) == of(one);
            base.policies.iter().filter(same).count() > 1
        });
        [with_rival.count(), base.policies.len()]
    }

    #[test]
    fn they_pass_and_most_policies_have_rivals() {
        let mut random = Random::new(142);
        let (mut with_rival, mut policies) = (0, 0);
        for _ in 0..500 {
            let base = rival_base(&mut random, 8);
            assert_eq!(model::check(&base.bytes()), 0);
            let [some, all] = rivals(&base);
            with_rival += some;
            policies += all;
        }
        assert!(4 * with_rival > 3 * policies, "{with_rival} of {policies}");
    }

    /// A base, and a question made for a list.
    fn question(random: &mut Random) -> (Vec<u8>, usize, Asked) {
        let records = rival_base(random, 6);
        let bytes = records.bytes();
        let base = Base::read(&bytes).expect("the base passes");
        let resolution = Resolution::read(random.pick(&LEGAL)).expect("the list is legal");
        let asked = random_question_by(random, &records, &base, resolution);
        (bytes, records.permissions.len(), asked)
    }

    #[test]
    fn every_answer_comes_up_often() {
        let mut random = Random::new(143);
        let mut tally = [0; 25];
        for _ in 0..8_000 {
            let (base, _, asked) = question(&mut random);
            let list = any_list(&mut random);
            let Asked {
                permission,
                at,
                group,
            } = asked;
            let answer = model::decide_by(&base, permission, at, &list, &group);
            tally[usize::from(answer)] += 1;
        }
        assert_eq!(tally[1..10], [0; 9]);
        let mut answers = (10..18).chain([0, 22, 24]);
        assert!(answers.all(|answer| tally[answer] >= 100), "{tally:?}");
    }

    /// How many decisions and reports by lists a wrong reading answers otherwise.
    fn differences(reading: Reading) -> [usize; 2] {
        let mut random = Random::new(144);
        let mut found = [0; 2];
        for _ in 0..250 {
            let (base, permissions, asked) = question(&mut random);
            let illegal = illegal_list(&mut random);
            for list in LEGAL.into_iter().chain([&illegal[..]]) {
                let decided = |reading| {
                    let Asked {
                        permission,
                        at,
                        group,
                    } = &asked;
                    model::decide_as(reading, &base, *permission, *at, Some(list), group)
                };
                let reported = |reading| {
                    let mut out = vec![0; RECORD * permissions];
                    let answer = model::report_as(reading, &base, asked.at, Some(list), &mut out);
                    (answer, numbers(&out))
                };
                found[0] += usize::from(decided(reading) != decided(Reading::Paper));
                found[1] += usize::from(reported(reading) != reported(Reading::Paper));
            }
        }
        found
    }

    #[test]
    fn every_wrong_reading_comes_up() {
        for reading in Reading::WRONG_OF_RESOLUTION {
            let [decisions, reports] = differences(reading);
            println!("{reading:?}: {decisions} decisions, {reports} reports");
            let only_reports = reading == Reading::ListIgnored;
            let only_decisions = reading == Reading::ListAfterPermission;
            assert!(decisions >= 5 || only_reports && decisions == 0);
            assert!(reports >= 5 || only_decisions && reports == 0);
        }
    }
}
