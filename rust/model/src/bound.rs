//! How far a new weight of one policy can shift a group's sum of weights.

use crate::acting::Acting;
use crate::answer::Answer;
use crate::base::Base;
use crate::group::pairs;
use crate::reading::Reading;
use crate::records::Policy;
use crate::refusal::Refusal;
use crate::roles::Role;
use crate::seniority::{chains, Seniority};

/// The bound for a group, a policy's number and a new weight; or the first of
/// refusals 1 to 9, 12 to 15 and 21 that applies, and 0.
pub fn bound(base: &[u8], policy: u32, weight: u32, group: &[u8]) -> Answer {
    bound_as(Reading::Paper, base, policy, weight, group)
}

/// The bound by this reading.
pub fn bound_as(reading: Reading, base: &[u8], policy: u32, weight: u32, group: &[u8]) -> Answer {
    let bound = Base::read_as(reading, base).and_then(|base| {
        let change = Change::by(reading, &base, policy, weight);
        if reading == Reading::ChangeFirst && change.is_none() {
            return Err(Refusal::NoPolicyOrWeight);
        }
        Acting::by(reading, &base).entries(group)?;
        let change = change.ok_or(Refusal::NoPolicyOrWeight)?;
        Ok(change.bound(group))
    });
    match bound {
        Ok(bound) => Answer::done(bound),
        Err(refusal) => Answer::refused(refusal),
    }
}

/// A new weight for one policy of a base.
pub struct Change<'a> {
    base: &'a Base,
    /// The policy's number.
    place: usize,
    weight: u8,
    seniority: Seniority,
    reading: Reading,
}

impl<'a> Change<'a> {
    /// The change, if the policy is in A and the new weight is 1 to 5.
    pub fn new(base: &'a Base, policy: u32, weight: u32) -> Option<Change<'a>> {
        Change::by(Reading::Paper, base, policy, weight)
    }

    /// The same, read so.
    pub fn by(reading: Reading, base: &'a Base, policy: u32, weight: u32) -> Option<Change<'a>> {
        let is_there = u64::from(policy) < base.policies.len() as u64;
        let is_weight = (1..=5).contains(&weight);
        (is_there && is_weight).then(|| Change {
            base,
            place: policy as usize,
            weight: weight as u8,
            seniority: match reading {
                Reading::DirectSeniors => Seniority::direct(base),
                _ => Seniority::of(base),
            },
            reading,
        })
    }

    fn policy(&self) -> &Policy {
        &self.base.policies[self.place]
    }

    /// The base with the new weight.
    pub fn changed_base(&self) -> Base {
        let mut base = self.base.clone();
        base.policies[self.place].weight = self.weight;
        base
    }

    /// The request's bound, for any bytes as a group: the difference of the two
    /// weights times the number of entries that the change reaches.
    pub fn bound(&self, group: &[u8]) -> usize {
        let difference = usize::from(self.policy().weight.abs_diff(self.weight));
        let entries: usize = pairs(group).map(|entry| self.times(entry.role)).sum();
        match self.reading {
            Reading::EntriesForgotten => difference,
            _ => difference * entries,
        }
    }

    /// Whether the role is the policy's or senior to it.
    pub fn reaches(&self, role: Role) -> bool {
        let of_policy = self.policy().role;
        role == of_policy || self.seniority.is_senior(role, of_policy)
    }

    /// How often an entry in this role counts: once if the change reaches it.
    fn times(&self, role: Role) -> usize {
        let policy = self.policy();
        let in_role = usize::from(role == policy.role);
        match self.reading {
            Reading::JuniorsReached => {
                in_role + usize::from(self.seniority.is_senior(policy.role, role))
            }
            Reading::SeniorsAlone => usize::from(self.reaches(role)) - in_role,
            Reading::SeniorPerChain => {
                in_role + chains(&self.base.hierarchy, role, policy.role) as usize
            }
            Reading::TypeRegarded if !policy.inheritable => in_role,
            Reading::FirstAlone if !self.is_first() => 0,
            _ => self.reaches(role).into(),
        }
    }

    /// Whether no earlier policy is of the same role and permission.
    fn is_first(&self) -> bool {
        let of = |policy: &Policy| (policy.role, policy.permission);
        let mut earlier = self.base.policies[..self.place].iter();
        earlier.all(|policy| of(policy) != of(self.policy()))
    }
}

#[cfg(test)]
mod tests {
    use super::*;
    use crate::decision::decide;
    use crate::resolution::Resolution;
    use crate::samples::*;
    use crate::weight::Situation;

    const ALL: [[u8; 2]; 4] = [MANAGER, BUYER, CLERK, OTHER_CLERK];

    /// The small shop's answer: the refusal and the bound.
    fn answer(policy: u32, weight: u32, group: &[u8]) -> (u8, u32) {
        let Answer { refusal, count } = bound(&SMALL_SHOP, policy, weight, group);
        (refusal, count)
    }

    /// The small shop's bound.
    fn of_shop(policy: u32, weight: u32, group: &[[u8; 2]]) -> u32 {
        let (refusal, count) = answer(policy, weight, &group.concat());
        assert_eq!(refusal, 0);
        count
    }

    #[test]
    fn entries_in_the_policys_role_and_in_its_seniors_count() {
        assert_eq!([0, 1, 2].map(|policy| of_shop(policy, 5, &ALL)), [2, 8, 16]);
        for (entry, bounds) in [(MANAGER, [2, 4, 4]), (BUYER, [0, 4, 4]), (CLERK, [0, 0, 4])] {
            assert_eq!([0, 1, 2].map(|policy| of_shop(policy, 5, &[entry])), bounds);
        }
    }

    #[test]
    fn a_weight_may_rise_or_fall() {
        let weights = [1, 2, 3, 4, 5];
        let of_manager = weights.map(|weight| of_shop(0, weight, &[MANAGER]));
        assert_eq!(of_manager, [2, 1, 0, 1, 2]);
        let of_clerk = weights.map(|weight| of_shop(2, weight, &ALL));
        assert_eq!(of_clerk, [0, 4, 8, 12, 16]);
    }

    #[test]
    fn the_role_acted_in_counts() {
        assert_eq!(of_shop(1, 3, &[[0, 2], [1, 2]]), 0);
        assert_eq!(of_shop(2, 3, &[[0, 2], [1, 2]]), 4);
        assert_eq!(of_shop(0, 5, &[[0, 1]]), 0);
    }

    #[test]
    fn refusals_come_in_order() {
        let faults = [1, 0, 0, 0, 0, 0, 9, 9, 9];
        for (policy, weight) in [(0, 3), (3, 3), (0, 0), (256, 256)] {
            assert_eq!(bound(&[], policy, weight, &faults).refusal, 1);
            assert_eq!(bound(&SMALL_SHOP[1..], policy, weight, &faults).refusal, 3);
            assert_eq!(answer(policy, weight, &faults), (12, 0));
            assert_eq!(answer(policy, weight, &faults[..8]), (13, 0));
            assert_eq!(answer(policy, weight, &faults[..6]), (14, 0));
            assert_eq!(answer(policy, weight, &faults[..4]), (15, 0));
        }
        assert_eq!(answer(3, 3, &MANAGER), (21, 0));
    }

    #[test]
    fn policies_end_with_their_table() {
        assert_eq!(answer(2, 5, &CLERK), (0, 4));
        for policy in [3, 63, 64, 255, 256, 257, 65_536, 65_538, u32::MAX] {
            assert_eq!(answer(policy, 5, &CLERK), (21, 0));
        }
    }

    #[test]
    fn a_weight_is_1_to_5() {
        for weight in 1..=5 {
            assert_eq!(answer(2, weight, &CLERK), (0, weight - 1));
        }
        for weight in [0, 6, 255, 256, 257, 261, 65_537, u32::MAX] {
            assert_eq!(answer(2, weight, &CLERK), (21, 0));
        }
    }

    /// 0 over 1 and 2, both over 3, by one record and by two.
    fn diamond() -> Base {
        let mut base = empty_base(4);
        base.permissions = small_shop().permissions;
        base.hierarchy = vec![edge(0, 1), edge(0, 2), edge(1, 3), edge(2, 3), edge(2, 3)];
        base.policies = vec![policy(3, 1, false, Some(7)), policy(3, 5, true, None)];
        base
    }

    #[test]
    fn a_senior_by_several_chains_counts_once() {
        let base = diamond();
        let of = |policy, weight, group: &[u8]| {
            let change = Change::new(&base, policy, weight).expect("nothing refuses it");
            change.bound(group)
        };
        assert_eq!(of(0, 5, &[0, 0]), 4);
        assert_eq!(of(1, 1, &[0, 0, 1, 1, 2, 2, 3, 3]), 16);
        assert_eq!(of(0, 5, &[0; 12]), 24);
    }

    /// A policy of type 0, in a context without clauses, and one that stands
    /// behind another of its role and permission.
    #[test]
    fn only_the_policys_role_is_looked_at() {
        let base = diamond();
        let bounds = [(0, 2), (1, 4)].map(|(policy, weight)| {
            let change = Change::new(&base, policy, weight).expect("nothing refuses it");
            change.bound(&[9, 0, 9, 3, 9, 3])
        });
        assert_eq!(bounds, [3, 3]);
    }

    #[test]
    fn any_bytes_have_a_bound() {
        let shop = small_shop();
        let change = Change::new(&shop, 2, 4).expect("nothing refuses it");
        assert_eq!(change.bound(&[]), 0);
        assert_eq!(change.bound(&[2]), 0);
        assert_eq!(change.bound(&[2, 2, 2]), 3);
        assert_eq!(change.bound(&[2; 40]), 60);
        assert_eq!(change.bound(&[0, 3, 0, 7, 0, 8, 0, 255, 0, 1]), 3);
    }

    #[test]
    fn the_changed_base_has_the_new_weight_alone() {
        let shop = small_shop();
        let change = Change::new(&shop, 1, 4).expect("nothing refuses it");
        let mut bytes = SMALL_SHOP;
        bytes[80] = 4;
        assert_eq!(Ok(change.changed_base()), Base::read(&bytes));
    }

    /// By any bytes up to 40, of small numbers and large ones.
    fn any_bytes(draws: &mut Draws) -> Vec<u8> {
        let count = draws.below(41);
        let last = [3, 5, 255][draws.below(3)];
        (0..count).map(|_| draws.byte(0, last)).collect()
    }

    fn sum(base: &Base, group: &[u8]) -> u32 {
        Situation::new(base, at_minute(600), Reading::Paper).sum(0, group)
    }

    #[test]
    fn no_sum_shifts_by_more_than_the_bound() {
        let mut draws = Draws::new(3);
        let mut reached = 0;
        for _ in 0..3_000 {
            let base = random_base(&mut draws, 6);
            let policy = draws.below(base.policies.len()) as u32;
            let weight = draws.byte(1, 5).into();
            let change = Change::new(&base, policy, weight).expect("nothing refuses it");
            let changed = change.changed_base();
            for _ in 0..5 {
                let group = any_bytes(&mut draws);
                let shift = sum(&base, &group).abs_diff(sum(&changed, &group)) as usize;
                let bound = change.bound(&group);
                assert!(shift <= bound, "{shift} of {bound}");
                reached += usize::from(0 < bound && shift == bound);
            }
        }
        assert!(reached >= 1_000, "{reached}");
    }

    /// By rule 2 another policy may be chosen after the change.
    #[test]
    fn by_no_list_does_a_sum_shift_by_more() {
        let mut draws = Draws::new(6);
        let (mut reached, mut in_part) = (0, 0);
        for _ in 0..1_000 {
            let base = random_rivals(&mut draws, 6);
            let policy = draws.below(base.policies.len()) as u32;
            let weight = draws.byte(1, 5).into();
            let change = Change::new(&base, policy, weight).expect("nothing refuses it");
            let changed = change.changed_base();
            let group = any_bytes(&mut draws);
            let bound = change.bound(&group);
            for list in LISTS {
                let [old, new] = [&base, &changed].map(|base| sum_by(list, base, &group));
                let shift = old.abs_diff(new) as usize;
                assert!(shift <= bound, "{shift} of {bound} by {list:?}");
                reached += usize::from(0 < bound && shift == bound);
                in_part += usize::from(0 < shift && shift < bound);
            }
        }
        assert!(reached >= 500 && in_part >= 500, "{reached}, {in_part}");
    }

    fn sum_by(list: &[u8], base: &Base, group: &[u8]) -> u32 {
        let resolution = Resolution::read(list).expect("the list is legal");
        Situation::by(resolution, base, at_minute(600), Reading::Paper).sum(0, group)
    }

    /// Of weights 2 and 4 the first counts by rule 2; with 5 in its place the
    /// second does: a shift of 2 where the bound is 3.
    #[test]
    fn a_choice_that_changes_shifts_less_than_the_bound() {
        let mut base = small_shop();
        base.policies = vec![issued(0, 0, 2), issued(0, 0, 4)];
        let change = Change::new(&base, 0, 5).expect("nothing refuses it");
        let changed = change.changed_base();
        let sums = |list| [&base, &changed].map(|base| sum_by(list, base, &MANAGER));
        assert_eq!(change.bound(&MANAGER), 3);
        assert_eq!(
            [sums(&[2]), sums(&[0]), sums(&[1, 2])],
            [[2, 4], [2, 5], [2, 4]]
        );
    }

    /// Its refusals 12 to 15 are the decision's.
    #[test]
    fn a_group_that_the_decision_gets_past_15_has_a_bound() {
        let mut draws = Draws::new(4);
        let mut seen = [0; 16];
        for _ in 0..20_000 {
            let group = any_bytes(&mut draws);
            let decided = decide(&SMALL_SHOP, 0, at_minute(480), &group);
            let (refusal, _) = answer(2, 5, &group);
            assert_eq!(refusal, if decided < 16 { decided } else { 0 });
            seen[usize::from(refusal)] += 1;
        }
        assert!(seen[12..].iter().all(|&times| times > 0), "{seen:?}");
        assert!(seen[0] > 0);
    }

    /// The small shop's answer by a reading.
    fn by(reading: Reading, policy: u32, weight: u32, group: &[[u8; 2]]) -> (u8, u32) {
        let Answer { refusal, count } =
            bound_as(reading, &SMALL_SHOP, policy, weight, &group.concat());
        (refusal, count)
    }

    #[test]
    fn wrong_readings_reach_others() {
        let each = |reading| ALL.map(|entry| by(reading, 1, 5, &[entry]).1);
        assert_eq!(each(Reading::Paper), [4, 4, 0, 0]);
        assert_eq!(each(Reading::JuniorsReached), [0, 4, 4, 4]);
        assert_eq!(each(Reading::SeniorsAlone), [4, 0, 0, 0]);
        let clerks = |reading| ALL.map(|entry| by(reading, 2, 5, &[entry]).1);
        assert_eq!(clerks(Reading::DirectSeniors), [0, 4, 4, 4]);
    }

    #[test]
    fn wrong_readings_look_at_more_than_the_role() {
        let base = diamond();
        let of = |reading, policy, role| {
            let change = Change::by(reading, &base, policy, 3).expect("nothing refuses it");
            change.bound(&[0, role])
        };
        assert_eq!([0, 3].map(|role| of(Reading::Paper, 0, role)), [2, 2]);
        assert_eq!(
            [0, 3].map(|role| of(Reading::TypeRegarded, 0, role)),
            [0, 2]
        );
        assert_eq!(
            [0, 3].map(|role| of(Reading::TypeRegarded, 1, role)),
            [2, 2]
        );
        assert_eq!(
            [0, 1].map(|policy| of(Reading::FirstAlone, policy, 3)),
            [2, 0]
        );
        assert_eq!(
            [0, 1, 2].map(|role| of(Reading::SeniorPerChain, 0, role)),
            [6, 2, 4]
        );
    }

    #[test]
    fn a_wrong_reading_forgets_the_number_of_entries() {
        let wrong = Reading::EntriesForgotten;
        assert_eq!(by(wrong, 2, 5, &ALL), (0, 4));
        assert_eq!(by(wrong, 0, 5, &[CLERK]), (0, 2));
    }

    #[test]
    fn a_wrong_reading_looks_at_the_change_first() {
        let wrong = Reading::ChangeFirst;
        assert_eq!(by(wrong, 3, 5, &[]), (21, 0));
        assert_eq!(by(wrong, 0, 6, &[[2, 1]]), (21, 0));
        assert_eq!(by(wrong, 0, 5, &[[2, 1]]), (15, 0));
        assert_eq!(bound_as(wrong, &[], 3, 6, &[]).refusal, 1);
    }
}
