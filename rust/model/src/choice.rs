//! Which policy of a role for a permission counts.

use crate::base::Base;
use crate::context::Context;
use crate::reading::Reading;
use crate::records::Policy;
use crate::resolution::{Numbered, Resolution};
use crate::roles::Role;

/// What a policy is chosen for.
#[derive(Clone, Copy, Debug, PartialEq, Eq)]
pub enum Choice {
    /// Among policies of either type.
    Own,
    /// Among those of type 1.
    Inh,
}

impl Choice {
    fn takes(self, policy: &Policy) -> bool {
        self == Choice::Own || policy.inheritable
    }
}

/// The choices of policies in a base and a context, by a resolution list or
/// without one.
pub struct Choices<'a> {
    base: &'a Base,
    at: Context,
    resolution: Resolution,
    reading: Reading,
}

impl<'a> Choices<'a> {
    pub fn by(
        resolution: Resolution,
        base: &'a Base,
        at: Context,
        reading: Reading,
    ) -> Choices<'a> {
        Choices {
            base,
            at,
            resolution,
            reading,
        }
    }

    /// The policies of a role for a permission that are chosen among, active or
    /// not, in table order.
    fn policies(
        &self,
        choice: Choice,
        role: Role,
        permission: u8,
    ) -> impl Iterator<Item = Numbered<'a>> {
        let policies = self.base.policies.iter().enumerate();
        policies.filter(move |(_, policy)| {
            policy.role == role && policy.permission == permission && choice.takes(policy)
        })
    }

    /// Those that are active.
    pub fn candidates(&self, choice: Choice, role: Role, permission: u8) -> Vec<Numbered<'a>> {
        let policies = self.policies(choice, role, permission);
        policies.filter(|one| self.is_active(one.1)).collect()
    }

    /// Of the candidates the one that counts: without a list the first in table
    /// order, else the one that no other goes before.
    pub fn chosen(&self, choice: Choice, role: Role, permission: u8) -> Option<Numbered<'a>> {
        let mut policies = self.policies(choice, role, permission);
        if self.resolution.is_none() {
            return policies.find(|one| self.is_active(one.1));
        }
        match self.reading {
            Reading::InhOfOwn if choice == Choice::Inh => {
                let own = self.chosen(Choice::Own, role, permission);
                own.filter(|own| own.1.inheritable)
            }
            Reading::InactiveToo => {
                let all: Vec<Numbered> = policies.collect();
                let first = self.resolution.unpreceded(&all).first().copied();
                first.filter(|first| self.is_active(first.1))
            }
            _ => {
                let candidates = self.candidates(choice, role, permission);
                self.resolution.unpreceded(&candidates).first().copied()
            }
        }
    }

    /// A policy is active if its context holds.
    fn is_active(&self, policy: &Policy) -> bool {
        self.base
            .context_holds(policy.context, self.at, self.reading)
    }
}

#[cfg(test)]
mod tests {
    use super::*;
    use crate::samples::*;

    /// The numbers of the policies of role 0 that own and inh choose by a list,
    /// or without one.
    fn chosen_as(reading: Reading, policies: &[Policy], list: Option<&[u8]>) -> [Option<usize>; 2] {
        let mut shop = small_shop();
        shop.policies = policies.to_vec();
        let resolution = Resolution::lent(reading, list).expect("the list is legal");
        let choices = Choices::by(resolution, &shop, at_minute(480), reading);
        [Choice::Own, Choice::Inh]
            .map(|choice| choices.chosen(choice, 0, 0).map(|(number, _)| number))
    }

    /// The policy that own chooses.
    fn own(policies: &[Policy], list: &[u8]) -> Option<usize> {
        chosen_as(Reading::Paper, policies, Some(list))[0]
    }

    /// Expects the second of two policies to go before the first by a list, and
    /// the other way round if they change places.
    fn expect_later_goes_before(one: Policy, other: Policy, list: &[u8]) {
        assert_eq!(own(&[one.clone(), other.clone()], list), Some(1));
        assert_eq!(own(&[other, one], list), Some(0));
    }

    #[test]
    fn by_rule_0_the_later_day_goes_first() {
        for (early, late) in [(0, 1), (255, 256), (1, 256), (32_767, 32_768), (0, 65_535)] {
            expect_later_goes_before(issued(early, 9, 1), issued(late, 0, 5), &[0]);
        }
    }

    #[test]
    fn by_rule_1_the_larger_rank_goes_first() {
        for (smaller, larger) in [(0, 1), (127, 128), (254, 255), (0, 255)] {
            expect_later_goes_before(issued(9, smaller, 1), issued(0, larger, 5), &[1]);
        }
    }

    #[test]
    fn by_rule_2_the_smaller_weight_goes_first() {
        for (larger, smaller) in [(2, 1), (5, 4), (5, 1)] {
            expect_later_goes_before(issued(9, 9, larger), issued(0, 0, smaller), &[2]);
        }
    }

    #[test]
    fn the_first_rule_that_tells_apart_decides() {
        let later = issued(2, 1, 3);
        let higher = issued(1, 2, 3);
        let lighter = issued(1, 1, 2);
        expect_later_goes_before(higher.clone(), later.clone(), &[0, 1]);
        expect_later_goes_before(later.clone(), higher.clone(), &[1, 0]);
        expect_later_goes_before(lighter.clone(), later.clone(), &[0, 2]);
        expect_later_goes_before(later.clone(), lighter.clone(), &[2, 0]);
        expect_later_goes_before(lighter.clone(), higher.clone(), &[1, 2]);
        expect_later_goes_before(higher.clone(), lighter.clone(), &[2, 1]);
        expect_later_goes_before(higher, lighter.clone(), &[0, 2, 1]);
        expect_later_goes_before(later, lighter, &[1, 2]);
    }

    #[test]
    fn what_no_rule_tells_apart_goes_by_table_order() {
        assert_eq!(
            own(&[issued(7, 7, 3), issued(7, 7, 3)], &[0, 1, 2]),
            Some(0)
        );
        assert_eq!(own(&[issued(7, 1, 5), issued(7, 9, 1)], &[0]), Some(0));
        assert_eq!(own(&[issued(1, 7, 5), issued(9, 7, 1)], &[1]), Some(0));
        assert_eq!(own(&[issued(1, 1, 3), issued(9, 9, 3)], &[2]), Some(0));
        let behind_one_older = [issued(1, 1, 1), issued(7, 1, 5), issued(7, 9, 1)];
        assert_eq!(own(&behind_one_older, &[0]), Some(1));
    }

    /// In the order of [`LISTS`] behind the first: of those of day 9, of rank 9
    /// and of weight 1 five each.
    fn sixteen() -> [Policy; 16] {
        [
            issued(0, 0, 5),
            issued(9, 0, 5),
            issued(0, 9, 5),
            issued(0, 0, 1),
            issued(9, 5, 5),
            issued(9, 5, 4),
            issued(9, 1, 3),
            issued(9, 2, 3),
            issued(5, 9, 5),
            issued(5, 9, 4),
            issued(1, 9, 3),
            issued(2, 9, 3),
            issued(5, 1, 1),
            issued(5, 2, 1),
            issued(1, 5, 1),
            issued(2, 5, 1),
        ]
    }

    #[test]
    fn every_list_and_no_list_choose_another_policy() {
        let without = chosen_as(Reading::Paper, &sixteen(), None);
        assert_eq!(without, [Some(0), None]);
        for (place, list) in (1..).zip(LISTS) {
            assert_eq!(own(&sixteen(), list), Some(place), "{list:?}");
        }
    }

    fn inherited(policy: Policy) -> Policy {
        Policy {
            inheritable: true,
            ..policy
        }
    }

    #[test]
    fn inh_takes_a_policy_of_type_1_though_one_of_type_0_goes_before() {
        let policies = [
            inherited(issued(1, 1, 4)),
            issued(3, 3, 1),
            inherited(issued(2, 2, 2)),
        ];
        for list in LISTS {
            let both = chosen_as(Reading::Paper, &policies, Some(list));
            assert_eq!(both, [Some(1), Some(2)], "{list:?}");
        }
        assert_eq!(
            chosen_as(Reading::Paper, &policies, None),
            [Some(0), Some(0)]
        );
        let alone = chosen_as(Reading::Paper, &policies[1..2], Some(&[0]));
        assert_eq!(alone, [Some(0), None]);
    }

    #[test]
    fn own_takes_a_policy_of_either_type() {
        let policies = [issued(1, 1, 4), inherited(issued(2, 2, 2))];
        for list in LISTS {
            let both = chosen_as(Reading::Paper, &policies, Some(list));
            assert_eq!(both, [Some(1), Some(1)], "{list:?}");
        }
    }

    /// Early the small shop's context 0 doesn't hold; context 1 never does.
    #[test]
    fn an_inactive_policy_is_passed_over() {
        for context in [0, 1] {
            let inactive = Policy {
                context: Some(context),
                ..inherited(issued(9, 9, 1))
            };
            let policies = [issued(1, 1, 4), inactive, inherited(issued(2, 2, 2))];
            for list in LISTS {
                let both = chosen_as(Reading::Paper, &policies, Some(list));
                assert_eq!(both, [Some(2), Some(2)], "{list:?}");
                assert_eq!(own(&policies[1..2], list), None);
            }
        }
    }

    #[test]
    fn another_roles_or_permissions_policies_do_not_rival() {
        let others = [(1, 0), (0, 1)].map(|(role, permission)| Policy {
            role,
            permission,
            ..inherited(issued(9, 9, 1))
        });
        let [of_role, of_permission] = others;
        let policies = [of_role, issued(1, 1, 4), of_permission];
        for list in LISTS {
            let both = chosen_as(Reading::Paper, &policies, Some(list));
            assert_eq!(both, [Some(1), None]);
        }
    }

    #[test]
    fn wrong_readings_turn_a_rule_round() {
        let policies = [issued(2, 2, 2), issued(1, 1, 3)];
        let by = |reading, list: &[u8]| chosen_as(reading, &policies, Some(list))[0];
        for (rule, wrong) in [
            (0, Reading::EarlierDay),
            (1, Reading::SmallerRank),
            (2, Reading::LargerWeight),
        ] {
            assert_eq!(by(Reading::Paper, &[rule]), Some(0));
            assert_eq!(by(wrong, &[rule]), Some(1));
            assert_eq!(by(wrong, &[(rule + 1) % 3]), Some(0));
        }
    }

    #[test]
    fn wrong_readings_take_the_rules_in_another_order() {
        let policies = [issued(2, 1, 3), issued(1, 2, 2), issued(2, 1, 2)];
        let by = |reading| chosen_as(reading, &policies, Some(&[0, 1, 2]))[0];
        assert_eq!(by(Reading::Paper), Some(2));
        assert_eq!(by(Reading::LastRuleFirst), Some(1));
        assert_eq!(by(Reading::FirstRuleAlone), Some(0));
        assert_eq!(by(Reading::LastOfEqual), Some(2));
        let equal = [issued(2, 1, 2), issued(2, 1, 2)];
        let wrong = chosen_as(Reading::LastOfEqual, &equal, Some(&[0]));
        assert_eq!(wrong[0], Some(1));
        let without = chosen_as(Reading::LastOfEqual, &equal, None);
        assert_eq!(without[0], Some(0));
    }

    #[test]
    fn wrong_readings_choose_among_others() {
        let inactive = Policy {
            context: Some(1),
            ..inherited(issued(9, 9, 1))
        };
        let policies = [inherited(issued(1, 1, 4)), issued(2, 2, 2), inactive];
        let by = |reading, count| chosen_as(reading, &policies[..count], Some(&[0]));
        assert_eq!(by(Reading::Paper, 3), [Some(1), Some(0)]);
        assert_eq!(by(Reading::InhOfOwn, 3), [Some(1), None]);
        assert_eq!(by(Reading::InhOfOwn, 1), [Some(0), Some(0)]);
        assert_eq!(by(Reading::InactiveToo, 3), [None, None]);
        assert_eq!(by(Reading::InactiveToo, 2), [Some(1), Some(0)]);
    }

    /// By these rules, or without a list where there are none.
    fn by_rules(rules: &[u8]) -> Resolution {
        let list = (!rules.is_empty()).then_some(rules);
        Resolution::lent(Reading::Paper, list).expect("the list is legal")
    }

    /// The place of the candidate that comes first if they are sorted.
    fn first_sorted(candidates: &[Numbered], list: &[u8]) -> Option<usize> {
        let keys = candidates.iter().map(|(number, policy)| {
            let key = |rule: &u8| match rule {
                0 => -i32::from(policy.issue_day),
                1 => -i32::from(policy.rank),
                _ => policy.weight.into(),
            };
            (list.iter().map(key).collect::<Vec<_>>(), *number)
        });
        keys.min().map(|(_, number)| number)
    }

    /// Calls with each role's candidates and choices, by each list and without
    /// one.
    fn random_choices(mut attempt: impl FnMut(&[u8], &[Numbered], Option<usize>)) {
        let mut draws = Draws::new(9);
        for _ in 0..300 {
            let base = random_rivals(&mut draws, 1);
            for rules in LISTS.into_iter().chain([&[][..]]) {
                let resolution = by_rules(rules);
                let choices = Choices::by(resolution, &base, at_minute(600), Reading::Paper);
                for choice in [Choice::Own, Choice::Inh] {
                    for role in 0..base.roles {
                        let candidates = choices.candidates(choice, role, 0);
                        let chosen = choices.chosen(choice, role, 0);
                        attempt(rules, &candidates, chosen.map(|(number, _)| number));
                    }
                }
            }
        }
    }

    #[test]
    fn exactly_one_is_chosen_wherever_one_is_active() {
        let mut seen = [0; 3];
        random_choices(|rules, candidates, chosen| {
            let unpreceded = by_rules(rules).unpreceded(candidates);
            assert_eq!(unpreceded.len(), candidates.len().min(1));
            assert_eq!(chosen, unpreceded.first().map(|(number, _)| *number));
            assert_eq!(chosen, first_sorted(candidates, rules));
            seen[candidates.len().min(2)] += 1;
        });
        assert!(seen.iter().all(|&times| times > 1_000), "{seen:?}");
    }
}
