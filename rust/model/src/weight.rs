//! The weight of a role for a permission.

use crate::base::Base;
use crate::choice::{Choice, Choices};
use crate::context::Context;
use crate::group::pairs;
use crate::reading::Reading;
use crate::resolution::{Numbered, Resolution};
use crate::roles::Role;
use crate::seniority::{chains, Seniority};

/// The situation in which policies are active or not and one of them is chosen:
/// a base, a context and a resolution list, or none.
pub struct Situation<'a> {
    base: &'a Base,
    choices: Choices<'a>,
    reading: Reading,
    seniority: Seniority,
}

impl<'a> Situation<'a> {
    /// Without a list.
    pub fn new(base: &'a Base, at: Context, reading: Reading) -> Situation<'a> {
        Situation::by(Resolution::none(), base, at, reading)
    }

    pub fn by(
        resolution: Resolution,
        base: &'a Base,
        at: Context,
        reading: Reading,
    ) -> Situation<'a> {
        Situation {
            base,
            choices: Choices::by(resolution, base, at, reading),
            reading,
            seniority: Seniority::of(base),
        }
    }

    /// The weight of the chosen policy of the role, or 0.
    pub fn own(&self, role: Role, permission: u8) -> u32 {
        weight_of(self.choices.chosen(Choice::Own, role, permission))
    }

    /// The same over policies of type 1.
    pub fn inh(&self, role: Role, permission: u8) -> u32 {
        weight_of(self.choices.chosen(Choice::Inh, role, permission))
    }

    /// own of the role and inh of each role that it is senior to.
    pub fn weight(&self, role: Role, permission: u8) -> u32 {
        let inherited: u32 = (0..self.base.roles)
            .map(|junior| self.times(role, junior) * self.inh(junior, permission))
            .sum();
        self.own(role, permission) + inherited
    }

    /// The sum of the roles' weights, attribute 1, for any bytes as a group. A
    /// role that isn't there has no policy and no junior, and so no weight.
    pub fn sum(&self, permission: u8, group: &[u8]) -> u32 {
        let weights = pairs(group).map(|entry| self.weight(entry.role, permission));
        weights.sum()
    }

    /// How often a role inherits from another: once if it is senior to it.
    fn times(&self, role: Role, other: Role) -> u32 {
        match self.reading {
            Reading::JuniorPerChain => chains(&self.base.hierarchy, role, other),
            Reading::OwnTwice if role == other => 1,
            _ => self.seniority.is_senior(role, other).into(),
        }
    }
}

fn weight_of(policy: Option<Numbered>) -> u32 {
    policy.map_or(0, |(_, policy)| policy.weight.into())
}

#[cfg(test)]
mod tests {
    use super::*;
    use crate::samples::{at_minute, edge, empty_base, policy, small_shop};

    fn weights_by(reading: Reading, base: &Base, minute: u32) -> Vec<u32> {
        let situation = Situation::new(base, at_minute(minute), reading);
        (0..base.roles)
            .map(|role| situation.weight(role, 0))
            .collect()
    }

    fn weights(base: &Base, minute: u32) -> Vec<u32> {
        weights_by(Reading::Paper, base, minute)
    }

    #[test]
    fn marked_case_1_by_day_the_small_shops_weights_are_5_2_1() {
        assert_eq!(weights(&small_shop(), 600), [5, 2, 1]);
    }

    #[test]
    fn marked_case_2_early_they_are_4_1_0() {
        assert_eq!(weights(&small_shop(), 480), [4, 1, 0]);
    }

    #[test]
    fn marked_case_3_the_clerk_has_weight_from_540_to_1020() {
        let clerk = |minute| weights(&small_shop(), minute)[2];
        assert_eq!([539, 540, 1020, 1021].map(clerk), [0, 1, 1, 0]);
    }

    #[test]
    fn own_takes_the_first_active_policy_of_either_type() {
        let mut shop = small_shop();
        shop.policies = vec![
            policy(0, 5, true, Some(0)),
            policy(0, 2, false, None),
            policy(0, 4, true, None),
        ];
        let own = |minute| Situation::new(&shop, at_minute(minute), Reading::Paper).own(0, 0);
        assert_eq!(own(600), 5);
        assert_eq!(own(480), 2);
    }

    #[test]
    fn inh_takes_the_first_active_policy_of_type_1_even_behind_type_0() {
        let mut shop = small_shop();
        shop.policies = vec![
            policy(1, 2, false, None),
            policy(1, 5, true, Some(0)),
            policy(1, 3, true, None),
            policy(1, 4, true, None),
        ];
        assert_eq!(weights(&shop, 600), [5, 2, 0]);
        assert_eq!(weights(&shop, 480), [3, 2, 0]);
    }

    #[test]
    fn a_context_number_without_a_clause_gives_no_weight() {
        let mut shop = small_shop();
        shop.policies = vec![policy(2, 5, true, Some(7)), policy(2, 1, true, None)];
        assert_eq!(weights(&shop, 600), [1, 1, 1]);
    }

    #[test]
    fn another_permissions_policies_do_not_count() {
        let mut shop = small_shop();
        shop.permissions.push(shop.permissions[0].clone());
        shop.policies[0].permission = 1;
        let situation = Situation::new(&shop, at_minute(600), Reading::Paper);
        assert_eq!(situation.weight(0, 0), 2);
        assert_eq!(situation.weight(0, 1), 3);
        assert_eq!(situation.weight(1, 1), 0);
    }

    /// 0 over 1 and 2, both over 3.
    fn diamond() -> Base {
        let mut base = empty_base(4);
        base.permissions = small_shop().permissions;
        base.hierarchy = vec![edge(0, 1), edge(0, 2), edge(1, 3), edge(2, 3), edge(2, 3)];
        base.policies = vec![policy(0, 1, true, None), policy(3, 2, true, None)];
        base
    }

    #[test]
    fn a_junior_counts_once_by_however_many_chains() {
        assert_eq!(weights(&diamond(), 0), [3, 2, 2, 2]);
        let per_chain = weights_by(Reading::JuniorPerChain, &diamond(), 0);
        assert_eq!(per_chain, [7, 2, 4, 2]);
    }

    #[test]
    fn a_roles_own_policy_is_not_inherited_by_itself() {
        assert_eq!(weights(&diamond(), 0), [3, 2, 2, 2]);
        let own_twice = weights_by(Reading::OwnTwice, &diamond(), 0);
        assert_eq!(own_twice, [4, 2, 2, 4]);
    }

    /// The sum for permission 0 of these roles, each acted in by user 9, who
    /// isn't there.
    fn sum(base: &Base, minute: u32, roles: &[Role]) -> u32 {
        let group: Vec<u8> = roles.iter().flat_map(|role| [9, *role]).collect();
        Situation::new(base, at_minute(minute), Reading::Paper).sum(0, &group)
    }

    #[test]
    fn the_sum_is_over_the_entries() {
        let shop = small_shop();
        assert_eq!(sum(&shop, 600, &[0, 1, 2, 2]), 9);
        assert_eq!(sum(&shop, 480, &[0, 1, 2, 2]), 5);
        assert_eq!(sum(&shop, 600, &[0; 20]), 100);
        assert_eq!(sum(&shop, 600, &[]), 0);
    }

    #[test]
    fn a_last_byte_and_roles_that_are_not_there_have_no_weight() {
        let shop = small_shop();
        assert_eq!(sum(&shop, 600, &[3, 7, 8, 255, 1]), 2);
        let situation = Situation::new(&shop, at_minute(600), Reading::Paper);
        let of = |group: &[u8]| situation.sum(0, group);
        assert_eq!([of(&[0]), of(&[0, 0, 0]), of(&[0, 0, 1, 1])], [0, 5, 7]);
        assert_eq!([0, 1, 255].map(|p| situation.sum(p, &[0, 0])), [5, 0, 0]);
    }

    #[test]
    fn a_weight_reaches_40() {
        let mut base = empty_base(8);
        base.permissions = small_shop().permissions;
        base.hierarchy = (0..7).map(|role| edge(role, role + 1)).collect();
        base.policies = (0..8).map(|role| policy(role, 5, true, None)).collect();
        assert_eq!(weights(&base, 0), [40, 35, 30, 25, 20, 15, 10, 5]);
    }
}
