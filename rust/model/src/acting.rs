//! Who may act in a role.

use crate::base::Base;
use crate::group::{entries, Entry};
use crate::reading::Reading;
use crate::refusal::{refuse_if, Refusal};
use crate::roles::Role;
use crate::seniority::Seniority;

/// Who may act in which role of a base: for asking more than once.
pub struct Acting<'a> {
    base: &'a Base,
    seniority: Seniority,
    reading: Reading,
}

impl<'a> Acting<'a> {
    pub fn by(reading: Reading, base: &'a Base) -> Acting<'a> {
        let seniority = match reading {
            Reading::DirectJuniors => Seniority::direct(base),
            _ => Seniority::of(base),
        };
        Acting {
            base,
            seniority,
            reading,
        }
    }

    /// The entries of a group, or the first of refusals 12 to 15 that applies,
    /// each over all entries before the next.
    pub fn entries(&self, group: &[u8]) -> Result<Vec<Entry>, Refusal> {
        let group = self.different_users(group)?;
        let may_act = |entry: &Entry| self.may_act(entry.user, entry.role);
        refuse_if(!group.iter().all(may_act), Refusal::Membership)?;
        Ok(group)
    }

    /// The same by refusals 12 to 14 alone.
    pub fn different_users(&self, group: &[u8]) -> Result<Vec<Entry>, Refusal> {
        let group = entries(group).ok_or(Refusal::GroupLength)?;
        let all_there = group.iter().all(|entry| self.is_there(entry));
        refuse_if(!all_there, Refusal::NoUserOrRole)?;
        refuse_if(has_user_twice(&group), Refusal::UserTwice)?;
        Ok(group)
    }

    fn is_there(&self, entry: &Entry) -> bool {
        usize::from(entry.user) < self.base.users.len() && entry.role < self.base.roles
    }

    /// Whether the user may act in the role: both are there, and the user
    /// holds the role or one that is senior to it.
    pub fn may_act(&self, user: u8, role: Role) -> bool {
        self.through(user, role).is_some()
    }

    /// The role held through which the user may act in a role: itself if the
    /// user holds it, else the first one held that is senior to it.
    pub fn through(&self, user: u8, role: Role) -> Option<Role> {
        let mut roles = 0..self.base.roles;
        if !roles.contains(&role) {
            return None;
        }
        if self.base.holds(user, role) {
            return Some(role);
        }
        roles.find(|&held| self.base.holds(user, held) && self.opens(held, role))
    }

    /// Whether who holds a role may act in another: the same, or one junior to it.
    pub fn opens(&self, held: Role, role: Role) -> bool {
        let is_senior = |one, other| self.seniority.is_senior(one, other);
        let below = match self.reading {
            Reading::HeldAlone => false,
            Reading::SeniorsToo => is_senior(held, role) || is_senior(role, held),
            _ => is_senior(held, role),
        };
        held == role || below
    }
}

impl Base {
    /// Whether the user may act in the role.
    pub fn may_act(&self, user: u8, role: Role) -> bool {
        Acting::by(Reading::Paper, self).may_act(user, role)
    }
}

fn has_user_twice(group: &[Entry]) -> bool {
    let mut users: Vec<u8> = group.iter().map(|entry| entry.user).collect();
    users.sort();
    users.windows(2).any(|pair| pair[0] == pair[1])
}

#[cfg(test)]
mod tests {
    use super::*;
    use crate::samples::{edge, empty_base, random_base, small_shop, user, Draws};
    use crate::seniority::chains;

    /// The roles that a user may act in.
    fn acted_in_by(reading: Reading, base: &Base, user: u8) -> Vec<Role> {
        let acting = Acting::by(reading, base);
        (0..=255)
            .filter(|role| acting.may_act(user, *role))
            .collect()
    }

    fn acted_in(base: &Base, user: u8) -> Vec<Role> {
        acted_in_by(Reading::Paper, base, user)
    }

    #[test]
    fn the_small_shops_users_act_in_their_roles_and_below() {
        let shop = small_shop();
        assert_eq!(acted_in(&shop, 0), [0, 1, 2]);
        assert_eq!(acted_in(&shop, 1), [1, 2]);
        assert_eq!(acted_in(&shop, 2), [2]);
        assert_eq!(acted_in(&shop, 3), [2]);
    }

    #[test]
    fn nobody_beyond_the_table_acts() {
        for user in 4..=255 {
            assert_eq!(acted_in(&small_shop(), user), []);
        }
    }

    #[test]
    fn a_user_without_roles_acts_in_none() {
        let mut shop = small_shop();
        shop.users[0] = user(&[]);
        assert_eq!(acted_in(&shop, 0), []);
    }

    #[test]
    fn without_records_only_roles_held_are_acted_in() {
        let mut shop = small_shop();
        shop.hierarchy = vec![];
        shop.users[1] = user(&[0, 2]);
        assert_eq!(acted_in(&shop, 0), [0]);
        assert_eq!(acted_in(&shop, 1), [0, 2]);
    }

    /// 0 over 1 over 2 over .. over 7.
    fn longest_chain() -> Base {
        let mut base = empty_base(8);
        base.hierarchy = (0..7).map(|role| edge(role, role + 1)).collect();
        base.users = (0..8).map(|role| user(&[role])).collect();
        base
    }

    #[test]
    fn a_chain_of_seven_records_is_long_enough() {
        for held in 0..8 {
            let below: Vec<Role> = (held..8).collect();
            assert_eq!(acted_in(&longest_chain(), held), below);
        }
    }

    /// 0 over 1 and 2, both over 3; 4 over 5.
    #[test]
    fn several_roles_open_all_that_is_below_them() {
        let mut base = empty_base(6);
        base.hierarchy = vec![edge(0, 1), edge(0, 2), edge(1, 3), edge(2, 3), edge(4, 5)];
        base.users = vec![user(&[0]), user(&[1, 4]), user(&[2]), user(&[3, 5])];
        assert_eq!(acted_in(&base, 0), [0, 1, 2, 3]);
        assert_eq!(acted_in(&base, 1), [1, 3, 4, 5]);
        assert_eq!(acted_in(&base, 2), [2, 3]);
        assert_eq!(acted_in(&base, 3), [3, 5]);
    }

    #[test]
    fn a_role_held_comes_before_its_seniors() {
        let mut shop = small_shop();
        shop.users[1] = user(&[1, 2]);
        let through = |user, role| Acting::by(Reading::Paper, &shop).through(user, role);
        assert_eq!([0, 1, 2].map(|role| through(0, role)), [Some(0); 3]);
        let of_user_1 = [None, Some(1), Some(2)];
        assert_eq!([0, 1, 2].map(|role| through(1, role)), of_user_1);
        shop.users[1] = user(&[0, 1]);
        let through = Acting::by(Reading::Paper, &shop).through(1, 2);
        assert_eq!(through, Some(0));
    }

    #[test]
    fn some_chain_leads_from_a_role_held() {
        let mut draws = Draws::new(9);
        for _ in 0..300 {
            let base = random_base(&mut draws, 6);
            let leads = |held, role| held == role || chains(&base.hierarchy, held, role) > 0;
            for user in 0..base.users.len() as u8 {
                let held: Vec<Role> = (0..8).filter(|&role| base.holds(user, role)).collect();
                let below = (0..8).filter(|&role| held.iter().any(|&other| leads(other, role)));
                assert_eq!(acted_in(&base, user), below.collect::<Vec<_>>());
            }
        }
    }

    #[test]
    fn a_groups_entries_or_the_first_of_12_to_15() {
        let shop = small_shop();
        let entries = |group: &[u8]| {
            let entries = Acting::by(Reading::Paper, &shop).entries(group);
            entries.map(|entries| entries.into_iter().flat_map(Entry::bytes).collect())
        };
        let sound: Vec<u8> = vec![2, 2, 0, 1, 1, 2];
        assert_eq!(entries(&sound), Ok(sound));
        let faults = [1, 0, 0, 0, 0, 0, 9, 9, 9];
        assert_eq!(entries(&faults), Err(Refusal::GroupLength));
        assert_eq!(entries(&faults[..8]), Err(Refusal::NoUserOrRole));
        assert_eq!(entries(&faults[..6]), Err(Refusal::UserTwice));
        assert_eq!(entries(&faults[..4]), Err(Refusal::Membership));
        assert_eq!(entries(&faults[2..4]), Ok(vec![0, 0]));
    }

    #[test]
    fn the_wrong_readings_let_others_act() {
        let by = |reading, user| acted_in_by(reading, &longest_chain(), user);
        assert_eq!(by(Reading::HeldAlone, 2), [2]);
        assert_eq!(by(Reading::DirectJuniors, 2), [2, 3]);
        assert_eq!(by(Reading::SeniorsToo, 2), [0, 1, 2, 3, 4, 5, 6, 7]);
        let mut shop = small_shop();
        shop.hierarchy.pop();
        assert_eq!(acted_in_by(Reading::SeniorsToo, &shop, 1), [0, 1]);
        assert_eq!(acted_in_by(Reading::SeniorsToo, &shop, 2), [2]);
    }
}
