//! The decision for one group.

use crate::acting::Acting;
use crate::base::Base;
use crate::context::Context;
use crate::group::{Attributes, Entry};
use crate::reading::Reading;
use crate::refusal::{number, refuse_if, Refusal};
use crate::resolution::Resolution;
use crate::roles::Role;
use crate::vouching::Vouching;
use crate::weight::Situation;

/// 0 if the group is granted the permission, else the first of refusals 1 to
/// 15, 24, 16 and 17 that applies.
pub fn decide(base: &[u8], permission: u32, at: Context, group: &[u8]) -> u8 {
    decide_as(Reading::Paper, base, permission, at, None, group)
}

/// The same by a resolution list: the first of refusals 1 to 9, 22, 10 to 15,
/// 24, 16 and 17.
pub fn decide_by(base: &[u8], permission: u32, at: Context, list: &[u8], group: &[u8]) -> u8 {
    decide_as(Reading::Paper, base, permission, at, Some(list), group)
}

/// The decision by this reading, with a list or without.
pub fn decide_as(
    reading: Reading,
    base: &[u8],
    permission: u32,
    at: Context,
    list: Option<&[u8]>,
    group: &[u8],
) -> u8 {
    number(Base::read_as(reading, base).and_then(|base| {
        if reading == Reading::ListAfterPermission {
            let permission = base.permission(permission);
            permission.ok_or(Refusal::NoPermission)?;
        }
        let resolution = Resolution::lent(reading, list)?;
        let question = Question::by(resolution, &base, permission, at, reading)?;
        question.ask(group)
    }))
}

/// A permission and a context to ask about: refusals 10 and 11 don't apply.
pub struct Question<'a> {
    pub base: &'a Base,
    permission: u8,
    date: u32,
    /// Each role's weight for the permission.
    weights: Vec<u32>,
    acting: Acting<'a>,
    /// Where a group's first entry is a requester whom the others vouch for.
    vouching: Option<&'a Vouching>,
    reading: Reading,
}

impl<'a> Question<'a> {
    /// Without a resolution list.
    pub fn new(
        base: &'a Base,
        permission: u32,
        at: Context,
        reading: Reading,
    ) -> Result<Question<'a>, Refusal> {
        Question::by(Resolution::none(), base, permission, at, reading)
    }

    pub fn by(
        resolution: Resolution,
        base: &'a Base,
        permission: u32,
        at: Context,
        reading: Reading,
    ) -> Result<Question<'a>, Refusal> {
        let permission = base.permission(permission).ok_or(Refusal::NoPermission)?;
        refuse_if(!at.in_range(), Refusal::Context)?;
        let situation = Situation::by(resolution, base, at, reading);
        let weights = (0..base.roles)
            .map(|role| situation.weight(role, permission))
            .collect();
        Ok(Question {
            base,
            permission,
            date: at.date,
            weights,
            acting: Acting::by(reading, base),
            vouching: None,
            reading,
        })
    }

    /// The same question of groups that vouch for their first entry's user.
    pub fn vouched(self, vouching: &'a Vouching) -> Question<'a> {
        Question {
            vouching: Some(vouching),
            ..self
        }
    }

    /// Refusals 12 to 15, 24, 26, 16 and 17, each over all entries before the next.
    pub fn ask(&self, group: &[u8]) -> Result<(), Refusal> {
        let group = self.acting.different_users(group)?;
        let requester = self.requester(&group);
        for refusal in self.refusals_of_entries() {
            let refused = |entry| self.refuses_entry(refusal, entry, requester);
            refuse_if(group.iter().any(refused), refusal)?;
        }
        refuse_if(
            !self.condition_holds(self.attributes(&group)),
            Refusal::Condition,
        )
    }

    /// The user of a group's first entry.
    fn requester(&self, group: &[Entry]) -> u8 {
        let entry = match self.reading {
            Reading::LastEntryRequests => group.last(),
            _ => group.first(),
        };
        entry.expect("a group has an entry").user
    }

    /// Those that look at each entry for itself, in order.
    fn refusals_of_entries(&self) -> [Refusal; 4] {
        let [role, days] = [Refusal::Membership, Refusal::OutOfDate];
        let [vouched, weight] = [Refusal::NotVouched, Refusal::NoWeight];
        match self.reading {
            Reading::DaysBeforeMembership => [days, role, vouched, weight],
            Reading::DaysAfterWeight => [role, vouched, weight, days],
            Reading::VouchingBeforeDays => [role, vouched, days, weight],
            Reading::VouchingAfterWeight => [role, days, weight, vouched],
            _ => [role, days, vouched, weight],
        }
    }

    fn refuses_entry(&self, refusal: Refusal, entry: &Entry, requester: u8) -> bool {
        match refusal {
            Refusal::Membership => !self.acting.may_act(entry.user, entry.role),
            Refusal::OutOfDate => !self.comes(entry.user),
            Refusal::NotVouched => !self.may_stand_beside(entry.user, requester),
            _ => self.weight_of(entry) == 0,
        }
    }

    /// Whether the user is the requester or vouches for the requester; each user
    /// where nobody has to.
    fn may_stand_beside(&self, user: u8, requester: u8) -> bool {
        let needs_none = user == requester && self.reading != Reading::RequesterVouched;
        needs_none || self.vouches(user, requester)
    }

    /// Whether a wrong search lets the requester stand among the others again.
    pub fn stands_again(&self, requester: u8) -> bool {
        self.reading == Reading::RequesterAgain && self.vouches(requester, requester)
    }

    fn vouches(&self, user: u8, requester: u8) -> bool {
        let Some(vouching) = self.vouching else {
            return true;
        };
        vouching.vouches(user, requester, self.permission, self.date)
    }

    /// Whether the user's days include the date.
    pub fn comes(&self, user: u8) -> bool {
        self.base.comes_on(self.reading, user, self.date)
    }

    pub fn grants(&self, group: &[u8]) -> bool {
        self.ask(group).is_ok()
    }

    /// Whether a report considers the entry: nothing refuses it for itself.
    fn is_considered(&self, entry: &Entry) -> bool {
        let acts = self.acting.may_act(entry.user, entry.role);
        let comes = self.reading == Reading::DaysForgotten || self.comes(entry.user);
        acts && comes && self.weight_of(entry) > 0
    }

    pub fn weight(&self, role: Role) -> u32 {
        self.weights[usize::from(role)]
    }

    /// What an entry weighs: the weight of the role acted in.
    pub fn weight_of(&self, entry: &Entry) -> u32 {
        let role = match self.reading {
            Reading::SeniorsWeight => self.through(entry),
            _ => entry.role,
        };
        self.weight(role)
    }

    /// The role held through which the entry's user acts.
    fn through(&self, entry: &Entry) -> Role {
        let held = self.acting.through(entry.user, entry.role);
        held.unwrap_or(entry.role)
    }

    /// The entries that a user may stand in: in a role with weight that the user
    /// may act in, if the user comes on the date.
    pub fn entries_of(&self, user: u8) -> impl Iterator<Item = Entry> + '_ {
        (0..self.base.roles)
            .map(move |role| Entry { user, role })
            .filter(|entry| self.is_considered(entry))
    }

    /// Of these, the ones that the user may stand in where the requester stands
    /// first.
    pub fn entries_beside(&self, user: u8, requester: u8) -> impl Iterator<Item = Entry> + '_ {
        let entries = self.entries_of(user);
        entries.filter(move |entry| self.may_stand_beside(entry.user, requester))
    }

    fn attributes(&self, group: &[Entry]) -> Attributes {
        let nobody = Attributes::default();
        group
            .iter()
            .fold(nobody, |before, entry| self.joined(before, entry))
    }

    /// The attributes with one more entry. The set of roles gets the role acted
    /// in.
    pub fn joined(&self, before: Attributes, entry: &Entry) -> Attributes {
        let mut after = before.joined_by(entry.role, self.weight_of(entry));
        if self.reading == Reading::SeniorInSet {
            after.role_set = after.role_set.with(self.through(entry));
        }
        after
    }

    /// Whether one of the permission's K clauses holds.
    pub fn condition_holds(&self, group: Attributes) -> bool {
        let clauses = self.base.group_clauses.iter();
        let clauses = clauses.filter(|clause| clause.permission == self.permission);
        group.pass(clauses, self.reading)
    }
}

impl Base {
    /// The user with this number, if it is in U.
    pub fn user(&self, number: u32) -> Option<u8> {
        let number = u8::try_from(number).ok()?;
        (usize::from(number) < self.users.len()).then_some(number)
    }

    /// The permission with this number, if it is in P.
    pub fn permission(&self, number: u32) -> Option<u8> {
        let number = u8::try_from(number).ok()?;
        (usize::from(number) < self.permissions.len()).then_some(number)
    }
}

#[cfg(test)]
mod tests {
    use super::*;
    use crate::operator::Comparison;
    use crate::records::{GroupCondition, Measure};
    use crate::roles::RoleSet;
    use crate::samples::*;

    /// The small shop's answer for its permission.
    fn ask(minute: u32, group: &[[u8; 2]]) -> u8 {
        decide(&SMALL_SHOP, 0, at_minute(minute), &group.concat())
    }

    #[test]
    fn marked_case_4_the_manager_alone_is_one_entry() {
        assert_eq!(ask(600, &[MANAGER]), 17);
    }

    #[test]
    fn marked_case_5_manager_and_clerk_are_granted() {
        assert_eq!(ask(600, &[MANAGER, CLERK]), 0);
        assert_eq!(ask(600, &[OTHER_CLERK, MANAGER]), 0);
    }

    #[test]
    fn marked_case_6_buyer_and_both_clerks_weigh_too_little() {
        assert_eq!(ask(600, &[BUYER, CLERK, OTHER_CLERK]), 17);
    }

    #[test]
    fn marked_case_7_early_the_clerk_has_no_weight() {
        assert_eq!(ask(480, &[MANAGER, CLERK]), 16);
        assert_eq!(ask(480, &[MANAGER, BUYER]), 0);
    }

    #[test]
    fn marked_case_8_a_user_twice_or_a_clerk_as_buyer() {
        assert_eq!(ask(600, &[MANAGER, MANAGER]), 14);
        assert_eq!(ask(600, &[MANAGER, [0, 1]]), 14);
        assert_eq!(ask(600, &[MANAGER, [2, 1]]), 15);
    }

    #[test]
    fn a_refused_base_comes_first() {
        assert_eq!(decide(&SMALL_SHOP[1..], 1, at_minute(1440), &[]), 3);
        assert_eq!(decide(&[], 1, at_minute(1440), &[]), 1);
    }

    /// The small shop's answer by a list, for any permission, minute and group.
    fn ask_by(reading: Reading, permission: u32, minute: u32, list: &[u8], group: &[u8]) -> u8 {
        let at = at_minute(minute);
        decide_as(reading, &SMALL_SHOP, permission, at, Some(list), group)
    }

    #[test]
    fn a_list_is_refused_behind_the_base_and_before_the_permission() {
        let by = |permission, minute, list, group: &[u8]| {
            ask_by(Reading::Paper, permission, minute, list, group)
        };
        for list in [&[][..], &[0, 0], &[3], &[0, 1, 2, 0]] {
            let no_base = decide_by(&SMALL_SHOP[1..], 1, at_minute(1440), list, &[]);
            assert_eq!(no_base, 3);
            assert_eq!(by(1, 1440, list, &[]), 22);
            assert_eq!(by(0, 1440, list, &[]), 22);
            assert_eq!(by(0, 600, list, &[]), 22);
            assert_eq!(by(0, 600, list, &[0, 0, 2, 2]), 22);
        }
        assert_eq!(by(1, 1440, &[2, 0, 1], &[]), 10);
        assert_eq!(by(0, 1440, &[2, 0, 1], &[]), 11);
        assert_eq!(by(0, 600, &[2, 0, 1], &[]), 12);
        assert_eq!(by(0, 600, &[2, 0, 1], &[0, 0, 2, 2]), 0);
    }

    #[test]
    fn a_wrong_reading_refuses_a_list_behind_the_permission() {
        let wrong = Reading::ListAfterPermission;
        assert_eq!(ask_by(wrong, 1, 1440, &[], &[]), 10);
        assert_eq!(ask_by(wrong, 0, 1440, &[], &[]), 22);
        let no_list = decide_as(wrong, &SMALL_SHOP, 1, at_minute(1440), None, &[]);
        assert_eq!(no_list, 10);
    }

    /// Each role of the small shop has one policy at most.
    #[test]
    fn without_rivals_a_list_changes_nothing() {
        let groups = [&[MANAGER][..], &[MANAGER, CLERK], &[BUYER, CLERK]];
        for list in LISTS {
            for group in groups {
                let by_list = |minute| {
                    let group = group.concat();
                    ask_by(Reading::Paper, 0, minute, list, &group)
                };
                let without = [480, 600].map(|minute| ask(minute, group));
                assert_eq!([480, 600].map(by_list), without);
            }
        }
    }

    #[test]
    fn numbers_are_not_cut_to_bytes() {
        let zone = |zone| Context {
            zone,
            ..at_minute(600)
        };
        let group = [MANAGER, CLERK].concat();
        for permission in [1, 255, 256, 65_536, u32::MAX] {
            assert_eq!(decide(&SMALL_SHOP, permission, zone(256), &group), 10);
        }
        assert_eq!(decide(&SMALL_SHOP, 0, zone(255), &group), 0);
        assert_eq!(decide(&SMALL_SHOP, 0, zone(256), &group), 11);
        assert_eq!(decide(&SMALL_SHOP, 0, at_minute(65_536 + 600), &group), 11);
    }

    /// The small shop's answer by a reading at minute 480 on a date, with these
    /// days for its users. Early the manager weighs 4, the buyer 1 and a clerk 0.
    fn with_days(reading: Reading, days: [(u16, u16); 4], date: u32, group: &[[u8; 2]]) -> u8 {
        let mut shop = small_shop();
        for (user, days) in shop.users.iter_mut().zip(days) {
            (user.first_day, user.last_day) = days;
        }
        let at = Context {
            date,
            ..at_minute(480)
        };
        let question = Question::new(&shop, 0, at, reading);
        number(question.and_then(|question| question.ask(&group.concat())))
    }

    const ALL_DAYS: (u16, u16) = (0, 65_535);

    #[test]
    fn a_date_out_of_the_days_of_an_entrys_user() {
        let days = [ALL_DAYS, (255, 256), ALL_DAYS, ALL_DAYS];
        let ask = |date| with_days(Reading::Paper, days, date, &[MANAGER, BUYER]);
        assert_eq!([0, 254, 255, 256, 257].map(ask), [24, 24, 0, 0, 24]);
        assert_eq!([65_535, 65_536, 65_536 + 255].map(ask), [24, 11, 11]);
        let manager_alone = |date| with_days(Reading::Paper, days, date, &[MANAGER]);
        assert_eq!([0, 65_535].map(manager_alone), [17, 17]);
    }

    /// The clerk has no weight early, and the buyer's days are over.
    #[test]
    fn days_come_behind_the_role_and_before_the_weight() {
        let days = [ALL_DAYS, (0, 299), ALL_DAYS, ALL_DAYS];
        let ask = |reading, group: &[[u8; 2]]| with_days(reading, days, 300, group);
        let paper = |group: &[[u8; 2]]| ask(Reading::Paper, group);
        assert_eq!(paper(&[BUYER, CLERK]), 24);
        assert_eq!(paper(&[CLERK, BUYER]), 24);
        assert_eq!(paper(&[BUYER, [3, 1]]), 15);
        assert_eq!(paper(&[[1, 0]]), 15);
        assert_eq!(paper(&[BUYER, BUYER]), 14);
        assert_eq!(paper(&[BUYER, [9, 9]]), 13);
        assert_eq!(paper(&[BUYER]), 24);
        let before = Reading::DaysBeforeMembership;
        assert_eq!(ask(before, &[BUYER, [3, 1]]), 24);
        assert_eq!(ask(before, &[BUYER, CLERK]), 24);
        assert_eq!(ask(before, &[BUYER, BUYER]), 14);
        let after = Reading::DaysAfterWeight;
        assert_eq!(ask(after, &[BUYER, CLERK]), 16);
        assert_eq!(ask(after, &[BUYER, [3, 1]]), 15);
        assert_eq!(ask(after, &[BUYER]), 24);
    }

    #[test]
    fn a_context_out_of_range_beats_the_groups_length() {
        assert_eq!(decide(&SMALL_SHOP, 0, at_minute(1440), &[]), 11);
        assert_eq!(decide(&SMALL_SHOP, 0, at_minute(1439), &[]), 12);
    }

    #[test]
    fn a_length_fault_beats_every_bad_entry() {
        for length in [0, 1, 3, 11, 13, 14, 40] {
            let group = vec![255; length];
            assert_eq!(decide(&SMALL_SHOP, 0, at_minute(600), &group), 12);
        }
        assert_eq!(decide(&SMALL_SHOP, 0, at_minute(600), &[255; 12]), 13);
    }

    #[test]
    fn users_and_roles_end_with_their_tables() {
        for entry in [[4, 2], [255, 2], [2, 3], [2, 8], [2, 255]] {
            assert_eq!(ask(600, &[entry]), 13);
        }
    }

    #[test]
    fn each_check_goes_over_all_entries_before_the_next() {
        let (as_senior, no_weight) = ([1, 0], [2, 2]);
        let rising = [[9, 9], MANAGER, MANAGER, as_senior, no_weight];
        assert_eq!(ask(480, &rising), 13);
        assert_eq!(ask(480, &rising[1..]), 14);
        assert_eq!(ask(480, &rising[2..]), 15);
        assert_eq!(ask(480, &[MANAGER, no_weight]), 16);
        let falling = [no_weight, as_senior, MANAGER, MANAGER, [9, 9]];
        assert_eq!(ask(480, &falling), 13);
        assert_eq!(ask(480, &falling[..4]), 14);
        assert_eq!(ask(480, &falling[..3]), 15);
        assert_eq!(ask(480, &falling[..1]), 16);
    }

    fn answer(base: &Base, group: &[u8]) -> u8 {
        let question = Question::new(base, 0, at_minute(600), Reading::Paper);
        number(question.and_then(|question| question.ask(group)))
    }

    #[test]
    fn a_user_without_roles_acts_in_none() {
        let mut shop = small_shop();
        shop.users[0] = user(&[]);
        for role in 0..3 {
            assert_eq!(answer(&shop, &[0, role]), 15);
        }
    }

    /// By day the roles weigh 5, 2 and 1.
    #[test]
    fn a_senior_acts_as_its_juniors_and_no_junior_as_its_seniors() {
        assert_eq!(ask(600, &[[0, 1], BUYER, CLERK]), 0);
        assert_eq!(ask(600, &[[0, 1], BUYER]), 17);
        assert_eq!(ask(600, &[[0, 2], [1, 2], CLERK, OTHER_CLERK]), 17);
        for entry in [[1, 0], [2, 0], [2, 1], [3, 0], [3, 1]] {
            assert_eq!(ask(600, &[MANAGER, entry]), 15);
        }
    }

    #[test]
    fn a_user_in_a_role_held_and_its_junior_stands_twice() {
        assert_eq!(ask(600, &[MANAGER, [0, 1]]), 14);
        assert_eq!(ask(600, &[[1, 2], BUYER]), 14);
    }

    #[test]
    fn the_weight_is_that_of_the_role_acted_in() {
        assert_eq!(ask(480, &[[0, 2], BUYER]), 16);
        assert_eq!(ask(480, &[[1, 2]]), 16);
    }

    /// The small shop's answer by a reading for one condition on a group.
    fn by_condition(reading: Reading, condition: GroupCondition, group: &[u8]) -> u8 {
        let mut shop = small_shop();
        shop.group_clauses = vec![group_clause(&[condition])];
        let question = Question::new(&shop, 0, at_minute(600), reading);
        number(question.and_then(|question| question.ask(group)))
    }

    #[test]
    fn the_set_has_the_role_acted_in_alone() {
        let contains = |bits| GroupCondition::Contains(RoleSet::from_bits(bits, 3).unwrap());
        let roles = |count| GroupCondition::Compare(Measure::RoleNum, Comparison::Equal, count);
        let expect = |condition: GroupCondition, answers: [u8; 2]| {
            let readings = [Reading::Paper, Reading::SeniorInSet];
            let found = readings.map(|reading| by_condition(reading, condition.clone(), &[0, 2]));
            assert_eq!(found, answers, "{condition:?}");
        };
        expect(contains(0b100), [0, 0]);
        expect(contains(0b001), [17, 0]);
        expect(contains(0b010), [17, 17]);
        expect(roles(1), [0, 17]);
        expect(roles(2), [17, 0]);
    }

    #[test]
    fn a_wrong_reading_weighs_the_role_held() {
        let sum = |sum| GroupCondition::Compare(Measure::TotalWeight, Comparison::Equal, sum);
        let by = |reading, value| by_condition(reading, sum(value), &[0, 1]);
        assert_eq!([2, 5].map(|value| by(Reading::Paper, value)), [0, 17]);
        let wrong = Reading::SeniorsWeight;
        assert_eq!([2, 5].map(|value| by(wrong, value)), [17, 0]);
        let early = decide_as(wrong, &SMALL_SHOP, 0, at_minute(480), None, &[0, 2, 1, 1]);
        assert_eq!(early, 0);
    }

    #[test]
    fn without_a_clause_of_its_own_a_permission_is_never_granted() {
        let mut shop = small_shop();
        shop.permissions.push(shop.permissions[0].clone());
        shop.group_clauses[0].permission = 1;
        assert_eq!(answer(&shop, &[0, 0, 2, 2]), 17);
    }

    #[test]
    fn the_sum_of_any_bytes_is_attribute_1_of_their_entries() {
        let mut draws = Draws::new(5);
        for _ in 0..500 {
            let base = random_base(&mut draws, 6);
            let situation = Situation::new(&base, at_minute(600), Reading::Paper);
            let question = Question::new(&base, 0, at_minute(600), Reading::Paper);
            let question = question.expect("permission 0 is there");
            let group: Vec<Entry> = (0..draws.below(9))
                .map(|_| Entry {
                    user: draws.byte(0, 255),
                    role: draws.byte(0, base.roles - 1),
                })
                .collect();
            let bytes: Vec<u8> = group.iter().flat_map(|entry| entry.bytes()).collect();
            let sum = question.attributes(&group).total_weight;
            assert_eq!(situation.sum(0, &bytes), sum);
        }
    }

    #[test]
    fn the_order_of_entries_does_not_matter() {
        let mut draws = Draws::new(2);
        for _ in 0..500 {
            let base = random_base(&mut draws, 6);
            let count = draws.below(7);
            let mut group: Vec<[u8; 2]> = (0..count)
                .map(|_| [draws.byte(0, 6), draws.byte(0, 4)])
                .collect();
            let before = answer(&base, &group.concat());
            group.reverse();
            assert_eq!(answer(&base, &group.concat()), before);
        }
    }
}
