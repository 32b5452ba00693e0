//! The smallest group that is granted, by two ways.

use std::collections::HashSet;

use crate::base::Base;
use crate::context::Context;
use crate::decision::Question;
use crate::group::{Attributes, Entry, MOST_ENTRIES};
use crate::reading::Reading;
use crate::refusal::Refusal;
use crate::resolution::Resolution;

/// The smallest number of entries of a group that is granted by a resolution
/// list or without one, or 0 if the decision grants none, by trying every group.
///
/// # Panics
///
/// If the base has more than six users: there would be too many groups.
pub fn smallest_by_trial(base: &[u8], at: Context, list: Option<&[u8]>, permission: u32) -> u8 {
    smallest(base, at, list, permission, |question| {
        assert!(question.base.users.len() <= 6, "at most six users");
        let fits = |&size: &usize| try_groups(question, &mut Vec::new(), 0, size);
        (1..=MOST_ENTRIES).find(fits).unwrap_or(0)
    })
}

/// The same by what groups can reach, for a base of any size.
pub fn smallest_by_reach(base: &[u8], at: Context, list: Option<&[u8]>, permission: u32) -> u8 {
    smallest(base, at, list, permission, |question| {
        smallest_group(question).map_or(0, |group| group.len())
    })
}

/// The number, or 0 if refusals 1 to 11 and 22 leave no question to ask.
fn smallest(
    base: &[u8],
    at: Context,
    list: Option<&[u8]>,
    permission: u32,
    find: impl Fn(&Question) -> usize,
) -> u8 {
    let number = Base::read(base).and_then(|base| -> Result<usize, Refusal> {
        let resolution = Resolution::lent(Reading::Paper, list)?;
        let question = Question::by(resolution, &base, permission, at, Reading::Paper)?;
        Ok(find(&question))
    });
    number.unwrap_or(0) as u8
}

/// Whether some group is granted that starts with these entries and goes on
/// with `more` others, of later users in any roles.
pub fn try_groups(question: &Question, group: &mut Vec<u8>, from: u8, more: usize) -> bool {
    if more == 0 {
        return question.grants(group);
    }
    let users = question.base.users.len() as u8;
    for user in from..users {
        for role in 0..question.base.roles {
            group.extend([user, role]);
            let granted = try_groups(question, group, user + 1, more - 1);
            group.truncate(group.len() - 2);
            if granted {
                return true;
            }
        }
    }
    false
}

/// Attributes that some group has.
struct Reached {
    attributes: Attributes,
    /// The group's last entry and the place of what it had before.
    last: Option<(Entry, usize)>,
}

/// All attributes that groups of up to six can have, and at place 0 those of
/// nobody, as users join one by one.
pub struct Reach<'a> {
    question: &'a Question<'a>,
    reached: Vec<Reached>,
    seen: HashSet<Attributes>,
}

impl<'a> Reach<'a> {
    pub fn new(question: &'a Question<'a>) -> Reach<'a> {
        let nobody = Reached {
            attributes: Attributes::default(),
            last: None,
        };
        Reach {
            question,
            reached: vec![nobody],
            seen: HashSet::new(),
        }
    }

    /// What is reached stays reached, and a user may join each of it from a place
    /// on, in each of these entries.
    pub fn join(&mut self, from: usize, entries: &[Entry]) {
        for before in from..self.reached.len() {
            let attributes = self.reached[before].attributes;
            if attributes.col_num == MOST_ENTRIES {
                continue;
            }
            for &entry in entries {
                let attributes = self.question.joined(attributes, &entry);
                if self.seen.insert(attributes) {
                    let last = Some((entry, before));
                    self.reached.push(Reached { attributes, last });
                }
            }
        }
    }

    /// A smallest group that is granted, in the order in which its users joined.
    pub fn smallest_granted(&self) -> Option<Vec<Entry>> {
        let places = 1..self.reached.len();
        let attributes = |place: usize| self.reached[place].attributes;
        let granted = places.filter(|&place| self.question.condition_holds(attributes(place)));
        let smallest = granted.min_by_key(|&place| attributes(place).col_num)?;
        Some(self.group_at(smallest))
    }

    /// The group that first reached the attributes at a place.
    fn group_at(&self, mut place: usize) -> Vec<Entry> {
        let mut group = Vec::new();
        while let Some((entry, before)) = self.reached[place].last {
            group.push(entry);
            place = before;
        }
        group.reverse();
        group
    }
}

/// A smallest group that is granted, by rising user.
pub fn smallest_group(question: &Question) -> Option<Vec<Entry>> {
    let mut reach = Reach::new(question);
    for user in 0..question.base.users.len() as u8 {
        let entries: Vec<Entry> = question.entries_of(user).collect();
        reach.join(0, &entries);
    }
    reach.smallest_granted()
}

/// What a wrong search finds: for each size only the heaviest users are
/// tried, each in the heaviest role.
pub fn heaviest_group(question: &Question) -> Option<Vec<Entry>> {
    let users = 0..question.base.users.len() as u8;
    let weight = |entry: &Entry| question.weight_of(entry);
    let mut heaviest: Vec<Entry> = users
        .filter_map(|user| question.entries_of(user).max_by_key(weight))
        .collect();
    heaviest.sort_by_key(|entry| std::cmp::Reverse(weight(entry)));
    let most = heaviest.len().min(MOST_ENTRIES);
    let mut groups = (1..=most).map(|size| heaviest[..size].to_vec());
    let mut group = groups.find(|group| {
        let bytes: Vec<u8> = group.iter().flat_map(|entry| entry.bytes()).collect();
        question.grants(&bytes)
    })?;
    group.sort_by_key(|entry| entry.user);
    Some(group)
}

#[cfg(test)]
mod tests {
    use super::*;
    use crate::operator::Comparison::{self, *};
    use crate::records::GroupCondition::Compare;
    use crate::records::Measure::{ColNum, RoleNum, TotalWeight};
    use crate::records::{GroupCondition, Measure};
    use crate::samples::*;

    fn question(base: &Base, reading: Reading) -> Question<'_> {
        Question::new(base, 0, at_minute(600), reading).expect("the question is allowed")
    }

    fn length(group: Option<Vec<Entry>>) -> usize {
        group.map_or(0, |group| group.len())
    }

    fn trial(question: &Question) -> usize {
        let fits = |&size: &usize| try_groups(question, &mut Vec::new(), 0, size);
        (1..=6).find(fits).unwrap_or(0)
    }

    /// The smallest number, which both ways give.
    fn smallest_of(base: &Base) -> usize {
        let question = question(base, Reading::Paper);
        let by_reach = length(smallest_group(&question));
        assert_eq!(by_reach, trial(&question));
        by_reach
    }

    /// The small shop's number for one clause of these conditions.
    fn for_clause(conditions: &[(Measure, Comparison, u8)]) -> usize {
        let conditions: Vec<GroupCondition> = conditions
            .iter()
            .map(|&(measure, comparison, value)| Compare(measure, comparison, value))
            .collect();
        let mut shop = small_shop();
        shop.group_clauses = vec![group_clause(&conditions)];
        smallest_of(&shop)
    }

    #[test]
    fn the_small_shop_needs_two() {
        for minute in [480, 600] {
            assert_eq!(
                smallest_by_reach(&SMALL_SHOP, at_minute(minute), None, 0),
                2
            );
            assert_eq!(
                smallest_by_trial(&SMALL_SHOP, at_minute(minute), None, 0),
                2
            );
        }
    }

    #[test]
    fn where_the_decision_refuses_all_the_number_is_0() {
        for find in [smallest_by_reach, smallest_by_trial] {
            assert_eq!(find(&SMALL_SHOP[1..], at_minute(600), None, 0), 0);
            assert_eq!(find(&SMALL_SHOP, at_minute(600), None, 1), 0);
            assert_eq!(find(&SMALL_SHOP, at_minute(1440), None, 0), 0);
            assert_eq!(find(&SMALL_SHOP, at_minute(600), Some(&[]), 0), 0);
            assert_eq!(find(&SMALL_SHOP, at_minute(600), Some(&[0]), 0), 2);
        }
    }

    #[test]
    fn nobody_is_no_group() {
        assert_eq!(for_clause(&[(ColNum, Less, 1)]), 0);
        assert_eq!(for_clause(&[(ColNum, Less, 2)]), 1);
        assert_eq!(for_clause(&[(TotalWeight, Equal, 0)]), 0);
        assert_eq!(for_clause(&[(RoleNum, AtMost, 0)]), 0);
    }

    /// By day the manager weighs 5, 2 or 1, the buyer 2 or 1, the clerks 1.
    #[test]
    fn a_cap_on_the_sum_is_met_by_light_users() {
        assert_eq!(for_clause(&[(TotalWeight, Equal, 3)]), 2);
        assert_eq!(for_clause(&[(TotalWeight, Equal, 4)]), 2);
        assert_eq!(for_clause(&[(TotalWeight, Equal, 9)]), 4);
        assert_eq!(for_clause(&[(TotalWeight, Less, 2)]), 1);
        assert_eq!(for_clause(&[(TotalWeight, Greater, 9)]), 0);
        let three_below = |sum| for_clause(&[(ColNum, AtLeast, 3), (TotalWeight, Less, sum)]);
        assert_eq!([5, 4, 3].map(three_below), [3, 3, 0]);
    }

    #[test]
    fn different_roles_need_different_users() {
        assert_eq!(for_clause(&[(RoleNum, Equal, 3)]), 3);
        let in_one_role = |size| for_clause(&[(RoleNum, Equal, 1), (ColNum, Equal, size)]);
        assert_eq!([1, 2, 3, 4, 5].map(in_one_role), [1, 2, 3, 4, 0]);
    }

    /// By holding alone there are two clerks, and the buyer weighs 2.
    #[test]
    fn a_smallest_group_may_exist_through_acting_alone() {
        let mut shop = small_shop();
        let by = |shop: &Base, reading| length(smallest_group(&question(shop, reading)));
        shop.group_clauses = vec![group_clause(&[
            Compare(RoleNum, Equal, 1),
            Compare(ColNum, Equal, 3),
        ])];
        assert_eq!(smallest_of(&shop), 3);
        assert_eq!(by(&shop, Reading::HeldAlone), 0);
        shop.group_clauses = vec![group_clause(&[Compare(TotalWeight, Equal, 4)])];
        assert_eq!(smallest_of(&shop), 2);
        assert_eq!(by(&shop, Reading::HeldAlone), 3);
    }

    #[test]
    fn a_wrong_search_ends_on_the_heaviest_users() {
        let mut shop = small_shop();
        let heaviest = |shop: &Base| length(heaviest_group(&question(shop, Reading::Paper)));
        assert_eq!(heaviest(&shop), 2);
        shop.group_clauses = vec![group_clause(&[Compare(TotalWeight, Equal, 3)])];
        assert_eq!(heaviest(&shop), 0);
        assert_eq!(smallest_of(&shop), 2);
    }

    #[test]
    fn both_ways_agree_on_random_bases() {
        let mut draws = Draws::new(4);
        let mut seen = [0; 7];
        for _ in 0..3_000 {
            seen[smallest_of(&random_base(&mut draws, 6))] += 1;
        }
        assert!(seen.iter().all(|&times| times > 0), "{seen:?}");
    }

    #[test]
    fn both_ways_agree_by_every_list() {
        let mut draws = Draws::new(7);
        let (mut seen, mut others) = ([0; 7], 0);
        for _ in 0..1_200 {
            let base = random_rivals(&mut draws, 4);
            let without = smallest_of(&base);
            for list in LISTS {
                let resolution = Resolution::read(list).expect("the list is legal");
                let question = Question::by(resolution, &base, 0, at_minute(600), Reading::Paper);
                let question = question.expect("the question is allowed");
                let smallest = length(smallest_group(&question));
                assert_eq!(smallest, trial(&question));
                seen[smallest] += 1;
                others += usize::from(smallest != without);
            }
        }
        assert!(seen[..5].iter().all(|&times| times > 0), "{seen:?}");
        assert!(others >= 100, "{others}");
    }

    /// By day the manager weighs 5, the buyer 2 and a clerk 1.
    #[test]
    fn a_number_rises_when_a_users_days_end() {
        let mut shop = small_shop();
        shop.group_clauses = vec![group_clause(&[Compare(TotalWeight, AtLeast, 4)])];
        assert_eq!(smallest_of(&shop), 1);
        shop.users[0].last_day = DATE - 1;
        assert_eq!(smallest_of(&shop), 3);
        shop.users[3].first_day = DATE + 1;
        assert_eq!(smallest_of(&shop), 0);
    }

    /// Those of other days bring no group, and none that is smaller.
    #[test]
    fn only_users_who_come_on_the_date_count() {
        let mut draws = Draws::new(8);
        let mut others = 0;
        for _ in 0..3_000 {
            let base = random_base(&mut draws, 6);
            let mut who_come = base.clone();
            who_come.users.retain(|user| user.comes_on(DATE.into()));
            let by = |base, reading| length(smallest_group(&question(base, reading)));
            let k = by(&base, Reading::Paper);
            assert_eq!(k, by(&who_come, Reading::DaysForgotten));
            others += usize::from(k != by(&base, Reading::DaysForgotten));
        }
        assert!(others >= 20, "{others}");
    }

    /// Asks about every group of so many entries: users and roles up to one
    /// above those there, in any order.
    fn asks_every_list(question: &Question, group: &mut Vec<u8>, more: usize) -> bool {
        if more == 0 {
            return question.grants(group);
        }
        let users = 0..=question.base.users.len() as u8;
        users.into_iter().any(|user| {
            (0..=question.base.roles).any(|role| {
                group.extend([user, role]);
                let granted = asks_every_list(question, group, more - 1);
                group.truncate(group.len() - 2);
                granted
            })
        })
    }

    #[test]
    fn no_list_of_entries_is_smaller() {
        let mut draws = Draws::new(5);
        for _ in 0..300 {
            let base = random_base(&mut draws, 3);
            let question = question(&base, Reading::Paper);
            let fits = |&size: &usize| asks_every_list(&question, &mut Vec::new(), size);
            assert_eq!((1..=3).find(fits).unwrap_or(0), smallest_of(&base));
        }
    }

    #[test]
    fn a_group_shown_is_granted_and_rises() {
        let mut draws = Draws::new(6);
        for _ in 0..500 {
            let base = random_base(&mut draws, 24);
            let question = question(&base, Reading::Paper);
            if let Some(group) = smallest_group(&question) {
                let bytes: Vec<u8> = group.iter().flat_map(|entry| entry.bytes()).collect();
                assert!(question.grants(&bytes));
                assert!(group.windows(2).all(|pair| pair[0].user < pair[1].user));
            }
        }
    }
}
