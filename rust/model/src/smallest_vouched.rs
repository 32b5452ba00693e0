//! The smallest group that is granted with a requester first, by two ways.

use crate::base::Base;
use crate::context::Context;
use crate::decision::Question;
use crate::group::{Entry, MOST_ENTRIES};
use crate::reading::Reading;
use crate::refusal::Refusal;
use crate::smallest::{try_groups, Reach};
use crate::vouching::Vouching;

/// The smallest number of entries of a group that is granted with the requester
/// first, or 0 if the decision grants none, by trying every group.
///
/// # Panics
///
/// If the base has more than six users: there would be too many groups.
pub fn smallest_vouched_by_trial(
    base: &[u8],
    at: Context,
    register: &[u8],
    threshold: u32,
    requester: u32,
    permission: u32,
) -> u8 {
    let find = |question: &Question, requester| {
        assert!(question.base.users.len() <= 6, "at most six users");
        by_trial(question, requester)
    };
    smallest(base, at, (register, threshold), requester, permission, find)
}

/// The same by what groups can reach, for a base of any size.
pub fn smallest_vouched_by_reach(
    base: &[u8],
    at: Context,
    register: &[u8],
    threshold: u32,
    requester: u32,
    permission: u32,
) -> u8 {
    let find = |question: &Question, requester| {
        smallest_group_for(question, requester).map_or(0, |group| group.len())
    };
    smallest(base, at, (register, threshold), requester, permission, find)
}

/// The number, or 0 if a refusal leaves no question to ask or no requester.
fn smallest(
    base: &[u8],
    at: Context,
    (register, threshold): (&[u8], u32),
    requester: u32,
    permission: u32,
    find: impl Fn(&Question, u8) -> usize,
) -> u8 {
    let number = Base::read(base).and_then(|base| {
        let vouching = Vouching::lent(Reading::Paper, &base, register, threshold)?;
        let question = Question::new(&base, permission, at, Reading::Paper)?;
        let requester = base.user(requester).ok_or(Refusal::NoUserOrRole)?;
        Ok(find(&question.vouched(&vouching), requester))
    });
    number.unwrap_or(0) as u8
}

/// The requester in each role, and so many of the later users in any roles.
fn by_trial(question: &Question, requester: u8) -> usize {
    let roles = || 0..question.base.roles;
    let granted = |role, more| try_groups(question, &mut vec![requester, role], 0, more);
    let fits = |size: &usize| roles().any(|role| granted(role, size - 1));
    (1..=MOST_ENTRIES).find(fits).unwrap_or(0)
}

/// A smallest group that is granted with the requester first and the others by
/// rising user.
pub fn smallest_group_for(question: &Question, requester: u8) -> Option<Vec<Entry>> {
    let mut reach = Reach::new(question);
    let first: Vec<Entry> = question.entries_beside(requester, requester).collect();
    reach.join(0, &first);
    let users = 0..question.base.users.len() as u8;
    for user in users.filter(|user| *user != requester || question.stands_again(requester)) {
        let entries: Vec<Entry> = question.entries_beside(user, requester).collect();
        reach.join(1, &entries);
    }
    reach.smallest_granted()
}

#[cfg(test)]
mod tests {
    use super::*;
    use crate::operator::Comparison::AtLeast;
    use crate::records::GroupCondition::Compare;
    use crate::records::Measure::TotalWeight;
    use crate::register::Statement;
    use crate::samples::*;
    use crate::smallest::smallest_group;

    /// A base, a user of it and a register's statements.
    struct Case {
        base: Base,
        requester: u8,
        statements: Vec<Statement>,
    }

    impl Case {
        /// A random one, if the base has users; one in two asks for a sum alone.
        fn random(draws: &mut Draws, most_users: usize) -> Option<Case> {
            let mut base = random_base(draws, most_users);
            if draws.below(2) == 0 {
                let sum = Compare(TotalWeight, AtLeast, draws.byte(4, 16));
                base.group_clauses = vec![group_clause(&[sum])];
            }
            let last = base.users.len().checked_sub(1)?;
            let requester = draws.byte(0, last as u8);
            let statements = random_statements(draws, &base, requester);
            Some(Case {
                base,
                requester,
                statements,
            })
        }

        /// The same with one statement from every user, of the user's trust.
        fn trusted(mut self, trust: impl Fn(u8) -> u8) -> Case {
            let users = 0..self.base.users.len() as u8;
            let to_requester = |user| statement(user, self.requester, trust(user));
            self.statements = users.map(to_requester).collect();
            self
        }

        fn first_question(&self) -> Question<'_> {
            let question = Question::new(&self.base, 0, at_minute(600), Reading::Paper);
            question.expect("the question is allowed")
        }

        /// Asks at a threshold.
        fn ask<T>(&self, threshold: u32, ask: impl Fn(&Question) -> T) -> T {
            let register = statement_bytes(&self.statements);
            let vouching = Vouching::lent(Reading::Paper, &self.base, &register, threshold);
            let vouching = vouching.expect("nothing is refused");
            ask(&self.first_question().vouched(&vouching))
        }

        /// The smallest number, which both ways give.
        fn smallest(&self, threshold: u32) -> usize {
            self.ask(threshold, |question| {
                let group = smallest_group_for(question, self.requester);
                let by_reach = group.map_or(0, |group| group.len());
                assert_eq!(by_reach, by_trial(question, self.requester));
                by_reach
            })
        }
    }

    /// So many random cases of six users at most.
    fn random_cases(seed: u64, cases: usize) -> impl Iterator<Item = Case> {
        let mut draws = Draws::new(seed);
        (0..cases).filter_map(move |number| Case::random(&mut draws, [3, 5, 6][number % 3]))
    }

    #[test]
    fn both_ways_agree_on_random_bases() {
        let mut seen = [0; 7];
        for (number, case) in random_cases(11, 3_000).enumerate() {
            let case = if number % 3 == 0 {
                case.trusted(|_| 5)
            } else {
                case
            };
            seen[case.smallest(1 + number as u32 % 5)] += 1;
        }
        assert!(seen.iter().all(|&times| times > 0), "{seen:?}");
    }

    #[test]
    fn a_number_is_none_or_at_least_that_of_the_first_report() {
        let (mut larger, mut none) = (0, 0);
        for case in random_cases(12, 2_000) {
            let first = smallest_group(&case.first_question()).map_or(0, |group| group.len());
            let k = case.smallest(2);
            assert!(k == 0 || (first > 0 && k >= first));
            larger += usize::from(k > first);
            none += usize::from(k == 0 && first > 0);
        }
        assert!(larger >= 20 && none >= 200, "{larger}, {none}");
    }

    #[test]
    fn where_everybody_trusts_at_5_the_first_decision_decides() {
        for case in random_cases(13, 1_000) {
            let case = case.trusted(|_| 5);
            let by_first_decision = by_trial(&case.first_question(), case.requester);
            for threshold in [1, 5] {
                assert_eq!(case.smallest(threshold), by_first_decision);
            }
        }
    }

    #[test]
    fn with_the_threshold_a_number_stays_rises_or_becomes_0() {
        let (mut stays, mut rises, mut becomes_0) = (0, 0, 0);
        for case in random_cases(14, 2_000) {
            let case = case.trusted(|user| 1 + user % 5);
            let numbers = [1, 2, 3, 4, 5].map(|threshold| case.smallest(threshold));
            for pair in numbers.windows(2) {
                match pair {
                    [lower, higher] if lower == higher => stays += 1,
                    [lower, 0] if *lower > 0 => becomes_0 += 1,
                    [lower, higher] if *lower > 0 && lower < higher => rises += 1,
                    _ => panic!("{numbers:?}"),
                }
            }
        }
        let seen = [stays, rises, becomes_0];
        assert!(seen.iter().all(|&times| times >= 5), "{seen:?}");
    }

    /// Asks about every group of so many more entries: users and roles up to one
    /// above those there, in any order.
    fn asks_every_list(question: &Question, group: &mut Vec<u8>, more: usize) -> bool {
        if more == 0 {
            return question.grants(group);
        }
        let users = 0..=question.base.users.len() as u8;
        users.into_iter().any(|user| {
            (0..=question.base.roles).any(|role| {
                group.extend([user, role]);
                let granted = asks_every_list(question, group, more - 1);
                group.truncate(group.len() - 2);
                granted
            })
        })
    }

    #[test]
    fn no_list_of_entries_is_smaller() {
        let mut draws = Draws::new(15);
        let cases = (0..300).filter_map(|_| Case::random(&mut draws, 3));
        for case in cases {
            let by_every_list = case.ask(1, |question| {
                let first = |role| vec![case.requester, role];
                let granted = |role, more| asks_every_list(question, &mut first(role), more);
                let mut sizes = 1..=3;
                sizes.find(|size| (0..=case.base.roles).any(|role| granted(role, size - 1)))
            });
            assert_eq!(by_every_list.unwrap_or(0), case.smallest(1));
        }
    }

    #[test]
    fn a_group_shown_is_granted_and_rises_behind_the_requester() {
        let mut draws = Draws::new(16);
        let mut sizes = [0; 7];
        let cases = (0..1_000).filter_map(|_| Case::random(&mut draws, 24));
        for case in cases.map(|case| case.trusted(|_| 3)) {
            let group = case.ask(3, |question| {
                let group = smallest_group_for(question, case.requester)?;
                let bytes: Vec<u8> = group.iter().flat_map(|entry| entry.bytes()).collect();
                assert!(question.grants(&bytes));
                Some(group)
            });
            let group = group.unwrap_or_default();
            sizes[group.len()] += 1;
            if let [first, others @ ..] = &group[..] {
                assert_eq!(first.user, case.requester);
                assert!(others.windows(2).all(|pair| pair[0].user < pair[1].user));
            }
        }
        assert!(sizes.iter().all(|&times| times > 0), "{sizes:?}");
    }

    #[test]
    fn where_the_call_is_refused_the_number_is_0() {
        let register = statement_bytes(&[statement(1, 0, 2)]);
        let at = at_minute(600);
        for find in [smallest_vouched_by_reach, smallest_vouched_by_trial] {
            assert_eq!(find(&SMALL_SHOP, at, &register, 2, 0, 0), 2);
            assert_eq!(find(&SMALL_SHOP, at, &register, 3, 0, 0), 0);
            assert_eq!(find(&SMALL_SHOP[1..], at, &register, 2, 0, 0), 0);
            assert_eq!(find(&SMALL_SHOP, at_minute(1440), &register, 2, 0, 0), 0);
            assert_eq!(find(&SMALL_SHOP, at, &register[1..], 2, 0, 0), 0);
            assert_eq!(find(&SMALL_SHOP, at, &register, 0, 0, 0), 0);
            assert_eq!(find(&SMALL_SHOP, at, &register, 2, 4, 0), 0);
            assert_eq!(find(&SMALL_SHOP, at, &register, 2, 256, 0), 0);
            assert_eq!(find(&SMALL_SHOP, at, &register, 2, 0, 1), 0);
        }
    }
}
