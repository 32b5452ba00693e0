//! How often a report does what costs time.

use model::Context;

use crate::allowed::Allowed;
use crate::asked::asked;
use crate::base::Base;
use crate::ends::{next_ends, NextEnds, NOBODY};
use crate::masks::{mark, role_nums};
use crate::multisets::{how_many, in_chunks, BYTES, CHUNK, UPS};
use crate::search::{add, meeting};
use crate::weights::{all_weights, setting, weighed, Weighed, Weights};
use crate::MOST;

/// Counts of a report, over all permissions for which a role has weight.
#[derive(Clone, Copy, Debug, Default, PartialEq, Eq)]
pub struct Counts {
    /// Those permissions.
    pub weighed: usize,
    /// Conditions of their clauses.
    pub conditions: usize,
    /// Clauses that can be met as far as weights tell.
    pub possible: usize,
    /// Sums at which a clause is marked, clause by clause.
    pub marked: usize,
    /// Masks of sets of roles, and those that numbers of roles are struck from.
    pub sets: usize,
    pub by_number: usize,
    /// Levels whose sums are made, and their multisets.
    pub levels: usize,
    pub added: usize,
    /// Multisets looked at, in whole chunks.
    pub scanned: usize,
    /// Multisets whose least end is made, for all permissions at once.
    pub made: usize,
    /// Those that some group acts in, and to which a role is added.
    pub grown: usize,
    /// Entries shown.
    pub shown: usize,
}

impl Counts {
    /// In the order above.
    pub fn numbers(&self) -> [usize; 12] {
        [
            self.weighed,
            self.conditions,
            self.possible,
            self.marked,
            self.sets,
            self.by_number,
            self.levels,
            self.added,
            self.scanned,
            self.made,
            self.grown,
            self.shown,
        ]
    }
}

/// The counts of a report on a base that passes the check.
pub fn counts(base: &[u8], at: Context) -> Counts {
    let base = Base::read(base).expect("the base passes");
    let setting = setting(&base, at);
    let (mut sets, mut ends) = ([0; BYTES], [0; BYTES]);
    let mut ups = [[0; 8]; UPS];
    let mut counting = Counting {
        base: &base,
        next_ends: next_ends(base.users, &setting.juniors, at.date),
        allowed: Allowed::new(base.roles.into(), &mut sets, &mut ends, &mut ups),
        counts: Counts::default(),
    };
    let w = all_weights(&base, &setting);
    for (permission, w) in w.iter().enumerate().take(base.permissions.len()) {
        counting.count(permission, w);
    }
    counting.counts
}

struct Counting<'a> {
    base: &'a Base<'a>,
    next_ends: NextEnds,
    allowed: Allowed<'a>,
    counts: Counts,
}

impl Counting<'_> {
    /// Counts what one permission adds.
    fn count(&mut self, permission: usize, w: &Weights) {
        let weighed = weighed(w);
        if weighed.heavy == 0 {
            return;
        }
        self.counts.weighed += 1;
        self.count_clauses(permission, weighed);
        let (mut sum_masks, mut set_masks) = ([0; 256], [0; 256]);
        let rows = mark(
            self.base.clauses,
            permission,
            weighed,
            &role_nums(),
            &mut sum_masks,
            &mut set_masks,
        );
        let mut sums = [0; BYTES];
        for n in 1..=rows.last() {
            add(w, n, weighed.end, &self.allowed.places, &mut sums);
            self.counts.levels += 1;
            self.counts.added += how_many(n, weighed.end);
            if rows.row(n) == 0 {
                continue;
            }
            self.make_levels(n);
            if self.allowed.most < n {
                return;
            }
            let sets = self.allowed.places.level(self.allowed.sets, n, weighed.end);
            let sums = self.allowed.places.level(&sums, n, weighed.end);
            match meeting((&sum_masks, &set_masks), rows.row(n), sets, sums) {
                Some(rank) => {
                    self.counts.scanned += rank / CHUNK * CHUNK + CHUNK;
                    self.counts.shown += n;
                    return;
                }
                None => self.counts.scanned += in_chunks(how_many(n, weighed.end)),
            }
        }
    }

    fn count_clauses(&mut self, permission: usize, weighed: Weighed) {
        let (mut some, mut by_number) = (false, false);
        let own = self.base.clauses.iter();
        for clause in own.filter(|clause| usize::from(clause[0]) == permission) {
            self.counts.conditions += usize::from(clause[1]);
            let asked = asked(clause);
            if asked.possible(weighed) == 0 {
                continue;
            }
            some = true;
            by_number |= asked.by_number();
            self.counts.possible += 1;
            let end = asked.end.min(MOST * weighed.heavy + 1);
            self.counts.marked += end.saturating_sub(asked.low);
        }
        self.counts.sets += usize::from(some) << weighed.end;
        self.counts.by_number += usize::from(by_number) << weighed.end;
    }

    /// Makes the levels up to n roles, as far as they are not known.
    fn make_levels(&mut self, n: usize) {
        let roles = usize::from(self.base.roles);
        while self.allowed.known < n {
            let from = self.allowed.known;
            let reached = |rank: &usize| self.allowed.end(from, *rank) != NOBODY;
            self.counts.grown += (0..how_many(from, roles)).filter(reached).count();
            self.allowed.extend(&self.next_ends);
            self.counts.made += how_many(from + 1, roles);
        }
    }
}

#[cfg(test)]
mod tests {
    use super::*;
    use crate::plan::{Condition, Plan};
    use crate::worst;

    const AT: Context = Context {
        minute: 0,
        day: 0,
        zone: 0,
        date: 0,
    };

    /// Users of every role, and two permissions: role 7 weighs 2, the others 4.
    fn counts_of(users: usize, conditions: &[Condition]) -> Counts {
        let all = (0..16).map(|i| (i % 8, i / 8, if i % 8 == 7 { 2 } else { 4 }, 0));
        let plan = Plan {
            permissions: 2,
            users: vec![255; users],
            policies: all.collect(),
            clauses: vec![(0, conditions.to_vec()), (1, conditions.to_vec())],
            ..Plan::default()
        };
        counts(&plan.bytes(), AT)
    }

    #[test]
    fn what_no_weights_allow_is_not_looked_for() {
        let spread = counts(&worst::spread().bytes(), AT);
        let found = Counts {
            weighed: 16,
            conditions: 256,
            ..Counts::default()
        };
        assert_eq!(spread, found);
    }

    /// One entry weighs less than 7 and four weigh more. There are 36 multisets
    /// of two roles and 120 of three, looked at by 32.
    #[test]
    fn an_odd_sum_is_looked_for_with_two_and_three() {
        let found = Counts {
            weighed: 2,
            conditions: 2,
            possible: 2,
            marked: 2,
            sets: 512,
            levels: 2 * 3,
            added: 2 * (8 + 36 + 120),
            scanned: 2 * (64 + 128),
            made: 8 + 36 + 120,
            grown: 1 + 8 + 36,
            ..Counts::default()
        };
        assert_eq!(counts_of(6, &[(1, 4, 7)]), found);
        assert_eq!(counts_of(3, &[(1, 4, 7)]), found);
        let two_users = Counts {
            scanned: 2 * 64,
            ..found
        };
        assert_eq!(counts_of(2, &[(1, 4, 7)]), two_users);
    }

    /// The first multiset of four roles is four times role 0, the last of 330
    /// four times role 7, whose sum is 8.
    #[test]
    fn a_group_ends_the_search() {
        let first = counts_of(6, &[(0, 4, 4)]);
        assert_eq!((first.scanned, first.shown), (2 * 32, 8));
        assert_eq!((first.added, first.grown), (2 * 494, 1 + 8 + 36 + 120));
        let last = counts_of(6, &[(0, 4, 4), (2, 4, 1), (1, 3, 8)]);
        assert_eq!((last.scanned, last.shown), (2 * 352, 8));
        assert_eq!((last.marked, last.by_number), (2 * 9, 512));
    }
}
