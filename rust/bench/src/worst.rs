//! Bases made to cost most where a report goes by multisets of roles, besides
//! those of `twin::worst`. All have 2,460 bytes but where users are fewer.
//!
//! What a report costs depends on how many multisets, of how many roles, are
//! looked through for a clause: it is looked for with n entries as long as n
//! times the lightest and the heaviest weight allow its sums. In `gaps` all
//! weights are even and the sums asked for odd, so that there are none. In
//! `no_takers` multisets meet a clause, but users are missing: the library looks
//! at such multisets once more, one by one.

use compare::builder::*;
use compare::trust::Trust;

use crate::bases::{full_base, users};
use crate::registers::trust_of;

/// All of them, with their names.
pub fn all() -> [(&'static str, BaseBuilder); 10] {
    [
        ("gaps", gaps()),
        ("by numbers", by_numbers()),
        ("last place", last_place()),
        ("wide sums", wide_sums()),
        ("light sixes", light_sixes()),
        ("five users", five_users()),
        ("shut out", shut_out()),
        ("gathered gaps", gathered_gaps()),
        ("two chains", two_chains()),
        ("no takers", no_takers()),
    ]
}

/// Those made to cost most for user 0 by a register, which vouches for other users from
/// one permission to the next.
pub fn all_vouched() -> [(&'static str, BaseBuilder, Trust); 3] {
    let all = [
        ("all seniors", all_seniors(), 16),
        ("few vouch", few_vouch(), 4),
        ("role of nobody", role_of_nobody(), 16),
    ];
    all.map(|(name, base, count)| {
        let trust = trust_of(&base.bytes(), count);
        (name, base, trust)
    })
}

/// The users of `twin::worst::spread`: who holds a role of a low number stands
/// early or late.
const USERS: [u8; 24] = [
    3, 15, 15, 23, 28, 16, 152, 208, 192, 112, 96, 224, 56, 224, 148, 206, 18, 93, 116, 54, 3, 206,
    30, 129,
];

/// From 11 to 15, but neither 12 nor 14: 11, 13 or 15.
const ODD: [GroupCondition; 4] = [(1, 2, 11), (1, 3, 15), (1, 5, 12), (1, 5, 14)];

/// 13, in up to five different roles with role 6 among them.
const ODD_BY_NUMBERS: [GroupCondition; 4] = [(1, 4, 13), (2, 3, 5), (3, 6, 64), (1, 5, 12)];

/// The roles weigh 14, 14, 10, 10, 6, 6, 2 and 2. Every clause is looked for up
/// to six roles.
pub fn gaps() -> BaseBuilder {
    BaseBuilder {
        users: users(&USERS),
        group_clauses: four_each(&ODD),
        policies: four_policies([(7, 2), (5, 4), (3, 4), (1, 4)]),
        ..full_base()
    }
}

/// Policies for each permission, by role and weight; all seniors inherit.
fn four_policies(of: [(u8, u8); 4]) -> Vec<Policy> {
    let policy = |i: u8| {
        let (role, weight) = of[usize::from(i / 16)];
        Policy::new(role, i % 16, weight, 1, i % 16)
    };
    (0..64).map(policy).collect()
}

/// The same clause four times for each permission.
fn four_each(conditions: &[GroupCondition]) -> Vec<GroupClause> {
    let clause = |i: u8| GroupClause::new(i % 16, conditions);
    (0..64).map(clause).collect()
}

/// The same with a number of roles asked for too.
pub fn by_numbers() -> BaseBuilder {
    BaseBuilder {
        group_clauses: four_each(&ODD_BY_NUMBERS),
        ..gaps()
    }
}

/// The same, and by the last clause six in role 7 suffice: the last multiset of
/// all.
pub fn last_place() -> BaseBuilder {
    with_last(
        by_numbers(),
        &[(0, 2, 6), (2, 4, 1), (3, 6, 128), (1, 5, 11)],
    )
}

/// The roles weigh 20, 20, 20, 20, 20, 15, 10 and 5. A group that acts in roles
/// 0 and 1 doesn't act in one role only, but weights don't tell that, and every
/// sum up to 120 would do; by the last clause six in role 7 suffice.
pub fn wide_sums() -> BaseBuilder {
    let unmet = [(2, 3, 1), (3, 6, 3), (1, 2, 0), (1, 5, 255)];
    with_last(
        heavy(&unmet),
        &[(0, 2, 6), (2, 4, 1), (3, 6, 128), (1, 5, 255)],
    )
}

/// `gaps` with the largest weights that four policies give, and other clauses.
fn heavy(conditions: &[GroupCondition]) -> BaseBuilder {
    BaseBuilder {
        group_clauses: four_each(conditions),
        policies: four_policies([(7, 5), (6, 5), (5, 5), (4, 5)]),
        ..gaps()
    }
}

/// `gaps`, and by the last clause six in the two lightest roles suffice.
pub fn light_sixes() -> BaseBuilder {
    with_last(gaps(), &[(0, 2, 6), (1, 3, 13), (1, 5, 11), (1, 5, 10)])
}

/// The base with another last clause for each permission.
fn with_last(base: BaseBuilder, conditions: &[GroupCondition]) -> BaseBuilder {
    with_clause(base, 3, conditions)
}

/// The base with another clause, of four, for each permission.
fn with_clause(mut base: BaseBuilder, which: usize, conditions: &[GroupCondition]) -> BaseBuilder {
    for clause in &mut base.group_clauses[16 * which..][..16] {
        *clause = GroupClause::new(clause.permission, conditions);
    }
    base
}

/// `light_sixes`, where there are five users only.
pub fn five_users() -> BaseBuilder {
    BaseBuilder {
        users: users(&[255; 5]),
        ..light_sixes()
    }
}

/// `light_sixes`, where role 7 is held by many, the others by five users only.
pub fn shut_out() -> BaseBuilder {
    let sets = [[127; 5].as_slice(), &[128; 19]].concat();
    BaseBuilder {
        users: users(&sets),
        ..light_sixes()
    }
}

/// `gaps` with all clauses at one permission.
pub fn gathered_gaps() -> BaseBuilder {
    BaseBuilder {
        group_clauses: vec![GroupClause::new(0, &ODD); 64],
        ..gaps()
    }
}

/// `by_numbers` with two chains, of the even roles and of the odd ones. The users
/// hold the first of one, and act in the others as their senior. The roles weigh
/// 6, 6, 6, 6, 2, 2, 2 and 2; the last clause is looked for with one and two.
pub fn two_chains() -> BaseBuilder {
    let edge = |i: u8| Edge {
        senior: i % 6,
        junior: i % 6 + 2,
    };
    let sets: Vec<u8> = (0..24).map(|i| 1 << (i % 2)).collect();
    let base = BaseBuilder {
        hierarchy: (0..28).map(edge).collect(),
        users: users(&sets),
        policies: four_policies([(7, 2), (6, 2), (3, 4), (2, 4)]),
        ..by_numbers()
    };
    with_last(base, &[(1, 4, 5), (2, 3, 5), (3, 6, 64), (1, 5, 12)])
}

/// The weights of `wide_sums`. Any six of a sum of at least 60 would do, and any
/// group that acts in role 0. But nobody may act in role 0, and only five users
/// in the other roles: they hold role 1 alone. So of eight multisets in a row
/// nearly always one meets a clause and no group acts in it.
pub fn no_takers() -> BaseBuilder {
    let base = heavy(&[(1, 4, 13); 4]);
    let base = with_clause(base, 2, &[(0, 2, 6), (1, 2, 60), (1, 2, 60), (1, 2, 60)]);
    let base = with_last(base, &[(3, 6, 1), (2, 3, 6), (1, 2, 20), (1, 2, 20)]);
    let sets = [[2; 5].as_slice(), &[0; 19]].concat();
    BaseBuilder {
        users: users(&sets),
        ..base
    }
}

/// `wide_sums` where all users hold role 0 and act in every role.
fn all_seniors() -> BaseBuilder {
    BaseBuilder {
        users: users(&[1; 24]),
        ..wide_sums()
    }
}

/// All users hold role 0, and four vouch. The sums of three clauses lie between those of
/// multisets of one to four roles beside an entry; the last clause any six would meet,
/// so that of eight multisets of five roles one meets it, and no five are there.
fn few_vouch() -> BaseBuilder {
    let base = BaseBuilder {
        users: users(&[1; 24]),
        ..heavy(&[(1, 4, 31); 4])
    };
    let base = with_clause(base, 1, &[(1, 4, 61); 4]);
    let base = with_clause(base, 2, &[(1, 4, 46); 4]);
    with_last(base, &[(0, 4, 6), (2, 3, 6), (1, 2, 20), (1, 2, 20)])
}

/// `no_takers` where any group that acts in role 0 and one other would do, and nobody
/// may act in role 0: at every number of others multisets meet the clause in vain.
fn role_of_nobody() -> BaseBuilder {
    let base = BaseBuilder {
        users: users(&[2; 24]),
        ..no_takers()
    };
    let base = with_clause(base, 2, &[(1, 4, 13); 4]);
    with_last(base, &[(3, 6, 1), (2, 3, 6), (1, 2, 10), (1, 5, 255)])
}

#[cfg(test)]
mod tests {
    use super::*;
    use crate::registers::REQUESTER;
    use compare::questions::at_minute;
    use compare::{expect_report, expect_report_vouched};

    /// No group has an odd sum, and none acts in two roles that are one or in a
    /// role of nobody. Five are no six; else six in role 7, or in 6 and 7, are
    /// the smallest group.
    #[test]
    fn six_are_needed_or_no_group_suffices() {
        for (name, base) in all() {
            let sixes = ["last place", "wide sums", "light sixes", "shut out"].contains(&name);
            let k = if sixes { 6 } else { 0 };
            expect_report(&base.bytes(), at_minute(600), 208, &[k; 16]);
        }
    }

    /// The same of groups for a requester.
    #[test]
    fn six_are_needed_or_no_group_is_vouched_for() {
        for (name, base, trust) in all_vouched() {
            let k = if name == "all seniors" { 6 } else { 0 };
            let base = base.bytes();
            expect_report_vouched(&base, at_minute(600), &trust, REQUESTER, 208, &[k; 16]);
        }
    }

    #[test]
    fn they_are_as_long_as_can_be_but_for_users() {
        for (_, base) in all() {
            assert_eq!(base.bytes().len(), 2_460 - 8 * (24 - base.users.len()));
        }
    }
}
