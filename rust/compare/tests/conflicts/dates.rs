//! Users' days play no part: a list is the same whatever they are.

use crate::setups::*;
use compare::builder::*;

/// A base with conflicts of each kind. Policies 0 and 1 differ in weight, and policy
/// 2 is for a permission that theirs excludes. Role 0 is over role 1, and the two
/// exclude each other: users 0 and 2 hold both, user 1 role 0 and user 3 role 1
/// alone.
fn of_each_kind() -> BaseBuilder {
    BaseBuilder {
        hierarchy: edges(&[(0, 1)]),
        users: users(&[15, 3, 15, 5]),
        policies: vec![policy(0, 0, 1, 0), policy(0, 0, 2, 0), policy(0, 1, 1, 0)],
        exclusions: exclusions(&[(1, 0, 1), (0, 0, 1)]),
        ..BaseBuilder::new(2).with_permissions(2)
    }
}

const OF_EACH_KIND: [[u8; 3]; 6] = [
    [1, 0, 1],
    [2, 0, 2],
    [2, 1, 2],
    [3, 0, 1],
    [3, 1, 1],
    [3, 2, 1],
];

#[test]
fn a_conflict_of_each_kind_with_all_days() {
    expect_list(&of_each_kind(), &OF_EACH_KIND);
}

#[test]
fn every_user_has_few_days() {
    for (first, last) in [(0, 0), (300, 300), (65_535, 65_535), (255, 256)] {
        let mut base = of_each_kind();
        for user in &mut base.users {
            user.set_days(first, last);
        }
        expect_list(&base, &OF_EACH_KIND);
    }
}

/// On no date are two of users 0 to 2 here, and all three stand in the list.
#[test]
fn users_whose_days_do_not_meet() {
    let mut base = of_each_kind();
    base.users[0].set_days(0, 299);
    base.users[1].set_days(300, 300);
    base.users[2].set_days(301, 65_535);
    expect_list(&base, &OF_EACH_KIND);
}

/// Who holds the senior alone stands on whatever days, and who holds the junior
/// alone doesn't.
#[test]
fn a_senior_of_few_days_acts_in_its_juniors_role() {
    for (first, last) in [(0, 0), (65_535, 65_535), (0, 65_534), (1, 65_535)] {
        let mut base = of_each_kind();
        base.users = users(&[3, 5, 3]);
        base.users[0].set_days(first, last);
        base.users[1].set_days(first, last);
        base.policies.clear();
        expect_list(&base, &[[3, 0, 1], [3, 2, 1]]);
    }
}

#[test]
fn one_user_after_the_other_has_few_days() {
    for user in 0..4 {
        let mut base = of_each_kind();
        base.users[user].set_days(7, 7);
        expect_list(&base, &OF_EACH_KIND);
    }
}

/// Contexts are related by minute, day and zone: 5 and 6 are no dates.
#[test]
fn contexts_are_related_whatever_the_days() {
    let mut base = of_each_kind();
    for user in &mut base.users {
        user.set_days(0, 0);
    }
    let day = |day| vec![(1, 4, day)];
    for (number, conditions) in (0..).zip([day(5), day(5), day(6)]) {
        let clause = ContextClause::new(number, &conditions);
        base.context_clauses.push(clause);
    }
    (base.policies[0].context, base.policies[1].context) = (0, 1);
    expect_list(&base, &OF_EACH_KIND);
    base.policies[1].context = 2;
    expect_list(&base, &OF_EACH_KIND[1..]);
}

/// Days and issue days that look alike.
#[test]
fn issue_days_play_no_part() {
    let mut base = of_each_kind();
    for policy in &mut base.policies {
        policy.issue_day = 300;
    }
    base.users[0].set_days(301, 400);
    expect_list(&base, &OF_EACH_KIND);
}
