//! Random bases whose permissions are granted to some groups and not to others.

use crate::builder::*;
use crate::days::give_days;
use crate::random::Random;
use crate::valid::{random_edge, random_exclusion, random_permission, times};

/// A random base with one to `most_users` users that passes the check. In half
/// of them users hold any roles, in the others only the first ones, where the
/// seniors are.
pub fn lively_base(random: &mut Random, most_users: usize) -> BaseBuilder {
    let roles: u8 = random.pick(&[1, 2, 3, 3, 4, 4, 5, 6, 7, 8]);
    let permissions = random.pick(&[1, 1, 2, 2, 3, 4, 6, 16]);
    let users = 1 + random.below(most_users);
    let held = random.pick(&[roles, roles, roles.div_ceil(2), 1]);
    let mut base = BaseBuilder::new(roles);
    base.hierarchy = hierarchy(random, roles);
    base.users = times(users, || user(random, held));
    give_days(random, &mut base.users);
    base.permissions = times(permissions.into(), || random_permission(random));
    base.group_clauses = group_clauses(random, roles, permissions);
    let numbers = context_numbers(random);
    base.context_clauses = context_clauses(random, numbers);
    base.policies = policies(random, roles, permissions, numbers);
    if roles > 1 || permissions > 1 {
        let count = random.below(7);
        base.exclusions = times(count, || random_exclusion(random, roles, permissions));
    }
    base
}

/// A random base with as many records as the limits allow: 2,460 bytes.
pub fn full_base(random: &mut Random) -> BaseBuilder {
    let roles = random.between(2, 8);
    let permissions = LIMITS[2] as u8;
    let numbers = context_numbers(random);
    let mut base = BaseBuilder::new(roles);
    base.hierarchy = times(LIMITS[0], || random_edge(random, roles));
    base.users = times(LIMITS[1], || user(random, roles));
    give_days(random, &mut base.users);
    base.permissions = times(LIMITS[2], || random_permission(random));
    base.group_clauses = times(LIMITS[3], || {
        let permission = random.between(0, permissions - 1);
        GroupClause::new(permission, &conditions(random, roles))
    });
    base.context_clauses = times(LIMITS[4], || {
        ContextClause::new(random.pick(&numbers), &context_conditions(random))
    });
    base.policies = times(LIMITS[5], || {
        let role = random.between(0, roles - 1);
        let permission = random.between(0, permissions - 1);
        policy(random, role, permission, numbers)
    });
    base.exclusions = times(LIMITS[6], || random_exclusion(random, roles, permissions));
    base
}

/// A random base of eight roles in a chain where sums reach 240, and clauses
/// that ask for such sums.
pub fn heavy_base(random: &mut Random) -> BaseBuilder {
    let lightest = random.between(3, 5);
    let heavy_role = |random: &mut Random| CODES[random.pick(&[0, 0, 0, 1, 2])];
    let mut base = BaseBuilder::new(8).with_permissions(1);
    base.hierarchy = (1..8).map(|junior| Edge::new(junior - 1, junior)).collect();
    base.users = times(8, || User::always(heavy_role(random)));
    give_days(random, &mut base.users);
    base.group_clauses = vec![GroupClause::new(0, &[heavy_condition(random)])];
    base.policies = (0..8)
        .map(|role| Policy::new(role, 0, random.between(lightest, 5), 1, NO_CONTEXT))
        .collect();
    base
}

/// A condition on a sum that heavy groups have, mostly at the highest ones.
fn heavy_condition(random: &mut Random) -> GroupCondition {
    let any = random.between(100, 255);
    let value = random.pick(&[any, 199, 200, 239, 240, 241]);
    (1, random.between(0, 5), value)
}

/// No records, a chain, a tree or a lattice of roles, in any order.
fn hierarchy(random: &mut Random, roles: u8) -> Vec<Edge> {
    let mut records: Vec<Edge> = match random.below(6) {
        0 => vec![],
        1 => (1..roles)
            .map(|junior| Edge::new(junior - 1, junior))
            .collect(),
        2 => (1..roles)
            .map(|junior| Edge::new(random.between(0, junior - 1), junior))
            .collect(),
        _ if roles < 2 => vec![],
        _ => {
            let count = random.below(LIMITS[0] + 1);
            times(count, || random_edge(random, roles))
        }
    };
    random.shuffle(&mut records);
    records
}

/// Mostly one role or two of the first; at times none, or all.
fn user(random: &mut Random, roles: u8) -> User {
    let mut codes = CODES[..usize::from(roles)].to_vec();
    random.shuffle(&mut codes);
    let held = random.pick(&[0, 1, 1, 1, 1, 1, 2, 2, 3, codes.len()]);
    User::always(codes.iter().take(held).product())
}

/// None to three clauses for each permission.
fn group_clauses(random: &mut Random, roles: u8, permissions: u8) -> Vec<GroupClause> {
    let mut clauses = Vec::new();
    for permission in 0..permissions {
        let count = random.pick(&[0, 1, 1, 1, 2, 2, 3]);
        clauses.extend(times(count, || {
            GroupClause::new(permission, &conditions(random, roles))
        }));
    }
    random.shuffle(&mut clauses);
    clauses
}

/// Conditions as an editor might write them.
fn conditions(random: &mut Random, roles: u8) -> Vec<GroupCondition> {
    let entries = random.between(1, 6);
    let at_least_few = (0, 2, random.between(1, 3));
    let sum = random.between(2, 24);
    let different = random.between(1, roles.min(4));
    match random.below(8) {
        0 => vec![at_least_few, (1, 2, sum)],
        1 => vec![at_least_few, (1, random.pick(&[1, 3]), sum)],
        2 => vec![(1, 4, sum)],
        3 => vec![(2, random.pick(&[0, 2, 4, 5]), different), (1, 2, sum)],
        4 => vec![at_least_few, (3, 6, some_roles(random, roles))],
        5 => vec![(0, random.pick(&[2, 4]), entries), (2, 3, different)],
        6 => vec![(0, 2, entries), (1, 5, sum), (2, 5, different)],
        _ => {
            let count = 1 + random.below(4);
            times(count, || condition(random, roles))
        }
    }
}

/// Any condition with a value that a group can have.
fn condition(random: &mut Random, roles: u8) -> GroupCondition {
    let operator = random.between(0, 5);
    match random.between(0, 3) {
        0 => (0, operator, random.between(0, 7)),
        1 => (1, operator, random.between(0, 40)),
        2 => (2, operator, random.between(0, roles)),
        _ => (3, 6, some_roles(random, roles)),
    }
}

/// A set of one role, two or none.
fn some_roles(random: &mut Random, roles: u8) -> u8 {
    let one = 1 << random.between(0, roles - 1);
    let other = 1 << random.between(0, roles - 1);
    random.pick(&[one, one, one | other, 0])
}

/// Four context numbers in a row.
fn context_numbers(random: &mut Random) -> [u8; 4] {
    let first = random.between(0, 12);
    [first, first + 1, first + 2, first + 3]
}

/// A clause or more for each number but the last, which stays without.
fn context_clauses(random: &mut Random, numbers: [u8; 4]) -> Vec<ContextClause> {
    let mut clauses = Vec::new();
    for number in &numbers[..3] {
        let count = random.between(1, 3).into();
        clauses.extend(times(count, || {
            ContextClause::new(*number, &context_conditions(random))
        }));
    }
    random.shuffle(&mut clauses);
    clauses
}

/// Opening hours, days, zones and, at times, what never holds.
fn context_conditions(random: &mut Random) -> Vec<ContextCondition> {
    let opens = (0, 2, random.pick(&[0, 480, 540, 600]));
    let closes = (0, 3, random.pick(&[540, 600, 1020, 1439]));
    let day = (1, random.between(0, 5), random.between(0, 6).into());
    let zone = (2, random.between(0, 5), random.pick(&[0, 1, 2, 255]));
    let never = random.pick(&[(0, 1, 0), (0, 0, 1439), (1, 0, 6), (2, 0, 255)]);
    match random.below(9) {
        0 | 1 => vec![opens, closes],
        2 => vec![opens, closes, day],
        3 => vec![opens, closes, zone],
        4 => vec![day],
        5 => vec![day, (1, 5, random.between(0, 6).into())],
        6 => vec![zone],
        7 => vec![day, zone],
        _ => vec![never, opens],
    }
}

/// None to three policies for most roles and permissions, in any order.
fn policies(random: &mut Random, roles: u8, permissions: u8, numbers: [u8; 4]) -> Vec<Policy> {
    let mut policies = Vec::new();
    for permission in 0..permissions {
        for role in 0..roles {
            let count = random.pick(&[0, 1, 1, 1, 2, 3]);
            policies.extend(times(count, || policy(random, role, permission, numbers)));
        }
    }
    random.shuffle(&mut policies);
    policies.truncate(LIMITS[5]);
    policies
}

fn policy(random: &mut Random, role: u8, permission: u8, numbers: [u8; 4]) -> Policy {
    let number = random.pick(&numbers);
    Policy {
        rank: random.byte(),
        issue_day: random.byte().into(),
        ..Policy::new(
            role,
            permission,
            random.between(1, 5),
            random.pick(&[0, 1, 1]),
            random.pick(&[NO_CONTEXT, NO_CONTEXT, number]),
        )
    }
}

#[cfg(test)]
mod tests {
    use super::*;
    use crate::questions::{context_in_range, random_question, Asked};
    use model::{Base, Reading};

    /// The smallest numbers for a base and a context in range, by a reading.
    fn numbers(reading: Reading, base: &[u8], at: model::Context) -> Vec<u8> {
        let mut records = [0; 16 * 13];
        let answer = model::report_as(reading, base, at, None, &mut records);
        assert_eq!(answer.refusal, 0);
        records.iter().step_by(13).copied().collect()
    }

    #[test]
    fn a_full_base_is_as_long_as_can_be_and_passes() {
        let mut random = Random::new(25);
        for _ in 0..200 {
            let bytes = full_base(&mut random).bytes();
            assert_eq!(bytes.len(), 2460);
            assert_eq!(model::check(&bytes), 0);
        }
    }

    #[test]
    fn a_heavy_base_passes() {
        let mut random = Random::new(26);
        for _ in 0..200 {
            let bytes = heavy_base(&mut random).bytes();
            assert_eq!(model::check(&bytes), 0);
        }
    }

    #[test]
    fn every_smallest_number_comes_up() {
        let mut random = Random::new(21);
        let mut tally = [0; 7];
        for _ in 0..500 {
            let records = lively_base(&mut random, 24);
            let at = context_in_range(&mut random, &records);
            let found = numbers(Reading::Paper, &records.bytes(), at);
            for k in &found[..records.permissions.len()] {
                tally[usize::from(*k)] += 1;
            }
        }
        assert!(tally.iter().all(|&times| times >= 40), "{tally:?}");
    }

    #[test]
    fn both_ways_find_the_same_number() {
        let mut random = Random::new(22);
        let sizes = [3; 200].into_iter().chain([5; 20]).chain([6; 5]);
        for most_users in sizes {
            let records = lively_base(&mut random, most_users);
            let at = context_in_range(&mut random, &records);
            let base = records.bytes();
            for permission in 0..records.permissions.len() as u32 {
                let by_trial = model::smallest_by_trial(&base, at, None, permission);
                assert_eq!(
                    model::smallest_by_reach(&base, at, None, permission),
                    by_trial
                );
            }
        }
    }

    #[test]
    fn every_kind_of_conflict_comes_up() {
        let mut random = Random::new(23);
        let mut tally = [0; 4];
        for _ in 0..200 {
            let bytes = lively_base(&mut random, 24).bytes();
            let base = Base::read(&bytes).expect("a lively base passes");
            for conflict in model::conflict_list(&base) {
                tally[usize::from(conflict[0])] += 1;
            }
        }
        assert!(tally[1..].iter().all(|&times| times >= 500), "{tally:?}");
    }

    /// How many questions and reports of some bases a wrong reading answers
    /// otherwise.
    fn differences(reading: Reading) -> [usize; 2] {
        let mut random = Random::new(24);
        let mut found = [0; 2];
        for _ in 0..300 {
            let records = lively_base(&mut random, 12);
            let bytes = records.bytes();
            let base = Base::read(&bytes).expect("a lively base passes");
            for _ in 0..10 {
                let asked = random_question(&mut random, &records, &base);
                let by = |r| {
                    let Asked {
                        permission,
                        at,
                        group,
                    } = &asked;
                    model::decide_as(r, &bytes, *permission, *at, None, group)
                };
                found[0] += usize::from(by(reading) != by(Reading::Paper));
            }
            let at = context_in_range(&mut random, &records);
            let by = |r| numbers(r, &bytes, at);
            found[1] += usize::from(by(reading) != by(Reading::Paper));
        }
        found
    }

    #[test]
    fn every_wrong_reading_comes_up() {
        let of_paper = Reading::WRONG.into_iter();
        for reading in of_paper.chain(Reading::WRONG_OF_ACTING) {
            let [decisions, reports] = differences(reading);
            println!("{reading:?}: {decisions} decisions, {reports} reports");
            let only_the_search = reading == Reading::HeaviestUsers;
            assert!(decisions >= 5 || (only_the_search && decisions == 0));
            assert!(reports >= 5);
        }
    }

    #[test]
    fn every_wrong_reading_of_dates_comes_up() {
        for (reading, of_decisions, of_reports) in [
            (Reading::FirstDayExcluded, true, true),
            (Reading::LastDayExcluded, true, true),
            (Reading::DaysBeforeMembership, true, false),
            (Reading::DaysAfterWeight, true, false),
            (Reading::DaysForgotten, false, true),
            (Reading::DaysAtSigning, false, false),
        ] {
            let [decisions, reports] = differences(reading);
            println!("{reading:?}: {decisions} decisions, {reports} reports");
            for (found, shows) in [(decisions, of_decisions), (reports, of_reports)] {
                assert!(found >= 5 || (!shows && found == 0), "{reading:?}");
            }
        }
    }
}
