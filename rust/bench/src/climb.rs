//! Looks for the base whose report costs most: from one made to cost much by
//! random changes that mostly cost more.

use compare::builder::*;
use compare::questions::at_minute;
use compare::random::Random;
use twin::counts::counts;

use crate::bases::users;
use crate::cases::{Case, Who, ALL};
use crate::counting::of_report;
use crate::fit;
use crate::worst;

/// Climbs from a base of [`worst::all`] by what it costs one, prints what the
/// base found costs and writes it to a file.
pub fn print(seed: u64, steps: u64, name: &str, file: &str, who: Who) {
    let start = worst_named(name);
    let cost_of = |base: &BaseBuilder| cost(&base.bytes(), who);
    let found = climb(&mut Random::new(seed), steps, &start, cost_of, changed).bytes();
    std::fs::write(file, &found).expect("the file can be written");
    for (which, base) in [("start", &start.bytes()), ("found", &found)] {
        let [library, twin] = [Who::Library, Who::Twin].map(|who| of_report(base, who));
        println!(
            "{which}: library {library}, twin {twin}, cost {:.0}",
            cost(base, who)
        );
        println!("{:?}", counts(base, at_minute(600)));
        println!("k {:?}", numbers(base));
    }
}

/// One of [`worst::all`].
pub fn worst_named(name: &str) -> BaseBuilder {
    let base = worst::all().into_iter().find(|base| base.0 == name);
    let (_, base) = base.unwrap_or_else(|| panic!("no base is called {name}"));
    base
}

/// The numbers of approvers, by library, twin and model alike.
fn numbers(base: &[u8]) -> Vec<u8> {
    numbers_of(&crate::cases::report("found", base))
}

/// The same of a case.
pub fn numbers_of(case: &Case) -> Vec<u8> {
    let [library, twin, model] = ALL.map(|who| {
        let mut out = [0; 3 * 2_784];
        case.answer(who, &mut out);
        out[..208].iter().step_by(13).copied().collect::<Vec<_>>()
    });
    assert!(library == twin && library == model);
    library
}

/// What a report on the base costs: the twin by its counts; others by their
/// instructions, which take long to count.
fn cost(base: &[u8], who: Who) -> f64 {
    match who {
        Who::Twin => fit::cost(base),
        _ => of_report(base, who) as f64,
    }
}

/// Climbs from a start by steps that mostly cost more; what cost most.
pub fn climb<T: Clone>(
    random: &mut Random,
    steps: u64,
    start: &T,
    cost: impl Fn(&T) -> f64,
    changed: impl Fn(&mut Random, &T) -> T,
) -> T {
    let mut here = start.clone();
    let mut now = cost(&here);
    let (mut best, mut most) = (here.clone(), now);
    for step in 0..steps {
        let next = changed(random, &here);
        let then = cost(&next);
        let heat = 0.03 * now * (1.0 - step as f64 / steps as f64).powi(2);
        if then >= now || share(random) < ((then - now) / heat).exp() {
            (here, now) = (next, then);
        }
        if now > most {
            (best, most) = (here.clone(), now);
        }
    }
    best
}

/// A number from 0 up to 1.
fn share(random: &mut Random) -> f64 {
    random.below(1 << 30) as f64 / (1 << 30) as f64
}

/// One to three changes of a user, the hierarchy, a policy or a clause.
pub fn changed(random: &mut Random, base: &BaseBuilder) -> BaseBuilder {
    let mut base = base.clone();
    for _ in 0..=random.below(3) {
        match random.below(8) {
            0..=2 => change_user(random, &mut base.users),
            3 => change_edge(random, &mut base.hierarchy),
            4 => change_policies(random, &mut base.policies),
            _ => change_clauses(random, &mut base.group_clauses),
        }
    }
    base
}

fn change_user(random: &mut Random, all: &mut [User]) {
    let place = random.below(all.len());
    let parameter = all[place].parameter;
    let held = (0..8).filter(|&role| parameter.is_multiple_of(CODES[role]));
    let set = held.fold(0_u8, |set, role| set | 1 << role);
    match random.below(4) {
        0 => all[place] = users(&[random.byte()]).remove(0),
        1 => all[place] = users(&[set ^ 1 << random.below(8)]).remove(0),
        2 => all.swap(place, random.below(all.len())),
        _ => all[place] = all[random.below(all.len())].clone(),
    }
}

fn change_edge(random: &mut Random, hierarchy: &mut [Edge]) {
    let junior = random.between(1, 7);
    let place = random.below(hierarchy.len());
    hierarchy[place] = Edge {
        senior: random.between(0, junior - 1),
        junior,
    };
}

/// The records that a change is for: one, or one of each permission, as they
/// stand by sixteen.
fn places(random: &mut Random, count: usize) -> Vec<usize> {
    let place = random.below(count);
    let start = place / 16 * 16;
    match random.chance(2) {
        true => vec![place],
        false => (start..count.min(start + 16)).collect(),
    }
}

fn change_policies(random: &mut Random, policies: &mut [Policy]) {
    let (role, weight) = (random.between(0, 7), random.between(1, 5));
    let (new_role, inheritable) = (random.chance(2), u8::from(!random.chance(8)));
    for place in places(random, policies.len()) {
        policies[place].inheritable = inheritable;
        match new_role {
            true => policies[place].role = role,
            false => policies[place].weight = weight,
        }
    }
}

/// Changes one condition or all.
fn change_clauses(random: &mut Random, clauses: &mut [GroupClause]) {
    let count = 1 + random.below(4);
    let conditions: Vec<GroupCondition> = (0..count).map(|_| condition(random)).collect();
    let one = random.chance(2).then(|| random.below(4));
    for place in places(random, clauses.len()) {
        let clause = &mut clauses[place];
        match one {
            Some(j) if j < clause.count.into() => clause.conditions[j] = conditions[0],
            _ => *clause = GroupClause::new(clause.permission, &conditions),
        }
    }
}

fn condition(random: &mut Random) -> GroupCondition {
    let operator = random.between(0, 5);
    match random.below(8) {
        0 => (0, operator, random.between(0, 7)),
        1 | 2 => (2, operator, random.between(0, 7)),
        3 => (3, 6, 1 << random.below(8) | 1 << random.below(8)),
        4 => (1, operator, random.byte()),
        _ => (1, operator, random.between(1, 40)),
    }
}

#[cfg(test)]
mod tests {
    use super::*;

    #[test]
    fn a_changed_base_passes() {
        let mut random = Random::new(5);
        for (_, mut base) in worst::all() {
            for _ in 0..200 {
                base = changed(&mut random, &base);
                assert_eq!(model::check(&base.bytes()), 0);
            }
        }
    }

    #[test]
    fn a_climb_does_not_end_below_its_start() {
        let start = worst::gaps();
        let cost_of = |base: &BaseBuilder| cost(&base.bytes(), Who::Twin);
        let found = climb(&mut Random::new(6), 50, &start, cost_of, changed);
        assert!(cost_of(&found) >= cost_of(&start));
    }
}
