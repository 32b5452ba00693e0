//! Random changes of one weight, with groups to bound their shift for.

use model::{Acting, Base, Change, Reading};

use crate::bounds::Changed;
use crate::builder::BaseBuilder;
use crate::damage::{any_damage, crowd, empty_clause, field_by_field, random_bytes};
use crate::days::turn_days;
use crate::mornings::sound_base;
use crate::questions::{any_number, loose_group, random_entry, shut_role, spoil_length};
use crate::random::Random;
use crate::valid::{random_base, Size};

/// Bases that pass, eight changes each.
pub fn sound_bases(seed: u64, bases: usize, mut attempt: impl FnMut(&[u8], &Changed)) {
    let mut random = Random::new(seed);
    for _ in 0..bases {
        let bytes = sound_base(&mut random).bytes();
        let base = Base::read(&bytes).expect("the base passes");
        for _ in 0..8 {
            attempt(&bytes, &random_change(&mut random, &base));
        }
    }
}

/// Damaged bases, with changes of the base before.
pub fn damaged_bases(seed: u64, bases: usize, mut attempt: impl FnMut(&[u8], &Changed)) {
    let mut random = Random::new(seed);
    for _ in 0..bases {
        let records = sound_base(&mut random);
        let image = records.image();
        let base = Base::read(&image.bytes).expect("the base passes");
        for _ in 0..6 {
            let changed = random_change(&mut random, &base);
            attempt(&any_damage(&mut random, &image), &changed);
        }
        for spoil in [crowd, empty_clause, turn_days] {
            let changed = random_change(&mut random, &base);
            let mut records = records.clone();
            spoil(&mut random, &mut records);
            attempt(&records.bytes(), &changed);
        }
    }
}

/// Small bases with each field damaged in turn, with changes of the base before.
pub fn single_fields(seed: u64, bases: usize, mut attempt: impl FnMut(&[u8], &Changed)) {
    let mut random = Random::new(seed);
    for _ in 0..bases {
        let image = random_base(&mut random, Size::Small).image();
        let base = Base::read(&image.bytes).expect("the base passes");
        field_by_field(&image, |damaged| {
            attempt(damaged, &random_change(&mut random, &base));
        });
    }
}

/// Any bytes for a base and any for a group.
pub fn loose_bytes(seed: u64, cases: usize, mut attempt: impl FnMut(&[u8], &Changed)) {
    let mut random = Random::new(seed);
    for _ in 0..cases {
        let base = random_bytes(&mut random);
        let changed = Changed {
            policy: any_number(&mut random, 64),
            weight: any_weight(&mut random),
            group: loose_group(&mut random),
        };
        attempt(&base, &changed);
    }
}

/// A random change of a base's policy, with a group.
pub fn random_change(random: &mut Random, base: &Base) -> Changed {
    let policy = any_number(random, base.policies.len());
    let weight = any_weight(random);
    let change = Change::new(base, policy, weight);
    Changed {
        policy,
        weight,
        group: any_group(random, base, change.as_ref()),
    }
}

/// Mostly 1 to 5.
fn any_weight(random: &mut Random) -> u32 {
    let weight = random.between(1, 5).into();
    if random.chance(12) {
        random.pick(&[0, 6, 7, 255, 256, 256 + weight, 65_536 + weight, u32::MAX])
    } else {
        weight
    }
}

/// Mostly users in roles that they may act in; at times damaged, or any bytes.
pub fn any_group(random: &mut Random, base: &Base, change: Option<&Change>) -> Vec<u8> {
    match random.below(10) {
        0..=5 => acting_group(random, base, change).concat(),
        6..=8 => damaged_group(random, base, change),
        _ => loose_group(random),
    }
}

/// Different users, each in a role that the user may act in, if there are any:
/// any such role, one that the change reaches where there is one, or one that it
/// doesn't reach.
pub fn acting_group(random: &mut Random, base: &Base, change: Option<&Change>) -> Vec<[u8; 2]> {
    let acting = Acting::by(Reading::Paper, base);
    let mut users: Vec<u8> = (0..base.users.len() as u8).collect();
    random.shuffle(&mut users);
    let count = random.pick(&[1, 2, 3, 4, 5, 6, 6]);
    let wanted = random.pick(&[None, Some(true), Some(true), Some(false)]);
    let is_wanted = |role: &u8| match (wanted, change) {
        (Some(wanted), Some(change)) => change.reaches(*role) == wanted,
        _ => true,
    };
    let entries = users.into_iter().filter_map(|user| {
        let roles = 0..base.roles;
        let mut roles: Vec<u8> = roles.filter(|role| acting.may_act(user, *role)).collect();
        if roles.iter().any(is_wanted) {
            roles.retain(is_wanted);
        }
        (!roles.is_empty()).then(|| [user, random.pick(&roles)])
    });
    entries.take(count).collect()
}

/// A group with a fault or two of the kinds that refusals 12 to 15 name.
fn damaged_group(random: &mut Random, base: &Base, change: Option<&Change>) -> Vec<u8> {
    let mut group = acting_group(random, base, change);
    if group.is_empty() {
        group.push(random_entry(random, base));
    }
    for _ in 0..random.pick(&[1, 1, 2]) {
        spoil_entry(random, base, &mut group);
    }
    random.shuffle(&mut group);
    spoil_length(random, group.concat())
}

fn spoil_entry(random: &mut Random, base: &Base, group: &mut [[u8; 2]]) {
    let users = base.users.len() as u8;
    let place = random.below(group.len());
    let other = random.below(group.len());
    match random.below(6) {
        0 => group[place][0] = random.pick(&[users, users + 1, 255]),
        1 => group[place][1] = random.pick(&[base.roles, 8, 9, 255]),
        2 => group[place][0] = group[other][0],
        3 => group[place] = random_entry(random, base),
        _ => shut_role(random, base, &mut group[place]),
    }
}

/// A base that passes and has a policy.
pub fn base_with_policies(random: &mut Random) -> BaseBuilder {
    loop {
        let records = sound_base(random);
        if !records.policies.is_empty() {
            return records;
        }
    }
}

#[cfg(test)]
mod tests {
    use super::*;

    #[test]
    fn every_answer_comes_up_often() {
        let mut tally = [0; 22];
        sound_bases(112, 1_000, |base, changed| {
            let (refusal, _) = changed.by_model(Reading::Paper, base);
            tally[refusal as usize] += 1;
        });
        assert_eq!(tally[1..12], [0; 11]);
        let mut answers = [0, 12, 13, 14, 15, 21].into_iter();
        assert!(answers.all(|answer| tally[answer] >= 200), "{tally:?}");
    }

    /// How often a wrong reading answers otherwise.
    fn differences(reading: Reading) -> usize {
        let mut found = 0;
        sound_bases(113, 300, |base, changed| {
            let by = |reading| changed.by_model(reading, base);
            found += usize::from(by(reading) != by(Reading::Paper));
        });
        found
    }

    #[test]
    fn every_wrong_reading_comes_up() {
        for reading in Reading::WRONG_OF_BOUNDS {
            let found = differences(reading);
            println!("{reading:?}: {found}");
            assert!(found >= 5, "{reading:?}: {found}");
        }
    }
}
