//! Random questions to the decision: permissions, contexts and groups.

use model::{Base, Context, Entry, Question, Reading, Resolution};

use crate::builder::BaseBuilder;
use crate::days::date_in_range;
use crate::random::Random;

/// What the decision is asked of a base.
pub struct Asked {
    pub permission: u32,
    pub at: Context,
    pub group: Vec<u8>,
}

impl Asked {
    /// A question about these entries: user and role acted in.
    pub fn new(permission: u32, at: Context, entries: &[[u8; 2]]) -> Asked {
        Asked {
            permission,
            at,
            group: entries.concat(),
        }
    }
}

/// The date of a context where it doesn't matter: everybody has all days.
pub const SOME_DATE: u32 = 20_000;

/// A context of day and zone 0, on some date.
pub fn at_minute(minute: u32) -> Context {
    at_date(minute, SOME_DATE)
}

/// A context of day and zone 0.
pub fn at_date(minute: u32, date: u32) -> Context {
    Context {
        minute,
        day: 0,
        zone: 0,
        date,
    }
}

/// A random question. `base` is what `records` give.
pub fn random_question(random: &mut Random, records: &BaseBuilder, base: &Base) -> Asked {
    random_question_by(random, records, base, Resolution::none())
}

/// A random question whose group is made for a resolution list.
pub fn random_question_by(
    random: &mut Random,
    records: &BaseBuilder,
    base: &Base,
    resolution: Resolution,
) -> Asked {
    let permission = any_permission(random, base.permissions.len());
    let at = any_context(random, records);
    let group = match Question::by(resolution, base, permission, at, Reading::Paper) {
        Ok(question) => any_group(random, &question),
        Err(_) => loose_group(random),
    };
    Asked {
        permission,
        at,
        group,
    }
}

/// Mostly a permission that is there.
pub fn any_permission(random: &mut Random, count: usize) -> u32 {
    any_number(random, count)
}

/// Mostly the number of one of so many records.
pub(crate) fn any_number(random: &mut Random, count: usize) -> u32 {
    let inside = random.below(count.max(1));
    if random.chance(12) {
        random.pick(&[count, 255, 256, 256 + inside, 65_536, 0xffff_ffff]) as u32
    } else {
        inside as u32
    }
}

/// Mostly a context in range.
pub fn any_context(random: &mut Random, records: &BaseBuilder) -> Context {
    let mut at = context_in_range(random, records);
    if random.chance(12) {
        match random.below(4) {
            0 => at.minute = random.pick(&[1440, 1441, 65_535, 65_536 + at.minute, u32::MAX]),
            1 => at.day = random.pick(&[7, 8, 256 + at.day, u32::MAX]),
            2 => at.zone = random.pick(&[256, 256 + at.zone, 65_536, u32::MAX]),
            _ => at.date = random.pick(&[65_536, 65_537, 65_536 + at.date, u32::MAX]),
        }
    }
    at
}

/// A context in range, mostly at or beside a value in the base's clauses and a
/// user's first or last day.
pub fn context_in_range(random: &mut Random, records: &BaseBuilder) -> Context {
    Context {
        minute: value_in_range(random, records, 0, 1439),
        day: value_in_range(random, records, 1, 6),
        zone: value_in_range(random, records, 2, 255),
        date: date_in_range(random, &records.users),
    }
}

fn value_in_range(random: &mut Random, records: &BaseBuilder, parameter: u8, last: u16) -> u32 {
    let conditions = records.context_clauses.iter().flat_map(|c| c.conditions);
    let mut values: Vec<u16> = conditions
        .filter(|condition| condition.0 == parameter)
        .flat_map(|condition| {
            [
                condition.2.saturating_sub(1),
                condition.2,
                condition.2.saturating_add(1),
            ]
        })
        .collect();
    let anywhere = random.below(usize::from(last) + 1) as u16;
    values.extend([0, last, anywhere, anywhere]);
    random.pick(&values).min(last).into()
}

/// A sound group, one near a smallest, one with a user who doesn't come on the
/// date, a damaged one or any bytes.
pub fn any_group(random: &mut Random, question: &Question) -> Vec<u8> {
    match random.below(13) {
        0..=2 => sound_group(random, question).concat(),
        3..=6 => near_smallest(random, question).concat(),
        7 => group_with_absent(random, question).concat(),
        8..=11 => damaged_group(random, question),
        _ => loose_group(random),
    }
}

/// Different users who come on the date, each in a role with weight that the
/// user may act in, if there are any: any such role, one held where there is one,
/// or one not held.
pub(crate) fn sound_group(random: &mut Random, question: &Question) -> Vec<[u8; 2]> {
    let mut users: Vec<u8> = (0..question.base.users.len() as u8).collect();
    random.shuffle(&mut users);
    let count = 1 + random.below(6);
    let wanted = random.pick(&[None, Some(true), Some(false)]);
    let entries = users.into_iter().filter_map(|user| {
        let mut choices: Vec<Entry> = question.entries_of(user).collect();
        let is_wanted = |entry: &Entry| {
            let held = question.base.holds(entry.user, entry.role);
            wanted.is_none_or(|wanted| held == wanted)
        };
        if choices.iter().any(is_wanted) {
            choices.retain(is_wanted);
        }
        (!choices.is_empty()).then(|| random.pick(&choices).bytes())
    });
    entries.take(count).collect()
}

/// A smallest group, as it is or with one entry more, less or changed. A sound
/// group if there is none.
pub(crate) fn near_smallest(random: &mut Random, question: &Question) -> Vec<[u8; 2]> {
    let sound = sound_group(random, question);
    let Some(smallest) = model::smallest_group(question) else {
        return sound;
    };
    let mut group: Vec<[u8; 2]> = smallest.into_iter().map(Entry::bytes).collect();
    let place = random.below(group.len());
    match random.below(5) {
        0 => group.truncate(place),
        1 => group.extend(sound.first()),
        2 => group[place] = *sound.first().unwrap_or(&[0, 0]),
        _ => (),
    }
    random.shuffle(&mut group);
    group
}

/// A sound group, and in place of one entry a user who doesn't come on the date,
/// if there is one. At times another user is in a role that is shut or has no
/// weight.
fn group_with_absent(random: &mut Random, question: &Question) -> Vec<[u8; 2]> {
    let mut group = sound_group(random, question);
    let [absent, others @ ..] = &mut group[..] else {
        return group;
    };
    absent_entry(random, question, absent);
    if let [other, ..] = others {
        match random.below(4) {
            0 => shut_role(random, question.base, other),
            1 => weightless_entry(random, question, other),
            _ => (),
        }
    }
    random.shuffle(&mut group);
    group
}

/// A group with a fault or two of the kinds that refusals 12 to 16 and 24 name.
fn damaged_group(random: &mut Random, question: &Question) -> Vec<u8> {
    let mut group = sound_group(random, question);
    if group.is_empty() {
        group.push(random_entry(random, question.base));
    }
    for _ in 0..random.pick(&[1, 1, 2]) {
        spoil_entry(random, question, &mut group);
    }
    random.shuffle(&mut group);
    spoil_length(random, group.concat())
}

/// At times another length, mostly one that no group has.
pub(crate) fn spoil_length(random: &mut Random, mut group: Vec<u8>) -> Vec<u8> {
    if random.chance(6) {
        let whole = group.len();
        let length = random.pick(&[0, 1, whole - 1, 13, 14, 256 + whole, 65_536 + whole]);
        group.resize(length, 0);
    }
    group
}

fn spoil_entry(random: &mut Random, question: &Question, group: &mut [[u8; 2]]) {
    let users = question.base.users.len() as u8;
    let roles = question.base.roles;
    let place = random.below(group.len());
    let other = random.below(group.len());
    match random.below(20) {
        0 => group[place][0] = random.pick(&[users, users + 1, 255]),
        1 => group[place][1] = random.pick(&[roles, 8, 9, 255]),
        2 | 3 => group[place][0] = group[other][0],
        4 | 5 => group[place][1] = random.between(0, roles - 1),
        6 => group[place] = random_entry(random, question.base),
        7..=10 => shut_role(random, question.base, &mut group[place]),
        11 | 12 => absent_entry(random, question, &mut group[place]),
        _ => weightless_entry(random, question, &mut group[place]),
    }
}

pub(crate) fn random_entry(random: &mut Random, base: &Base) -> [u8; 2] {
    let user = random.below(base.users.len().max(1)) as u8;
    [user, random.between(0, base.roles - 1)]
}

/// Puts the user into a role that the user may not act in, if there is one.
pub(crate) fn shut_role(random: &mut Random, base: &Base, entry: &mut [u8; 2]) {
    let roles = 0..base.roles;
    let shut: Vec<u8> = roles
        .filter(|role| !base.may_act(entry[0], *role))
        .collect();
    if !shut.is_empty() {
        entry[1] = random.pick(&shut);
    }
}

/// Puts a user who may act in a role without weight into it, if there is one.
fn weightless_entry(random: &mut Random, question: &Question, entry: &mut [u8; 2]) {
    acting_entry(random, question, entry, |_, role| {
        question.weight(role) == 0
    });
}

/// Puts a user who doesn't come on the date, in a role that the user may act in,
/// if there is one.
fn absent_entry(random: &mut Random, question: &Question, entry: &mut [u8; 2]) {
    acting_entry(random, question, entry, |user, _| !question.comes(user));
}

/// Puts a wanted user and role, where the user may act in the role, if there are
/// any.
fn acting_entry(
    random: &mut Random,
    question: &Question,
    entry: &mut [u8; 2],
    wanted: impl Fn(u8, u8) -> bool,
) {
    let mut choices = Vec::new();
    for user in 0..question.base.users.len() as u8 {
        for role in 0..question.base.roles {
            if wanted(user, role) && question.base.may_act(user, role) {
                choices.push([user, role]);
            }
        }
    }
    if !choices.is_empty() {
        *entry = random.pick(&choices);
    }
}

/// Bytes of any length up to 40, small numbers or any.
pub fn loose_group(random: &mut Random) -> Vec<u8> {
    let length = random.below(41);
    let last = random.pick(&[1, 3, 8, 255]);
    (0..length).map(|_| random.between(0, last)).collect()
}

#[cfg(test)]
mod tests {
    use super::*;
    use crate::lively::lively_base;

    #[test]
    fn every_answer_comes_up_often() {
        let mut random = Random::new(11);
        let mut tally = [0; 25];
        for _ in 0..1_000 {
            let records = lively_base(&mut random, 24);
            let bytes = records.bytes();
            let base = Base::read(&bytes).expect("a lively base passes");
            for _ in 0..10 {
                let asked = random_question(&mut random, &records, &base);
                let answer = model::decide(&bytes, asked.permission, asked.at, &asked.group);
                tally[usize::from(answer)] += 1;
            }
        }
        assert_eq!(tally[1..10], [0; 9]);
        let mut answers = (10..18).chain([0, 24]);
        assert!(answers.all(|answer| tally[answer] >= 300), "{tally:?}");
    }
}
