//! The report, in contexts in and out of range, with buffers that are too
//! short, just long enough and longer.

use compare::acting::{gains, most_records_down};
use compare::builder::BaseBuilder;
use compare::capped::capped_base;
use compare::damage::*;
use compare::days::{end_days, losses, turn_days};
use compare::lent::Lent;
use compare::lively::{full_base, heavy_base, lively_base};
use compare::questions::{any_context, at_minute, context_in_range};
use compare::random::Random;
use compare::shown::{numbers, RECORD};
use compare::sparse::sparse_base;
use compare::valid::{random_base, Size};
use compare::{agreed_report, permission_count};
use model::{Base, Context};
use twin::worst;

use crate::seen::{Call, Seen};

pub fn compare(seen: &mut Seen) {
    sound_bases(12_000, |random, records| {
        compare_sound(seen, random, records)
    });
    damaged_bases(seen);
    single_fields(seen);
    loose_bytes(seen);
    worst_bases(seen);
}

/// Compares a base that passes with a buffer that suffices, and then with one
/// that is too short or in a context out of range.
fn compare_sound(seen: &mut Seen, random: &mut Random, records: &BaseBuilder) {
    let base = records.bytes();
    let whole = RECORD * records.permissions.len();
    let few = random.below(40);
    let enough = whole + random.pick(&[0, 0, 1, few, 300]);
    let at = context_in_range(random, records);
    compare_at(seen, random, &base, at, enough);
    if random.chance(3) {
        compare_without_one(seen, random, records, at);
    }
    let less = random.below(whole.max(1));
    let short = random.pick(&[0, less, whole.saturating_sub(1)]);
    if random.chance(3) {
        let at = context_out_of_range(random, records);
        let length = random.pick(&[short, enough]);
        compare_at(seen, random, &base, at, length);
    } else {
        compare_at(seen, random, &base, at, short);
    }
}

/// Compares the report once more where a user of a group shown is out of date.
fn compare_without_one(seen: &mut Seen, random: &mut Random, records: &BaseBuilder, at: Context) {
    let mut shown = vec![0; RECORD * records.permissions.len()];
    twin::report(&records.bytes(), at, &mut shown);
    if let Some(record) = shown.chunks_exact(RECORD).find(|record| record[0] > 0) {
        let place = 1 + 2 * random.below(record[0].into());
        let mut records = records.clone();
        let user = &mut records.users[usize::from(record[place])];
        end_days(random, user, at.date as u16);
        compare_at(seen, random, &records.bytes(), at, shown.len());
    }
}

/// Compares bytes that come from a base, with any buffer and context.
fn compare_damaged(seen: &mut Seen, random: &mut Random, base: &[u8], records: &BaseBuilder) {
    let whole = RECORD * permission_count(base);
    let any = random.below(300);
    let length = random.pick(&[whole, whole, whole.saturating_sub(1), any]);
    let at = any_context(random, records);
    compare_at(seen, random, base, at, length);
}

fn compare_at(seen: &mut Seen, random: &mut Random, base: &[u8], at: Context, length: usize) {
    let mut lent = Lent::noisy(random, length);
    let answer = agreed_report(base, at, &mut lent);
    seen.answer(Call::Report, answer.refusal);
    if answer.refusal == 0 {
        let records = &lent.buffer()[..RECORD * permission_count(base)];
        let numbers = numbers(records);
        seen.numbers(&numbers);
        seen.gains(&gains(base, at, &numbers));
        seen.dated.losses(&losses(base, at, None, &numbers));
        note_shown(seen, base, records);
    }
}

/// Notes how far below their roles the users of the groups shown act.
fn note_shown(seen: &mut Seen, base: &[u8], records: &[u8]) {
    let base = Base::read(base).expect("a refused base has no report");
    for record in records.chunks_exact(RECORD).filter(|record| record[0] > 0) {
        let group = &record[1..=2 * usize::from(record[0])];
        let records = most_records_down(&base, group);
        seen.shown(records.expect("whoever is shown may act"));
    }
}

fn context_out_of_range(random: &mut Random, records: &BaseBuilder) -> Context {
    let mut contexts = std::iter::repeat_with(|| any_context(random, records));
    let outside = contexts.find(|at| !at.in_range());
    outside.expect("one in twelve is out of range")
}

/// A base with few users, one of any size, a lively, a sparse, a capped, a
/// heavy or a full one.
fn sound_base(random: &mut Random) -> BaseBuilder {
    match random.below(32) {
        0 => random_base(random, Size::Empty),
        1..=3 => random_base(random, Size::Small),
        4 => random_base(random, Size::Any),
        5 => full_base(random),
        6 => heavy_base(random),
        7..=11 => sparse_base(random, 24),
        12..=13 => sparse_base(random, 6),
        14..=15 => lively_base(random, 24),
        16..=23 => lively_base(random, 6),
        _ => {
            let roles = random.between(1, 8);
            capped_base(random, roles)
        }
    }
}

/// The first bases of the comparison.
pub fn sound_bases(bases: usize, mut attempt: impl FnMut(&mut Random, &BaseBuilder)) {
    let mut drawn = Random::new(61);
    let mut random = Random::new(65);
    for _ in 0..bases {
        attempt(&mut random, &sound_base(&mut drawn));
    }
}

/// Changed bytes, a table at its limit or above, a clause without conditions,
/// days turned.
fn damaged_bases(seen: &mut Seen) {
    let mut random = Random::new(62);
    for _ in 0..2_000 {
        let records = sound_base(&mut random);
        let image = records.image();
        for _ in 0..4 {
            let damaged = any_damage(&mut random, &image);
            compare_damaged(seen, &mut random, &damaged, &records);
        }
        for spoil in [crowd, empty_clause, turn_days] {
            let mut spoilt = records.clone();
            spoil(&mut random, &mut spoilt);
            compare_damaged(seen, &mut random, &spoilt.bytes(), &records);
        }
    }
}

fn single_fields(seen: &mut Seen) {
    let mut random = Random::new(66);
    for _ in 0..6 {
        let records = random_base(&mut random, Size::Small);
        field_by_field(&records.image(), |base| {
            compare_damaged(seen, &mut random, base, &records);
        });
    }
}

fn loose_bytes(seen: &mut Seen) {
    let mut random = Random::new(63);
    let no_records = BaseBuilder::new(1);
    for _ in 0..4_000 {
        let base = random_bytes(&mut random);
        compare_damaged(seen, &mut random, &base, &no_records);
    }
}

/// The bases whose reports cost most, as they are, and with their users in
/// another order and clauses that some groups pass.
fn worst_bases(seen: &mut Seen) {
    let mut random = Random::new(64);
    for plan in [worst::spread(), worst::gathered()] {
        compare_at(seen, &mut random, &plan.bytes(), at_minute(0), 16 * RECORD);
    }
    for _ in 0..60 {
        let mut plan = worst::spread();
        random.shuffle(&mut plan.users);
        for (_, conditions) in &mut plan.clauses {
            *conditions = high_conditions(&mut random);
        }
        compare_at(seen, &mut random, &plan.bytes(), at_minute(0), 16 * RECORD);
    }
}

/// A sum of up to six weights of up to 14, in four to six different roles.
fn high_conditions(random: &mut Random) -> Vec<(u8, u8, u8)> {
    let sum = random.between(30, 84);
    let different = random.between(4, 6);
    let cap = random.pick(&[(1, 4, sum), (1, 1, sum), (1, 3, sum)]);
    vec![cap, (1, 2, sum - 4), (2, 4, different)]
}
