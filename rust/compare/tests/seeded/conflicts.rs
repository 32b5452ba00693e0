//! The conflict list, with buffers that are too short, just long enough and
//! longer.

use compare::agreed_conflicts;
use compare::builder::BaseBuilder;
use compare::clashing::clashing_base;
use compare::damage::*;
use compare::days::{turn_days, with_all_days};
use compare::lent::Lent;
use compare::lively::{full_base, lively_base};
use compare::random::Random;
use compare::valid::{random_base, Size};

use crate::seen::{Call, Seen};

pub fn compare(seen: &mut Seen) {
    sound_bases(12_000, |random, base| compare_base(seen, random, base));
    damaged_bases(seen);
    single_fields(seen);
    loose_bytes(seen);
}

/// Compares a base with an exact buffer and one of another length.
fn compare_base(seen: &mut Seen, random: &mut Random, base: &[u8]) {
    let whole = 3 * release::answers::conflicts(base, &mut []).count as usize;
    let less = random.below(whole.max(1));
    let few = random.below(40);
    let more = whole + random.pick(&[few, few, few, 8_400]);
    let other = random.pick(&[0, less, whole.saturating_sub(1), whole + 1, more, more]);
    compare_at(seen, random, base, whole);
    compare_at(seen, random, base, other);
}

fn compare_at(seen: &mut Seen, random: &mut Random, base: &[u8], length: usize) {
    let mut lent = Lent::noisy(random, length);
    let answer = agreed_conflicts(base, &mut lent);
    seen.answer(Call::Conflicts, answer.refusal);
    if answer.refusal == 0 {
        let list = &lent.buffer()[..3 * answer.count as usize];
        seen.conflicts(base, list);
        expect_without_days(seen, base, list);
    }
}

/// Users' days change no list.
fn expect_without_days(seen: &mut Seen, base: &[u8], list: &[u8]) {
    let with_all = with_all_days(base);
    if with_all != base {
        let mut again = vec![0; list.len()];
        let answer = release::answers::conflicts(&with_all, &mut again);
        assert_eq!((answer.refusal, &again[..]), (0, list), "base {base:?}");
        seen.dated.list_with_days(!list.is_empty());
    }
}

/// A small base, one of any size, a lively, a clashing or a full one.
fn sound_base(random: &mut Random) -> BaseBuilder {
    match random.below(12) {
        0 => random_base(random, Size::Empty),
        1 | 2 => random_base(random, Size::Small),
        3 => random_base(random, Size::Any),
        4 => random_base(random, Size::Full),
        5 => full_base(random),
        6 | 7 => lively_base(random, 24),
        _ => clashing_base(random),
    }
}

/// The first bases of the comparison.
pub fn sound_bases(bases: usize, mut attempt: impl FnMut(&mut Random, &[u8])) {
    let mut drawn = Random::new(41);
    let mut random = Random::new(44);
    for _ in 0..bases {
        let base = sound_base(&mut drawn).bytes();
        assert_eq!(model::check(&base), 0);
        attempt(&mut random, &base);
    }
}

/// Changed bytes, a table at its limit or above, a clause without conditions,
/// days turned.
fn damaged_bases(seen: &mut Seen) {
    let mut random = Random::new(42);
    for _ in 0..2_000 {
        let records = sound_base(&mut random);
        let image = records.image();
        for _ in 0..4 {
            let damaged = any_damage(&mut random, &image);
            compare_base(seen, &mut random, &damaged);
        }
        for spoil in [crowd, empty_clause, turn_days] {
            let mut records = records.clone();
            spoil(&mut random, &mut records);
            compare_base(seen, &mut random, &records.bytes());
        }
    }
}

fn single_fields(seen: &mut Seen) {
    let mut random = Random::new(45);
    for _ in 0..6 {
        let image = random_base(&mut random, Size::Small).image();
        field_by_field(&image, |base| compare_base(seen, &mut random, base));
    }
}

fn loose_bytes(seen: &mut Seen) {
    let mut random = Random::new(43);
    for _ in 0..4_000 {
        let base = random_bytes(&mut random);
        compare_base(seen, &mut random, &base);
    }
}
