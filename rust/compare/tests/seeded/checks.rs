//! The base check.

use compare::agreed_check;
use compare::builder::{BaseBuilder, Image};
use compare::damage::*;
use compare::days::turn_days;
use compare::random::Random;
use compare::valid::{random_base, Size};
use model::Reading;

use crate::seen::{Call, Seen};

pub fn compare(seen: &mut Seen) {
    sound_bases(seen);
    single_fields(seen);
    spoiled_bases(seen);
    loose_bytes(seen);
}

fn compare_base(seen: &mut Seen, base: &[u8]) -> u8 {
    let answer = agreed_check(base);
    seen.answer(Call::Check, answer);
    let by = |reading| model::check_as(reading, base);
    seen.dated
        .turned_alone(answer == 5 && by(Reading::DaysTurned) != 5);
    answer
}

fn sound_bases(seen: &mut Seen) {
    let mut random = Random::new(1);
    for size in [Size::Empty, Size::Small, Size::Any, Size::Full] {
        for _ in 0..2_000 {
            let base = random_base(&mut random, size).bytes();
            assert_eq!(compare_base(seen, &base), 0);
        }
    }
}

fn single_fields(seen: &mut Seen) {
    let mut random = Random::new(2);
    let sizes = [Size::Empty, Size::Full, Size::Any];
    let small = std::iter::repeat_n(Size::Small, 20);
    for size in sizes.into_iter().chain(small) {
        let image = random_base(&mut random, size).image();
        field_by_field(&image, |base| {
            compare_base(seen, base);
        });
    }
}

fn spoiled_bases(seen: &mut Seen) {
    let mut random = Random::new(3);
    let sizes = [Size::Empty, Size::Small, Size::Small, Size::Any, Size::Full];
    for _ in 0..2_000 {
        let size = random.pick(&sizes);
        let base = random_base(&mut random, size);
        spoil_records(&mut random, &base, seen);
        let image = base.image();
        for _ in 0..10 {
            spoil_bytes(&mut random, &image, seen);
        }
    }
}

/// A table at its limit or above, a clause without conditions, and days turned.
fn spoil_records(random: &mut Random, base: &BaseBuilder, seen: &mut Seen) {
    for spoil in [crowd, empty_clause, turn_days] {
        let mut base = base.clone();
        spoil(random, &mut base);
        compare_base(seen, &base.bytes());
    }
}

/// Two changed fields, flipped bits, small numbers, another length.
fn spoil_bytes(random: &mut Random, image: &Image, seen: &mut Seen) {
    let mut base = image.bytes.clone();
    change_field(random, &mut base, &image.fields);
    change_field(random, &mut base, &image.fields);
    compare_base(seen, &base);

    base.clone_from(&image.bytes);
    flip_bits(random, &mut base);
    compare_base(seen, &base);

    base.clone_from(&image.bytes);
    smear(random, &mut base);
    compare_base(seen, &base);

    base.clone_from(&image.bytes);
    resize(random, &mut base);
    compare_base(seen, &base);
}

fn loose_bytes(seen: &mut Seen) {
    let mut random = Random::new(4);
    for _ in 0..10_000 {
        compare_base(seen, &random_bytes(&mut random));
    }
}
