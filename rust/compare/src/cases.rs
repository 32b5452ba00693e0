//! Random bases, sound and damaged, each with questions about it.

use model::Base;

use crate::builder::BaseBuilder;
use crate::damage::{any_damage, crowd, empty_clause, field_by_field, random_bytes};
use crate::days::turn_days;
use crate::lively::{full_base, heavy_base, lively_base};
use crate::questions::*;
use crate::random::Random;
use crate::valid::{random_base, Size};

/// Lively bases, ten questions each.
pub fn lively_bases(seed: u64, bases: usize, mut attempt: impl FnMut(&[u8], &Asked)) {
    let mut random = Random::new(seed);
    for _ in 0..bases {
        let most_users = random.pick(&[2, 4, 8, 24]);
        let records = lively_base(&mut random, most_users);
        ask_often(&mut random, &records, &mut attempt);
    }
}

/// Bases of 2,460 bytes, ten questions each.
pub fn full_bases(seed: u64, bases: usize, mut attempt: impl FnMut(&[u8], &Asked)) {
    let mut random = Random::new(seed);
    for _ in 0..bases {
        let records = full_base(&mut random);
        ask_often(&mut random, &records, &mut attempt);
    }
}

/// Bases with sums of up to 240, ten questions each.
pub fn heavy_bases(seed: u64, bases: usize, mut attempt: impl FnMut(&[u8], &Asked)) {
    let mut random = Random::new(seed);
    for _ in 0..bases {
        let records = heavy_base(&mut random);
        ask_often(&mut random, &records, &mut attempt);
    }
}

/// Bases with any records that pass the check, ten questions each.
pub fn valid_bases(seed: u64, bases: usize, mut attempt: impl FnMut(&[u8], &Asked)) {
    let mut random = Random::new(seed);
    for _ in 0..bases {
        let size = random.pick(&[Size::Empty, Size::Small, Size::Any, Size::Full]);
        let records = random_base(&mut random, size);
        ask_often(&mut random, &records, &mut attempt);
    }
}

fn ask_often(random: &mut Random, records: &BaseBuilder, attempt: &mut impl FnMut(&[u8], &Asked)) {
    let bytes = records.bytes();
    let base = Base::read(&bytes).expect("the base passes");
    for _ in 0..10 {
        attempt(&bytes, &random_question(random, records, &base));
    }
}

/// Bases with few users, and every group of one or two entries: users and
/// roles up to one above those there.
pub fn every_short_group(seed: u64, bases: usize, mut attempt: impl FnMut(&[u8], &Asked)) {
    let mut random = Random::new(seed);
    for _ in 0..bases {
        let records = lively_base(&mut random, 4);
        let bytes = records.bytes();
        let entries = entries_and_beyond(&records);
        let permission = random.below(records.permissions.len()) as u32;
        let at = context_in_range(&mut random, &records);
        for first in &entries {
            attempt(&bytes, &Asked::new(permission, at, &[*first]));
            for second in &entries {
                attempt(&bytes, &Asked::new(permission, at, &[*first, *second]));
            }
        }
    }
}

fn entries_and_beyond(records: &BaseBuilder) -> Vec<[u8; 2]> {
    let users = 0..=records.users.len() as u8;
    users
        .flat_map(|user| (0..=records.roles).map(move |role| [user, role]))
        .collect()
}

/// Small bases with each field damaged in turn, with questions about the base
/// before.
pub fn single_fields(seed: u64, bases: usize, mut attempt: impl FnMut(&[u8], &Asked)) {
    let mut random = Random::new(seed);
    for _ in 0..bases {
        let records = random_base(&mut random, Size::Small);
        let image = records.image();
        let base = Base::read(&image.bytes).expect("the base passes");
        field_by_field(&image, |damaged| {
            attempt(damaged, &random_question(&mut random, &records, &base));
        });
    }
}

/// Damaged bases, with questions about the base before.
pub fn damaged_bases(seed: u64, bases: usize, mut attempt: impl FnMut(&[u8], &Asked)) {
    let mut random = Random::new(seed);
    for _ in 0..bases {
        let full = random.chance(6);
        let records = if full {
            full_base(&mut random)
        } else {
            lively_base(&mut random, 8)
        };
        let image = records.image();
        let base = Base::read(&image.bytes).expect("the base passes");
        for _ in 0..8 {
            let asked = random_question(&mut random, &records, &base);
            attempt(&any_damage(&mut random, &image), &asked);
        }
        for spoil in [crowd, empty_clause, turn_days] {
            let asked = random_question(&mut random, &records, &base);
            let mut records = records.clone();
            spoil(&mut random, &mut records);
            attempt(&records.bytes(), &asked);
        }
    }
}

/// Any bytes for a base and any for a group.
pub fn loose_bytes(seed: u64, cases: usize, mut attempt: impl FnMut(&[u8], &Asked)) {
    let mut random = Random::new(seed);
    let no_records = BaseBuilder::new(1);
    for _ in 0..cases {
        let base = random_bytes(&mut random);
        let asked = Asked {
            permission: any_permission(&mut random, 16),
            at: any_context(&mut random, &no_records),
            group: loose_group(&mut random),
        };
        attempt(&base, &asked);
    }
}
