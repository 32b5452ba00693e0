//! The decision, on groups sound, damaged and of any bytes.

use compare::acting::most_records_down;
use compare::agreed_decision;
use compare::cases::*;
use compare::questions::Asked;
use model::Base;

use crate::seen::{Call, Seen};

pub fn compare(seen: &mut Seen) {
    let mut compare = |base: &[u8], asked: &Asked| {
        let answer = agreed_decision(base, asked);
        seen.answer(Call::Decide, answer);
        seen.dated
            .decided(base, asked.at.date, &asked.group, answer);
        if answer == 0 {
            let base = Base::read(base).expect("a refused base grants nothing");
            let records = most_records_down(&base, &asked.group);
            seen.granted(records.expect("whoever is granted may act"));
        }
    };
    sound_bases(16_000, &mut compare);
    full_bases(32, 2_000, &mut compare);
    heavy_bases(33, 2_000, &mut compare);
    valid_bases(34, 4_000, &mut compare);
    every_short_group(35, 200, &mut compare);
    damaged_bases(36, 5_000, &mut compare);
    single_fields(38, 6, &mut compare);
    loose_bytes(37, 20_000, &mut compare);
}

/// The first bases of the comparison, with their questions.
pub fn sound_bases(bases: usize, attempt: impl FnMut(&[u8], &Asked)) {
    lively_bases(31, bases, attempt);
}
