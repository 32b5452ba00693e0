//! Ways to spoil the bytes of a base.

use std::ops::Range;

use crate::builder::*;
use crate::random::Random;

/// Values of a byte at and around the rules' limits.
const BYTES: [u8; 22] = [
    0, 1, 2, 3, 4, 5, 6, 7, 8, 9, 15, 16, 17, 24, 28, 32, 64, 65, 127, 128, 254, 255,
];

/// The same for numbers of 2 bytes.
const SHORTS: [u16; 18] = [
    0, 1, 3, 4, 6, 7, 16, 29, 36, 255, 256, 512, 1439, 1440, 2424, 2460, 32768, 65535,
];

/// The same for parameters: codes, products, squares and other primes.
const LONGS: [u32; 24] = [
    0,
    1,
    2,
    3,
    5,
    6,
    7,
    9,
    11,
    13,
    15,
    17,
    19,
    23,
    25,
    29,
    105,
    315,
    1155,
    4_849_845,
    111_546_435,
    334_639_305,
    3_486_784_401,
    u32::MAX,
];

/// Values to put in place of a field: its neighbours and all limits.
fn other_values(field: &[u8]) -> Vec<Vec<u8>> {
    let mut number = [0; 4];
    number[..field.len()].copy_from_slice(field);
    let number = u32::from_le_bytes(number);
    let near = [
        number.wrapping_add(1),
        number.wrapping_sub(1),
        number.wrapping_mul(3),
    ];
    let limits: Vec<u32> = match field.len() {
        1 => BYTES.map(u32::from).to_vec(),
        2 => SHORTS.map(u32::from).to_vec(),
        _ => LONGS.to_vec(),
    };
    let values = near.into_iter().chain(limits);
    values
        .map(|value| value.to_le_bytes()[..field.len()].to_vec())
        .collect()
}

/// Tries every field with every other value, one field at a time.
pub fn field_by_field(image: &Image, mut attempt: impl FnMut(&[u8])) {
    let mut bytes = image.bytes.clone();
    for field in &image.fields {
        let old = bytes[field.clone()].to_vec();
        for value in other_values(&old) {
            bytes[field.clone()].copy_from_slice(&value);
            attempt(&bytes);
        }
        bytes[field.clone()].copy_from_slice(&old);
    }
}

/// Gives one random field another value.
pub fn change_field(random: &mut Random, bytes: &mut [u8], fields: &[Range<usize>]) {
    let field = &mut bytes[fields[random.below(fields.len())].clone()];
    let values = other_values(field);
    field.copy_from_slice(&values[random.below(values.len())]);
}

/// Flips one to three random bits.
pub fn flip_bits(random: &mut Random, bytes: &mut [u8]) {
    for _ in 0..random.between(1, 3) {
        let place = random.below(bytes.len());
        bytes[place] ^= 1 << random.below(8);
    }
}

/// Fills a random part before the trailer with small numbers.
pub fn smear(random: &mut Random, bytes: &mut [u8]) {
    let end = bytes.len() - 36;
    let from = random.below(end + 1);
    let to = from + random.below(end - from + 1);
    for byte in &mut bytes[from..to] {
        *byte = random.between(0, 8);
    }
}

/// The bytes with a changed field or two, flipped bits, small numbers or
/// another length.
pub fn any_damage(random: &mut Random, image: &Image) -> Vec<u8> {
    let mut bytes = image.bytes.clone();
    match random.below(6) {
        0 | 1 => change_field(random, &mut bytes, &image.fields),
        2 => {
            change_field(random, &mut bytes, &image.fields);
            change_field(random, &mut bytes, &image.fields);
        }
        3 => flip_bits(random, &mut bytes),
        4 => smear(random, &mut bytes),
        _ => resize(random, &mut bytes),
    }
    bytes
}

/// Repeats a record of one table up to its limit or one above.
pub fn crowd(random: &mut Random, base: &mut BaseBuilder) {
    let table = random.below(7);
    let count = LIMITS[table] + random.below(2);
    match table {
        0 => repeat_first(&mut base.hierarchy, count),
        1 => repeat_first(&mut base.users, count),
        2 => repeat_first(&mut base.permissions, count),
        3 => repeat_first(&mut base.group_clauses, count),
        4 => repeat_first(&mut base.context_clauses, count),
        5 => repeat_first(&mut base.policies, count),
        _ => repeat_first(&mut base.exclusions, count),
    }
}

fn repeat_first<T: Clone>(records: &mut Vec<T>, count: usize) {
    if let Some(first) = records.first().cloned() {
        records.resize(count, first);
    }
}

/// Takes the conditions out of the last group clause or context clause.
pub fn empty_clause(random: &mut Random, base: &mut BaseBuilder) {
    if random.chance(2) {
        if let Some(clause) = base.group_clauses.last_mut() {
            *clause = GroupClause::new(clause.permission, &[]);
        }
    } else if let Some(clause) = base.context_clauses.last_mut() {
        *clause = ContextClause::new(clause.context, &[]);
    }
}

/// Takes out or puts in a few bytes, at either end or somewhere between.
pub fn resize(random: &mut Random, bytes: &mut Vec<u8>) {
    let inside = random.below(bytes.len() + 1);
    let place = random.pick(&[0, inside, bytes.len()]);
    let few = random.between(1, 40).into();
    if random.chance(2) {
        let value = random.pick(&[0, 1, 255]);
        bytes.splice(place..place, vec![value; few]);
    } else {
        let end = bytes.len().min(place + few);
        bytes.drain(end.saturating_sub(few)..end);
    }
}

/// Bytes of any length and content; most end in the right letters.
pub fn random_bytes(random: &mut Random) -> Vec<u8> {
    let longest = random.pick(&[40, 200, 2500]);
    let length = random.below(longest + 1);
    let mut bytes: Vec<u8> = (0..length).map(|_| random.byte()).collect();
    if !random.chance(4) {
        bytes.extend(LETTERS);
    }
    bytes
}
