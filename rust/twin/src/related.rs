//! Related context numbers: some one context satisfies both.

use crate::operators::is_met;

/// Context numbers 0 to 15, and 255.
pub const SLOTS: usize = 17;

/// The place of a context number.
pub fn slot(number: u8) -> usize {
    usize::from(number.min(16))
}

/// How many values a context's parameter has: minute, day, zone.
const RANGES: [u32; 3] = [1440, 7, 256];

/// Parameter, operator and value in 2 bytes.
type Condition = [u8; 4];

/// For each of the named slots the set of those from it on that it is related
/// to.
pub fn relations(contexts: &[[u8; 16]], names: u32) -> [u32; SLOTS] {
    let named = |slot: &u8| names >> slot & 1 == 1;
    let mut rows = [0; SLOTS];
    for (s, row) in (0..SLOTS as u8).zip(&mut rows).filter(|(s, _)| named(s)) {
        for t in (s..SLOTS as u8).filter(named) {
            *row |= u32::from(are_related(contexts, number(s), number(t))) << t;
        }
    }
    rows
}

fn number(slot: u8) -> u8 {
    if slot == 16 {
        255
    } else {
        slot
    }
}

/// Some clause of each of the two can hold together.
fn are_related(contexts: &[[u8; 16]], x: u8, y: u8) -> bool {
    clauses_of(contexts, x)
        .any(|first| clauses_of(contexts, y).any(|second| are_compatible(first, second)))
}

/// The conditions of each of the number's clauses. 255 has one clause without
/// conditions.
fn clauses_of(contexts: &[[u8; 16]], number: u8) -> impl Iterator<Item = &[Condition]> {
    let own = contexts.iter().filter(move |clause| clause[0] == number);
    let free: Option<&[Condition]> = (number == 255).then_some(&[]);
    own.map(conditions).chain(free)
}

fn conditions(clause: &[u8; 16]) -> &[Condition] {
    let (slots, _) = clause[2..14].as_chunks();
    &slots[..usize::from(clause[1]).min(3)]
}

fn are_compatible(first: &[Condition], second: &[Condition]) -> bool {
    let mut parameters = (0..).zip(RANGES);
    parameters.all(|(parameter, range)| can_meet(first, second, parameter, range))
}

/// Some value of the parameter meets the conditions of both clauses: if one
/// does, then 0, or a condition's value, or one more.
fn can_meet(first: &[Condition], second: &[Condition], parameter: u8, range: u32) -> bool {
    let fits = |v| v < range && meets(first, parameter, v) && meets(second, parameter, v);
    let value_fits = |condition: &Condition| {
        let value = value_of(condition);
        condition[0] == parameter && (fits(value) || fits(value + 1))
    };
    fits(0) || first.iter().any(value_fits) || second.iter().any(value_fits)
}

/// The value meets the conditions on the parameter.
fn meets(conditions: &[Condition], parameter: u8, v: u32) -> bool {
    let met = |condition: &Condition| is_met(condition[1], v, value_of(condition));
    conditions
        .iter()
        .all(|condition| condition[0] != parameter || met(condition))
}

fn value_of(condition: &Condition) -> u32 {
    u16::from_le_bytes([condition[2], condition[3]]).into()
}
