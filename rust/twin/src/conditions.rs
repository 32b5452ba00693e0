//! The condition on a group.

use crate::operators::is_met;

/// A K record.
pub type Clause = [u8; 16];

/// Attribute, operator and value of each of the clause's conditions.
pub fn conditions(clause: &Clause) -> impl Iterator<Item = &[u8; 3]> {
    let (slots, _) = clause[2..14].as_chunks();
    slots.iter().take(clause[1].into())
}

/// Whether one of the clauses holds for n entries, a sum and a set of roles.
pub fn holds<'a>(clauses: impl IntoIterator<Item = &'a Clause>, n: u32, sum: u32, set: u8) -> bool {
    let attributes = [n, sum, set.count_ones(), set.into()];
    let mut clauses = clauses.into_iter();
    clauses.any(|clause| clause_holds(clause, attributes))
}

/// Whether the clause's conditions hold, as many as it has.
#[inline(always)]
fn clause_holds(clause: &Clause, attributes: [u32; 4]) -> bool {
    conditions(clause).all(|&[attribute, operator, value]| {
        let x = attributes[usize::from(attribute & 3)];
        is_met(operator, x, value.into())
    })
}
