//! Where the tables of a base lie: refusals 1 to 3.

use crate::fields::Fields;
use crate::reading::Reading;
use crate::refusal::Refusal;
use crate::roles::{Role, MOST_ROLES};

/// The tables, in their order in the base.
#[derive(Clone, Copy)]
pub enum Table {
    Hierarchy,
    Users,
    Permissions,
    GroupClauses,
    ContextClauses,
    Policies,
    Exclusions,
}

/// Bytes a record and at most so many records, in table order.
const SHAPES: [(usize, usize); 7] = [
    (2, 28),
    (8, 24),
    (2, 16),
    (16, 64),
    (16, 32),
    (8, 64),
    (3, 32),
];

const LETTERS: [u8; 4] = *b"LCAQ";

/// Those of bases whose users have no days.
const OLD_LETTERS: [u8; 4] = *b"LCAP";

const TRAILER_BYTES: usize = 36;

/// The length of a base with every table full.
fn longest() -> usize {
    let tables: usize = SHAPES.iter().map(|(bytes, most)| bytes * most).sum();
    tables + TRAILER_BYTES
}

/// The trailer's fields as they stand.
struct Trailer {
    /// Offset and record count of each table.
    places: [(u16, u16); 7],
    roles: u8,
    zeros: [u8; 3],
    letters: [u8; 4],
}

impl Trailer {
    fn read(bytes: &[u8]) -> Trailer {
        let mut fields = Fields::of(bytes);
        Trailer {
            places: std::array::from_fn(|_| (fields.short(), fields.short())),
            roles: fields.byte(),
            zeros: fields.bytes(),
            letters: fields.bytes(),
        }
    }

    fn letters_fit(&self, reading: Reading) -> bool {
        let old_allowed = reading == Reading::OldLetters;
        self.letters == LETTERS || (old_allowed && self.letters == OLD_LETTERS)
    }

    /// Whether the tables fill `room` bytes in order, none above its limit.
    fn fills(&self, room: usize) -> bool {
        let mut end = 0;
        for ((offset, count), (bytes, most)) in self.places.iter().zip(SHAPES) {
            let count = usize::from(*count);
            if usize::from(*offset) != end || count > most {
                return false;
            }
            end += count * bytes;
        }
        end == room
    }
}

/// A base whose trailer holds: the number of roles and the seven tables.
pub struct Layout<'a> {
    pub roles: u8,
    /// How the records are to be read.
    pub reading: Reading,
    tables: [&'a [u8]; 7],
}

impl<'a> Layout<'a> {
    pub fn read(reading: Reading, base: &'a [u8]) -> Result<Layout<'a>, Refusal> {
        if !(TRAILER_BYTES..=longest()).contains(&base.len()) {
            return Err(Refusal::Length);
        }
        let (tables, trailer) = base.split_at(base.len() - TRAILER_BYTES);
        let trailer = Trailer::read(trailer);
        if !trailer.letters_fit(reading) {
            return Err(Refusal::Letters);
        }
        let roles_fit = (1..=MOST_ROLES).contains(&trailer.roles);
        if !roles_fit || trailer.zeros != [0; 3] || !trailer.fills(tables.len()) {
            return Err(Refusal::Trailer);
        }
        Ok(Layout::cut(reading, tables, &trailer))
    }

    /// Cuts the bytes before the trailer into tables.
    fn cut(reading: Reading, mut bytes: &'a [u8], trailer: &Trailer) -> Layout<'a> {
        let tables = std::array::from_fn(|table| {
            let count = usize::from(trailer.places[table].1);
            let (records, rest) = bytes.split_at(count * SHAPES[table].0);
            bytes = rest;
            records
        });
        Layout {
            roles: trailer.roles,
            reading,
            tables,
        }
    }

    pub fn records(&self, table: Table) -> impl ExactSizeIterator<Item = Fields<'a>> {
        let table = table as usize;
        self.tables[table]
            .chunks_exact(SHAPES[table].0)
            .map(Fields::of)
    }

    pub fn has_role(&self, role: Role) -> bool {
        role < self.roles
    }

    pub fn has_permission(&self, permission: u8) -> bool {
        usize::from(permission) < self.records(Table::Permissions).len()
    }
}

#[cfg(test)]
mod tests {
    use super::*;

    #[test]
    fn the_longest_base_has_2460_bytes() {
        assert_eq!(longest(), 2460);
    }

    fn trailer(counts: [u16; 7], offsets: [u16; 7]) -> Trailer {
        Trailer {
            places: std::array::from_fn(|table| (offsets[table], counts[table])),
            roles: 1,
            zeros: [0; 3],
            letters: LETTERS,
        }
    }

    #[test]
    fn an_empty_table_lies_at_the_running_offset() {
        let counts = [0, 1, 0, 0, 0, 0, 0];
        assert!(trailer(counts, [0, 0, 8, 8, 8, 8, 8]).fills(8));
        assert!(!trailer(counts, [0, 0, 0, 8, 8, 8, 8]).fills(8));
        assert!(!trailer(counts, [0, 0, 8, 8, 8, 8, 0]).fills(8));
    }

    #[test]
    fn the_tables_end_where_the_trailer_starts() {
        let one_user = trailer([0, 1, 0, 0, 0, 0, 0], [0, 0, 8, 8, 8, 8, 8]);
        assert!(!one_user.fills(7));
        assert!(one_user.fills(8));
        assert!(!one_user.fills(9));
    }

    #[test]
    fn the_largest_count_is_above_its_limit() {
        let counts = [u16::MAX, 0, 0, 0, 0, 0, 0];
        assert!(!trailer(counts, [0; 7]).fills(0));
    }
}
