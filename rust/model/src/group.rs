//! Groups, their attributes and the conditions on them.

use crate::reading::{mixed, Reading};
use crate::records::{GroupClause, GroupCondition, Measure};
use crate::roles::{Role, RoleSet};

/// The most entries of a group.
pub const MOST_ENTRIES: usize = 6;

/// An entry of a group: a user and the role acted in.
#[derive(Clone, Copy, Debug, PartialEq, Eq)]
pub struct Entry {
    pub user: u8,
    pub role: Role,
}

impl Entry {
    pub fn bytes(self) -> [u8; 2] {
        [self.user, self.role]
    }
}

/// The entries in any bytes, however many. A last byte alone is none.
pub fn pairs(bytes: &[u8]) -> impl Iterator<Item = Entry> + '_ {
    bytes.chunks_exact(2).map(|pair| Entry {
        user: pair[0],
        role: pair[1],
    })
}

/// The entries of a group, or nothing if its length is 0, odd or too large.
pub fn entries(group: &[u8]) -> Option<Vec<Entry>> {
    let entries: Vec<Entry> = pairs(group).collect();
    let whole = group.len() == 2 * entries.len();
    (whole && (1..=MOST_ENTRIES).contains(&entries.len())).then_some(entries)
}

/// What the conditions on a group read: col_num, total_weight and role_set.
#[derive(Clone, Copy, Debug, Default, PartialEq, Eq, Hash)]
pub struct Attributes {
    pub col_num: usize,
    pub total_weight: u32,
    pub role_set: RoleSet,
}

impl Attributes {
    /// The attributes with one more entry, whose role has this weight.
    pub fn joined_by(self, role: Role, weight: u32) -> Attributes {
        Attributes {
            col_num: self.col_num + 1,
            total_weight: self.total_weight + weight,
            role_set: self.role_set.with(role),
        }
    }

    /// The number of different roles acted in.
    fn role_num(self, reading: Reading) -> usize {
        match reading {
            Reading::EntriesAsRoles => self.col_num,
            _ => self.role_set.roles().count(),
        }
    }

    fn measure(self, measure: Measure, reading: Reading) -> u32 {
        match measure {
            Measure::ColNum => self.col_num as u32,
            Measure::TotalWeight => self.total_weight,
            Measure::RoleNum => self.role_num(reading) as u32,
        }
    }

    fn meets(self, condition: &GroupCondition, reading: Reading) -> bool {
        match condition {
            GroupCondition::Contains(roles) => self.role_set.contains(*roles),
            GroupCondition::Compare(measure, comparison, value) => {
                comparison.holds(self.measure(*measure, reading), u32::from(*value))
            }
        }
    }

    /// Whether all conditions of one of the clauses are met.
    pub fn pass<'a>(
        self,
        mut clauses: impl Iterator<Item = &'a GroupClause>,
        reading: Reading,
    ) -> bool {
        let meets = |condition: &GroupCondition| self.meets(condition, reading);
        match reading {
            Reading::MixedGroupClauses => {
                mixed(clauses.map(|clause| clause.conditions.iter().map(meets).collect()))
            }
            _ => clauses.any(|clause| clause.conditions.iter().all(meets)),
        }
    }
}

#[cfg(test)]
mod tests {
    use super::*;
    use crate::operator::Comparison;
    use crate::samples::group_clause;

    /// Three entries in two roles: 0, 2 and 2.
    fn three() -> Attributes {
        let nobody = Attributes::default();
        nobody.joined_by(2, 1).joined_by(0, 5).joined_by(2, 1)
    }

    fn passes(clauses: &[&[GroupCondition]], reading: Reading) -> bool {
        let clauses: Vec<GroupClause> = clauses.iter().map(|c| group_clause(c)).collect();
        three().pass(clauses.iter(), reading)
    }

    fn equal(measure: Measure, value: u8) -> GroupCondition {
        GroupCondition::Compare(measure, Comparison::Equal, value)
    }

    fn contains(bits: u8) -> GroupCondition {
        GroupCondition::Contains(RoleSet::from_bits(bits, 3).unwrap())
    }

    #[test]
    fn a_group_has_one_to_six_entries_of_two_bytes() {
        let lengths = (0..40).filter(|&length| entries(&vec![0; length]).is_some());
        assert_eq!(lengths.collect::<Vec<_>>(), [2, 4, 6, 8, 10, 12]);
    }

    #[test]
    fn an_entry_is_user_and_role() {
        let read = entries(&[7, 1, 9, 0]).unwrap();
        assert_eq!(read[0], Entry { user: 7, role: 1 });
        assert_eq!(read[1].bytes(), [9, 0]);
    }

    #[test]
    fn any_bytes_have_entries() {
        let count = |length| pairs(&vec![9; length]).count();
        assert_eq!(
            [0, 1, 2, 3, 13, 14, 255].map(count),
            [0, 0, 1, 1, 6, 7, 127]
        );
    }

    #[test]
    fn the_attributes_are_entries_sum_and_different_roles() {
        assert!(passes(&[&[equal(Measure::ColNum, 3)]], Reading::Paper));
        assert!(passes(&[&[equal(Measure::TotalWeight, 7)]], Reading::Paper));
        assert!(passes(&[&[equal(Measure::RoleNum, 2)]], Reading::Paper));
        assert!(!passes(&[&[equal(Measure::RoleNum, 3)]], Reading::Paper));
    }

    #[test]
    fn a_wrong_reading_counts_entries_as_roles() {
        let wrong = Reading::EntriesAsRoles;
        assert!(passes(&[&[equal(Measure::RoleNum, 3)]], wrong));
        assert!(!passes(&[&[equal(Measure::RoleNum, 2)]], wrong));
    }

    #[test]
    fn the_set_contains_every_part_of_it_and_the_empty_set() {
        for (bits, contained) in [(0b000, true), (0b100, true), (0b101, true)] {
            assert_eq!(passes(&[&[contains(bits)]], Reading::Paper), contained);
        }
        assert!(!passes(&[&[contains(0b010)]], Reading::Paper));
        assert!(!passes(&[&[contains(0b111)]], Reading::Paper));
    }

    #[test]
    fn without_a_clause_nothing_passes() {
        assert!(!passes(&[], Reading::Paper));
        assert!(!passes(&[], Reading::MixedGroupClauses));
    }

    #[test]
    fn all_conditions_of_one_clause_are_met() {
        let (met, unmet) = (equal(Measure::ColNum, 3), equal(Measure::ColNum, 4));
        let half = [met.clone(), unmet.clone()];
        assert!(!passes(&[&half, &half], Reading::Paper));
        assert!(passes(&[&half, &half], Reading::MixedGroupClauses));
        assert!(passes(&[&[unmet], &[met]], Reading::Paper));
    }
}
