//! The register of statements by which one user trusts another (004, section 6.2).

use crate::base::Base;
use crate::fields::Fields;
use crate::refusal::{refuse_if, Refusal};

/// Bytes of a statement.
const STATEMENT: usize = 8;

/// The most bytes of a register.
const LONGEST: usize = 2_048;

/// A record: the issuer trusts the requester so much for the permission, from
/// the first day to the last.
#[derive(Clone, Debug, PartialEq, Eq)]
pub struct Statement {
    pub issuer: u8,
    pub requester: u8,
    pub permission: u8,
    pub trust: u8,
    pub first_day: u16,
    pub last_day: u16,
}

impl Statement {
    /// The statement, or nothing where it breaks its rules or names a user or
    /// permission that isn't there.
    fn read(mut fields: Fields, base: &Base) -> Option<Statement> {
        let statement = Statement {
            issuer: fields.byte(),
            requester: fields.byte(),
            permission: fields.byte(),
            trust: fields.byte(),
            first_day: fields.short(),
            last_day: fields.short(),
        };
        statement.passes(base).then_some(statement)
    }

    fn passes(&self, base: &Base) -> bool {
        let has_user = |user: u8| base.user(user.into()).is_some();
        let users_there = has_user(self.issuer) && has_user(self.requester);
        let permission_there = base.permission(self.permission.into()).is_some();
        let is_trust = (1..=5).contains(&self.trust);
        users_there && permission_there && is_trust && self.first_day <= self.last_day
    }
}

/// A register that 25 doesn't refuse for its base.
#[derive(Clone, Debug, Default, PartialEq, Eq)]
pub struct Register {
    pub statements: Vec<Statement>,
}

impl Register {
    /// The register in these bytes, or refusal 25.
    pub fn read(base: &Base, bytes: &[u8]) -> Result<Register, Refusal> {
        let records = bytes.chunks_exact(STATEMENT);
        let whole = records.remainder().is_empty();
        refuse_if(!whole || bytes.len() > LONGEST, Refusal::Register)?;
        let statements = records.map(|record| Statement::read(Fields::of(record), base));
        let statements: Option<Vec<Statement>> = statements.collect();
        Ok(Register {
            statements: statements.ok_or(Refusal::Register)?,
        })
    }
}

#[cfg(test)]
mod tests {
    use super::*;
    use crate::samples::{empty_base, small_shop};

    /// A statement of the small shop: user 2 trusts user 0.
    const SOUND: [u8; 8] = [2, 0, 0, 3, 10, 0, 20, 0];

    fn is_refused(bytes: &[u8]) -> bool {
        Register::read(&small_shop(), bytes) == Err(Refusal::Register)
    }

    /// Whether 25 refuses the statement with some of its bytes set.
    fn refused_with(changes: &[(usize, u8)]) -> bool {
        let mut record = SOUND;
        for &(place, value) in changes {
            record[place] = value;
        }
        is_refused(&record)
    }

    #[test]
    fn every_field_is_read_from_its_place() {
        let bytes = [[3, 1, 0, 5, 0xff, 0x01, 0x00, 0x02], SOUND].concat();
        let register = Register::read(&small_shop(), &bytes).expect("the register passes");
        let first = Statement {
            issuer: 3,
            requester: 1,
            permission: 0,
            trust: 5,
            first_day: 0x01ff,
            last_day: 0x0200,
        };
        assert_eq!(register.statements[0], first);
        assert_eq!(register.statements[1].issuer, 2);
        assert_eq!(register.statements[1].last_day, 20);
        assert_eq!(register.statements.len(), 2);
    }

    #[test]
    fn a_register_has_whole_records_in_at_most_2048_bytes() {
        let of_length = |length: usize| SOUND.into_iter().cycle().take(length).collect::<Vec<u8>>();
        for length in [0, 8, 16, 256, 2_040, 2_048] {
            assert!(!is_refused(&of_length(length)), "{length}");
        }
        for length in [1, 4, 7, 9, 15, 2_041, 2_047, 2_049, 2_052, 2_056, 65_536] {
            assert!(is_refused(&of_length(length)), "{length}");
        }
    }

    #[test]
    fn users_and_permission_are_there() {
        for (place, last) in [(0, 3), (1, 3), (2, 0)] {
            for value in 0..=255 {
                assert_eq!(refused_with(&[(place, value)]), value > last);
            }
        }
    }

    #[test]
    fn a_trust_is_1_to_5() {
        let passing = (0..=255).filter(|trust| !refused_with(&[(3, *trust)]));
        assert_eq!(passing.collect::<Vec<u8>>(), [1, 2, 3, 4, 5]);
    }

    #[test]
    fn a_first_day_is_not_above_the_last() {
        let refused = |first: u16, last: u16| {
            let [low, high] = first.to_le_bytes();
            let [last_low, last_high] = last.to_le_bytes();
            refused_with(&[(4, low), (5, high), (6, last_low), (7, last_high)])
        };
        for day in [0, 1, 255, 256, 32_768, 65_535] {
            assert!(!refused(day, day));
        }
        for (first, last) in [(0, 1), (255, 256), (0x00ff, 0x0100), (65_534, 65_535)] {
            assert!(!refused(first, last));
            assert!(refused(last, first));
        }
    }

    #[test]
    fn every_record_counts() {
        for place in 0..6 {
            let mut bytes = SOUND.repeat(6);
            bytes[8 * place + 3] = 6;
            assert!(is_refused(&bytes));
        }
    }

    #[test]
    fn who_issues_may_be_the_requester() {
        assert!(!refused_with(&[(0, 1), (1, 1)]));
    }

    #[test]
    fn without_users_or_permissions_a_register_is_empty() {
        let mut nobody = empty_base(1);
        assert!(Register::read(&nobody, &[]).is_ok());
        assert!(Register::read(&nobody, &[0; 8]).is_err());
        nobody.permissions = small_shop().permissions;
        assert!(Register::read(&nobody, &[0, 0, 0, 1, 0, 0, 0, 0]).is_err());
        nobody.users = small_shop().users;
        assert!(Register::read(&nobody, &[0, 0, 0, 1, 0, 0, 0, 0]).is_ok());
        nobody.permissions.clear();
        assert!(Register::read(&nobody, &[0, 0, 0, 1, 0, 0, 0, 0]).is_err());
    }
}
