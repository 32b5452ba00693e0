//! Who vouches for a requester: by one statement that fits in every point.

use crate::base::Base;
use crate::reading::Reading;
use crate::refusal::{refuse_if, Refusal};
use crate::register::{Register, Statement};

/// A register and the least trust that counts: refusals 25 and 27 don't apply.
#[derive(Clone, Debug, Default, PartialEq, Eq)]
pub struct Vouching {
    register: Register,
    threshold: u32,
    reading: Reading,
}

impl Vouching {
    /// The register in these bytes with this threshold, or refusal 25 or 27.
    pub fn lent(
        reading: Reading,
        base: &Base,
        register: &[u8],
        threshold: u32,
    ) -> Result<Vouching, Refusal> {
        let too_low_or_high = !(1..=5).contains(&threshold);
        if reading == Reading::ThresholdFirst {
            refuse_if(too_low_or_high, Refusal::Threshold)?;
        }
        let register = Register::read(base, register)?;
        refuse_if(too_low_or_high, Refusal::Threshold)?;
        Ok(Vouching {
            register,
            threshold,
            reading,
        })
    }

    /// Whether a user vouches for the requester: a single statement is from the
    /// one to the other, for the permission, of enough trust and valid on the date.
    pub fn vouches(&self, user: u8, requester: u8, permission: u8, date: u32) -> bool {
        let statements = self.register.statements.iter();
        let mut between = statements
            .filter(|one| self.is_between(one, user, requester) && self.is_for(one, permission));
        let suffices = |one: &Statement| self.suffices(one);
        let is_valid = |one: &Statement| self.is_valid(one, date);
        match self.reading {
            Reading::StatementsJoined => between.clone().any(suffices) && between.any(is_valid),
            _ => between.any(|one| suffices(one) && is_valid(one)),
        }
    }

    fn is_between(&self, statement: &Statement, user: u8, requester: u8) -> bool {
        let (from, to) = (statement.issuer, statement.requester);
        let turned = self.reading == Reading::EitherDirection;
        (from, to) == (user, requester) || (turned && (to, from) == (user, requester))
    }

    fn is_for(&self, statement: &Statement, permission: u8) -> bool {
        statement.permission == permission || self.reading == Reading::EveryPermission
    }

    /// Whether the trust is at least the threshold.
    fn suffices(&self, statement: &Statement) -> bool {
        let trust = u32::from(statement.trust);
        match self.reading {
            Reading::TrustAbove => trust > self.threshold,
            _ => trust >= self.threshold,
        }
    }

    /// Whether the statement's days include the date: the first and the last do.
    fn is_valid(&self, statement: &Statement, date: u32) -> bool {
        let first = u32::from(statement.first_day);
        let last = u32::from(statement.last_day);
        match self.reading {
            Reading::FirstDayOfStatement => first < date && date <= last,
            Reading::LastDayOfStatement => first <= date && date < last,
            _ => first <= date && date <= last,
        }
    }
}

#[cfg(test)]
mod tests {
    use super::*;
    use crate::samples::{small_shop, statement, statement_bytes};

    /// Whether user 2 of the small shop vouches for user 0 on date 300, for
    /// permission 0 at threshold 3.
    fn vouches(reading: Reading, statements: &[Statement]) -> bool {
        let mut shop = small_shop();
        shop.permissions = vec![shop.permissions[0].clone(); 2];
        let register = statement_bytes(statements);
        let vouching = Vouching::lent(reading, &shop, &register, 3).expect("nothing is refused");
        vouching.vouches(2, 0, 0, 300)
    }

    fn with_days(first_day: u16, last_day: u16, trust: u8) -> Statement {
        Statement {
            first_day,
            last_day,
            ..statement(2, 0, trust)
        }
    }

    /// Expects this answer, and the other by these wrong readings alone.
    fn expect(statements: &[Statement], answer: bool, wrong: &[Reading]) {
        assert_eq!(vouches(Reading::Paper, statements), answer);
        for reading in Reading::WRONG_OF_VOUCHING {
            let differs = vouches(reading, statements) != answer;
            assert_eq!(differs, wrong.contains(&reading), "{reading:?}");
        }
    }

    #[test]
    fn nobody_vouches_in_an_empty_register() {
        expect(&[], false, &[]);
    }

    #[test]
    fn the_trust_is_at_least_the_threshold() {
        for (trust, answer) in [(1, false), (2, false), (4, true), (5, true)] {
            expect(&[statement(2, 0, trust)], answer, &[]);
        }
        expect(&[statement(2, 0, 3)], true, &[Reading::TrustAbove]);
    }

    #[test]
    fn both_days_are_included() {
        for (first, last) in [(299, 301), (0, 65_535)] {
            expect(&[with_days(first, last, 5)], true, &[]);
        }
        for (first, last) in [(0, 299), (301, 65_535), (0, 0), (44, 44)] {
            expect(&[with_days(first, last, 5)], false, &[]);
        }
        let [first, last] = [Reading::FirstDayOfStatement, Reading::LastDayOfStatement];
        expect(&[with_days(300, 301, 5)], true, &[first]);
        expect(&[with_days(299, 300, 5)], true, &[last]);
        expect(&[with_days(300, 300, 5)], true, &[first, last]);
    }

    #[test]
    fn the_issuer_vouches_for_the_requester_and_not_the_other_way() {
        expect(&[statement(0, 2, 5)], false, &[Reading::EitherDirection]);
        for (issuer, requester) in [(2, 1), (1, 0), (2, 2), (0, 0), (3, 0), (2, 3)] {
            expect(&[statement(issuer, requester, 5)], false, &[]);
        }
    }

    #[test]
    fn a_statement_is_for_one_permission() {
        let for_another = Statement {
            permission: 1,
            ..statement(2, 0, 5)
        };
        expect(&[for_another], false, &[Reading::EveryPermission]);
    }

    #[test]
    fn one_statement_fits_in_every_point() {
        let joined = [Reading::StatementsJoined];
        expect(
            &[with_days(0, 299, 5), with_days(0, 300, 2)],
            false,
            &joined,
        );
        expect(
            &[with_days(300, 301, 1), with_days(301, 301, 5)],
            false,
            &joined,
        );
        let two = [with_days(0, 299, 5), statement(2, 0, 4)];
        expect(&two, true, &[]);
        let apart = [with_days(0, 299, 5), statement(3, 0, 5), statement(0, 2, 5)];
        expect(&apart, false, &[Reading::EitherDirection]);
    }

    #[test]
    fn the_statements_stand_in_any_order() {
        let mut statements = vec![statement(1, 0, 5); 5];
        for place in 0..5 {
            statements[place] = statement(2, 0, 3);
            expect(&statements, true, &[Reading::TrustAbove]);
            statements[place] = statement(1, 0, 5);
        }
    }

    /// The number that 25 or 27 refuses with.
    fn refused(reading: Reading, register: &[u8], threshold: u32) -> Option<u8> {
        let lent = Vouching::lent(reading, &small_shop(), register, threshold);
        lent.err().map(Refusal::number)
    }

    #[test]
    fn a_threshold_is_1_to_5_and_not_cut() {
        for threshold in [0, 6, 255, 256, 257, 261, 65_536, 65_537, u32::MAX] {
            assert_eq!(refused(Reading::Paper, &[], threshold), Some(27));
        }
        for threshold in 1..=5 {
            assert_eq!(refused(Reading::Paper, &[], threshold), None);
        }
    }

    #[test]
    fn a_register_is_refused_before_the_threshold() {
        for register in [&[0; 7][..], &[9; 8], &[0; 2_056]] {
            assert_eq!(refused(Reading::Paper, register, 0), Some(25));
            assert_eq!(refused(Reading::ThresholdFirst, register, 0), Some(27));
            assert_eq!(refused(Reading::ThresholdFirst, register, 3), Some(25));
        }
    }
}
