//! Why a user vouches for a requester, or doesn't.

use crate::trust::Statement;

/// What it is asked about: whether a user vouches for a requester.
#[derive(Clone, Copy, Debug)]
pub struct Link {
    pub user: u8,
    pub requester: u8,
    pub permission: u8,
    pub date: u32,
    pub threshold: u32,
}

#[derive(Clone, Copy, Debug, PartialEq, Eq)]
pub enum Way {
    /// A statement fits, of a trust that is the threshold, or above it.
    AtThreshold,
    AboveThreshold,
    /// One fits on its first day, which isn't the last, or on the last, which isn't
    /// the first, or on the only one.
    FirstDay,
    LastDay,
    OnlyDay,
    /// One fits behind another between the two that doesn't.
    BehindUnfit,
    /// None fits, and none is from the user to the requester.
    NoStatement,
    /// None fits, but one would if it weren't from the requester to the user.
    Turned,
    /// None fits, but one would if it were for the permission.
    OtherPermission,
    /// None fits, but one would if it were to the requester.
    OtherRequester,
    /// None fits, but one would with more trust: one more, or more than that.
    OneTooLow,
    TooLow,
    /// None fits, but one would on the day behind, or on the day before.
    DayBefore,
    DayBehind,
    /// None fits, but of two between them for the permission one has the trust and
    /// the other the days.
    OnlyTogether,
}

impl Way {
    pub const VOUCHED: [(Way, &str); 6] = [
        (Way::AtThreshold, "a trust at the threshold"),
        (Way::AboveThreshold, "a trust above the threshold"),
        (Way::FirstDay, "on a statement's first day"),
        (Way::LastDay, "on a statement's last day"),
        (Way::OnlyDay, "on a statement's only day"),
        (Way::BehindUnfit, "behind a statement that doesn't fit"),
    ];

    pub const NOT_VOUCHED: [(Way, &str); 9] = [
        (Way::NoStatement, "no statement"),
        (Way::Turned, "one the other way round"),
        (Way::OtherPermission, "one for another permission"),
        (Way::OtherRequester, "one to another requester"),
        (Way::OneTooLow, "a trust one below the threshold"),
        (Way::TooLow, "a trust far below the threshold"),
        (Way::DayBefore, "the day before a statement's first"),
        (Way::DayBehind, "the day behind a statement's last"),
        (Way::OnlyTogether, "two that only together would do"),
    ];

    pub fn is_vouched(self) -> bool {
        Way::VOUCHED.iter().any(|(way, _)| *way == self)
    }
}

impl Link {
    /// The ways in which the user vouches for the requester, or else those in which
    /// the user doesn't.
    pub fn ways(&self, statements: &[Statement]) -> Vec<Way> {
        match statements.iter().any(|one| self.fits(one)) {
            true => self.ways_to_vouch(statements),
            false => self.ways_not_to_vouch(statements),
        }
    }

    fn ways_to_vouch(&self, statements: &[Statement]) -> Vec<Way> {
        let fitting = statements.iter().filter(|one| self.fits(one));
        let mut ways: Vec<Way> = fitting.flat_map(|one| self.ways_of_fitting(one)).collect();
        let first = statements.iter().find(|one| self.is_between(one));
        let first_is_unfit = first.is_some_and(|one| !self.fits(one));
        ways.extend(first_is_unfit.then_some(Way::BehindUnfit));
        ways
    }

    fn ways_not_to_vouch(&self, statements: &[Statement]) -> Vec<Way> {
        let unfit = statements.iter();
        let mut ways: Vec<Way> = unfit.filter_map(|one| self.way_of_unfit(one)).collect();
        let between = || statements.iter().filter(|one| self.is_between(one));
        let for_permission = || between().filter(|one| one.permission == self.permission);
        let trusted = for_permission().any(|one| self.has_trust(one));
        let valid = for_permission().any(|one| self.is_valid(one));
        ways.extend((trusted && valid).then_some(Way::OnlyTogether));
        ways.extend(between().next().is_none().then_some(Way::NoStatement));
        ways
    }

    fn is_between(&self, one: &Statement) -> bool {
        one.issuer == self.user && one.requester == self.requester
    }

    fn has_trust(&self, one: &Statement) -> bool {
        u32::from(one.trust) >= self.threshold
    }

    fn is_valid(&self, one: &Statement) -> bool {
        (u32::from(one.first_day)..=u32::from(one.last_day)).contains(&self.date)
    }

    fn fits(&self, one: &Statement) -> bool {
        let named = self.is_between(one) && one.permission == self.permission;
        named && self.has_trust(one) && self.is_valid(one)
    }

    fn ways_of_fitting(&self, one: &Statement) -> Vec<Way> {
        let trust = match u32::from(one.trust) == self.threshold {
            true => Way::AtThreshold,
            false => Way::AboveThreshold,
        };
        let starts = u32::from(one.first_day) == self.date;
        let ends = u32::from(one.last_day) == self.date;
        let day = match (starts, ends) {
            (true, true) => Some(Way::OnlyDay),
            (true, false) => Some(Way::FirstDay),
            (false, true) => Some(Way::LastDay),
            (false, false) => None,
        };
        [trust].into_iter().chain(day).collect()
    }

    /// The way of a statement that would fit but for one point.
    fn way_of_unfit(&self, one: &Statement) -> Option<Way> {
        let turned = Statement {
            issuer: one.requester,
            requester: one.issuer,
            ..*one
        };
        let repaired = [
            (turned, Way::Turned),
            (self.for_permission(one), Way::OtherPermission),
            (self.naming_requester(one), Way::OtherRequester),
            (more_trusted(one, 1), Way::OneTooLow),
            (more_trusted(one, 4), Way::TooLow),
            (
                one.on(one.first_day.saturating_sub(1), one.last_day),
                Way::DayBefore,
            ),
            (
                one.on(one.first_day, one.last_day.saturating_add(1)),
                Way::DayBehind,
            ),
        ];
        let mut fitting = repaired.into_iter().filter(|(one, _)| self.fits(one));
        fitting.next().map(|(_, way)| way)
    }

    fn for_permission(&self, one: &Statement) -> Statement {
        Statement {
            permission: self.permission,
            ..*one
        }
    }

    fn naming_requester(&self, one: &Statement) -> Statement {
        Statement {
            requester: self.requester,
            ..*one
        }
    }
}

fn more_trusted(one: &Statement, more: u8) -> Statement {
    Statement {
        trust: one.trust + more,
        ..*one
    }
}

#[cfg(test)]
mod tests {
    use super::*;

    const LINK: Link = Link {
        user: 2,
        requester: 0,
        permission: 1,
        date: 300,
        threshold: 3,
    };

    /// A statement that fits on all days.
    fn fitting(trust: u8) -> Statement {
        Statement::always(2, 0, 1, trust)
    }

    #[test]
    fn ways_to_vouch() {
        for (statement, ways) in [
            (fitting(3), &[Way::AtThreshold][..]),
            (fitting(4), &[Way::AboveThreshold]),
            (
                fitting(5).on(300, 301),
                &[Way::AboveThreshold, Way::FirstDay],
            ),
            (fitting(3).on(0, 300), &[Way::AtThreshold, Way::LastDay]),
            (fitting(3).on(300, 300), &[Way::AtThreshold, Way::OnlyDay]),
        ] {
            assert_eq!(LINK.ways(&[statement]), ways);
        }
        let behind = [fitting(2), fitting(4)];
        assert_eq!(LINK.ways(&behind), [Way::AboveThreshold, Way::BehindUnfit]);
        let [unfit, fits] = behind;
        assert_eq!(LINK.ways(&[fits, unfit]), [Way::AboveThreshold]);
    }

    #[test]
    fn ways_not_to_vouch() {
        for (statement, ways) in [
            (
                Statement::always(0, 2, 1, 5),
                &[Way::Turned, Way::NoStatement][..],
            ),
            (Statement::always(2, 0, 0, 5), &[Way::OtherPermission]),
            (
                Statement::always(2, 1, 1, 5),
                &[Way::OtherRequester, Way::NoStatement],
            ),
            (fitting(2), &[Way::OneTooLow]),
            (fitting(1), &[Way::TooLow]),
            (fitting(5).on(301, 400), &[Way::DayBefore]),
            (fitting(5).on(0, 299), &[Way::DayBehind]),
            (fitting(5).on(302, 400), &[]),
            (fitting(2).on(0, 299), &[]),
            (Statement::always(1, 0, 1, 5), &[Way::NoStatement]),
        ] {
            assert_eq!(LINK.ways(&[statement]), ways, "{statement:?}");
        }
        assert_eq!(LINK.ways(&[]), [Way::NoStatement]);
    }

    #[test]
    fn two_that_only_together_would_do() {
        let two = [fitting(5).on(0, 200), fitting(1)];
        assert_eq!(LINK.ways(&two), [Way::TooLow, Way::OnlyTogether]);
        let for_another = Statement {
            permission: 0,
            ..fitting(1)
        };
        assert_eq!(LINK.ways(&[two[0], for_another]), []);
    }
}
