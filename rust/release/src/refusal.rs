//! Refusals.

use std::error::Error;
use std::fmt;

/// Why a call is refused, by number. Each call's documentation says which it can
/// give; they are checked in rising order, but for 22 and 25, which come after 9,
/// 27, which comes after 25, and 24, which comes after 15, with 26 behind it. The
/// tables of a base are H (hierarchy), U (users), P (permissions), K (group
/// clauses), C (context clauses), A (policies) and X (exclusions); R is the number
/// of roles.
#[derive(Clone, Copy, Debug, PartialEq, Eq, Hash)]
#[non_exhaustive]
pub enum Refusal {
    /// 1: the base is shorter than 36 or longer than 2,460 bytes.
    Length = 1,
    /// 2: the base's last four bytes aren't LCAQ, as they aren't where users have
    /// no days.
    Letters = 2,
    /// 3: the rest of the trailer breaks its rules, a count is above its
    /// limit, or the tables don't fill the bytes before it in order.
    Trailer = 3,
    /// 4: an H record has senior not below junior, or junior not below R.
    Hierarchy = 4,
    /// 5: a user's parameter is no product of different codes of roles below
    /// R, or the first day is above the last.
    Users = 5,
    /// 6: a K record breaks its rules or names a permission that isn't in P.
    GroupClauses = 6,
    /// 7: a C record breaks its rules.
    ContextClauses = 7,
    /// 8: an A record breaks its rules, or its role or permission isn't there.
    Policies = 8,
    /// 9: an X record breaks its rules, or its b isn't a role or permission
    /// there.
    Exclusions = 9,
    /// 10: the permission isn't in P.
    NoPermission = 10,
    /// 11: minute, day, zone or date is out of range.
    Context = 11,
    /// 12: the group's length is 0, odd or above 12; of a query, its number of
    /// entries is 0 or above 6.
    GroupLength = 12,
    /// 13: an entry's user isn't in U, or its role isn't below R; of a report for a
    /// requester, the requester isn't in U.
    NoUserOrRole = 13,
    /// 14: a user stands in two entries; of a signing, its user is on the
    /// sheet.
    UserTwice = 14,
    /// 15: an entry's user may not act in its role: the user holds neither it
    /// nor a role senior to it.
    Membership = 15,
    /// 16: an entry's role has weight 0 for the permission.
    NoWeight = 16,
    /// 17: the permission's condition doesn't hold.
    Condition = 17,
    /// 18: the buffer is shorter than 3 times the number of conflicts.
    ConflictBuffer = 18,
    /// 19: the buffer is shorter than 13 times the number of permissions.
    ReportBuffer = 19,
    /// 20: the sheet already holds six entries.
    SheetFull = 20,
    /// 21: the policy isn't in A, or its new weight isn't 1 to 5.
    NoPolicyOrWeight = 21,
    /// 22: the resolution list is empty, longer than 3 bytes, repeats a rule or
    /// holds another byte. It comes after 9 and before 10.
    Resolution = 22,
    /// 23: the user has no entry on the sheet.
    NoSignature = 23,
    /// 24: the date is before the first or after the last day of an entry's
    /// user. It comes after 15 and before 16.
    OutOfDate = 24,
    /// 25: the register's length isn't a multiple of 8 or exceeds 2,048, or a
    /// statement names a user or permission that isn't there, has a trust that
    /// isn't 1 to 5 or a first day above the last. It comes after 9 and before 27.
    Register = 25,
    /// 26: the user of an entry but the first doesn't vouch for the requester. It
    /// comes after 24 and before 16.
    NotVouched = 26,
    /// 27: the threshold isn't 1 to 5. It comes after 25 and before 10.
    Threshold = 27,
    /// 28: the query bytes aren't whole queries of 14, the queries are more than
    /// 1,024, or the answer buffer is shorter than their number. It comes after 11.
    Queries = 28,
}

impl Refusal {
    /// Every refusal, by number.
    pub const ALL: [Refusal; 28] = [
        Refusal::Length,
        Refusal::Letters,
        Refusal::Trailer,
        Refusal::Hierarchy,
        Refusal::Users,
        Refusal::GroupClauses,
        Refusal::ContextClauses,
        Refusal::Policies,
        Refusal::Exclusions,
        Refusal::NoPermission,
        Refusal::Context,
        Refusal::GroupLength,
        Refusal::NoUserOrRole,
        Refusal::UserTwice,
        Refusal::Membership,
        Refusal::NoWeight,
        Refusal::Condition,
        Refusal::ConflictBuffer,
        Refusal::ReportBuffer,
        Refusal::SheetFull,
        Refusal::NoPolicyOrWeight,
        Refusal::Resolution,
        Refusal::NoSignature,
        Refusal::OutOfDate,
        Refusal::Register,
        Refusal::NotVouched,
        Refusal::Threshold,
        Refusal::Queries,
    ];

    /// The refusal's number, 1 to 28.
    ///
    /// ```
    /// assert_eq!(release::Refusal::UserTwice.number(), 14);
    /// ```
    pub fn number(self) -> u32 {
        self as u32
    }

    /// The refusal with this number, if there is one.
    ///
    /// ```
    /// use release::Refusal;
    ///
    /// assert_eq!(Refusal::from_number(14), Some(Refusal::UserTwice));
    /// assert_eq!(Refusal::from_number(0), None);
    /// ```
    pub fn from_number(number: u32) -> Option<Refusal> {
        let mut all = Refusal::ALL.into_iter();
        all.find(|refusal| refusal.number() == number)
    }

    /// What it means, in words.
    ///
    /// ```
    /// use release::Refusal;
    ///
    /// assert_eq!(Refusal::Condition.meaning(), "the permission's condition doesn't hold");
    /// ```
    pub fn meaning(self) -> &'static str {
        match self {
            Refusal::Length => "the base is shorter than 36 or longer than 2,460 bytes",
            Refusal::Letters => "the base's last four bytes aren't LCAQ",
            Refusal::Trailer => {
                "the rest of the trailer breaks its rules, a count is above its limit, \
                 or the tables don't fill the bytes before it in order"
            }
            Refusal::Hierarchy => {
                "a hierarchy record has senior not below junior, or junior not below \
                 the number of roles"
            }
            Refusal::Users => {
                "a user's parameter is no product of different codes of the base's roles, \
                 or the first day is above the last"
            }
            Refusal::GroupClauses => {
                "a group clause breaks its rules or names a permission that isn't there"
            }
            Refusal::ContextClauses => "a context clause breaks its rules",
            Refusal::Policies => "a policy breaks its rules, or its role or permission isn't there",
            Refusal::Exclusions => {
                "an exclusion breaks its rules, or its second role or permission isn't there"
            }
            Refusal::NoPermission => "the base has no permission of that number",
            Refusal::Context => "minute, day, zone or date is out of range",
            Refusal::GroupLength => "the group's length is 0, odd or above 12",
            Refusal::NoUserOrRole => {
                "the base has no user or no role of an entry's number, or no user of the \
                 requester's"
            }
            Refusal::UserTwice => {
                "a user stands in two entries, or a new entry's user is on the sheet"
            }
            Refusal::Membership => {
                "an entry's user may not act in its role: the user holds neither it nor \
                 a role senior to it"
            }
            Refusal::NoWeight => "an entry's role has weight 0 for the permission",
            Refusal::Condition => "the permission's condition doesn't hold",
            Refusal::ConflictBuffer => "the buffer is shorter than 3 times the number of conflicts",
            Refusal::ReportBuffer => {
                "the buffer is shorter than 13 times the number of permissions"
            }
            Refusal::SheetFull => "the sheet already holds six entries",
            Refusal::NoPolicyOrWeight => {
                "the base has no policy of that number, or the new weight isn't 1 to 5"
            }
            Refusal::Resolution => {
                "the resolution list is empty, longer than 3 bytes, repeats a rule or \
                 holds another byte"
            }
            Refusal::NoSignature => "the user has no entry on the sheet",
            Refusal::OutOfDate => {
                "the date is before the first or after the last day of an entry's user"
            }
            Refusal::Register => {
                "the register's length isn't a multiple of 8 or exceeds 2,048, or a \
                 statement breaks its rules or names a user or permission that isn't there"
            }
            Refusal::NotVouched => {
                "the user of an entry but the first has no statement that vouches for the requester"
            }
            Refusal::Threshold => "the threshold isn't 1 to 5",
            Refusal::Queries => {
                "the query bytes aren't whole queries of 14, the queries are more than 1,024, \
                 or the answer buffer is shorter than their number"
            }
        }
    }
}

/// The number and the meaning.
///
/// ```
/// let text = release::Refusal::Condition.to_string();
/// assert_eq!(text, "refusal 17: the permission's condition doesn't hold");
/// ```
impl fmt::Display for Refusal {
    fn fmt(&self, formatter: &mut fmt::Formatter) -> fmt::Result {
        write!(formatter, "refusal {}: {}", self.number(), self.meaning())
    }
}

impl Error for Refusal {}

/// What an answer says: 0, or a refusal's number.
pub(crate) fn result_of(answer: u32) -> Result<(), Refusal> {
    match answer {
        0 => Ok(()),
        _ => Err(Refusal::from_number(answer).expect("the library answers 0 to 28")),
    }
}

#[cfg(test)]
mod tests {
    use super::*;

    #[test]
    fn numbers_count_from_1() {
        for (number, refusal) in (1..).zip(Refusal::ALL) {
            assert_eq!(refusal.number(), number);
            assert_eq!(Refusal::from_number(number), Some(refusal));
            assert_eq!(result_of(number), Err(refusal));
        }
        assert_eq!(result_of(0), Ok(()));
        assert_eq!(Refusal::from_number(29), None);
    }

    #[test]
    fn each_meaning_is_its_own() {
        for refusal in Refusal::ALL {
            let same = |other: &Refusal| other.meaning() == refusal.meaning();
            assert_eq!(Refusal::ALL.into_iter().filter(same).count(), 1);
        }
    }

    #[test]
    fn it_is_an_error_that_can_be_passed_on() {
        fn passed_on() -> Result<(), Box<dyn Error + Send + Sync>> {
            Err(Refusal::Letters)?
        }
        let error = passed_on().expect_err("it is refused");
        assert_eq!(
            error.to_string(),
            "refusal 2: the base's last four bytes aren't LCAQ"
        );
    }
}
