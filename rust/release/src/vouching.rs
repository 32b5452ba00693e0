//! Groups whose first entry is a requester's, for whom all others vouch.

use crate::answers;
use crate::context::Context;
use crate::decision::Entry;
use crate::refusal::{result_of, Refusal};
use crate::report::{Report, LONGEST_REPORT, UNWRITTEN};

/// Bytes of a statement in a register.
pub const STATEMENT_BYTES: usize = 8;

/// The most bytes that a register can have: 256 statements.
pub const LONGEST_REGISTER: usize = 2_048;

/// A statement by which one user trusts another: the issuer vouches for the
/// requester, for one permission, from the first day to the last.
///
/// Any numbers can be put in; [`Refusal::Register`] judges them beside a base.
#[derive(Clone, Copy, Debug, PartialEq, Eq, Hash)]
pub struct Statement {
    /// The number of the user who trusts.
    pub issuer: u8,
    /// The number of the user who is trusted.
    pub requester: u8,
    /// The permission's number.
    pub permission: u8,
    /// How much, 1 to 5.
    pub trust: u8,
    /// The first date on which the statement is valid.
    pub first_day: u16,
    /// The last one, not below the first.
    pub last_day: u16,
}

impl Statement {
    /// A statement of all days, by issuer, requester, permission and trust, in this
    /// order.
    ///
    /// ```
    /// use release::Statement;
    ///
    /// let trusts = Statement::new(2, 0, 0, 4);
    /// assert_eq!((trusts.issuer, trusts.requester, trusts.trust), (2, 0, 4));
    /// assert_eq!((trusts.first_day, trusts.last_day), (0, 65_535));
    /// ```
    pub fn new(issuer: u8, requester: u8, permission: u8, trust: u8) -> Statement {
        Statement {
            issuer,
            requester,
            permission,
            trust,
            first_day: 0,
            last_day: u16::MAX,
        }
    }

    /// The statement valid from one day to another, both included.
    ///
    /// ```
    /// use release::Statement;
    ///
    /// let in_season = Statement::new(2, 0, 0, 4).on_days(900, 990);
    /// assert_eq!((in_season.first_day, in_season.last_day), (900, 990));
    /// ```
    pub fn on_days(self, first_day: u16, last_day: u16) -> Statement {
        Statement {
            first_day,
            last_day,
            ..self
        }
    }

    /// The statement as it stands in a register's bytes.
    ///
    /// ```
    /// use release::Statement;
    ///
    /// let trusts = Statement::new(2, 0, 1, 4).on_days(900, 901);
    /// assert_eq!(trusts.bytes(), [2, 0, 1, 4, 0x84, 0x03, 0x85, 0x03]);
    /// ```
    pub fn bytes(self) -> [u8; STATEMENT_BYTES] {
        let [first_low, first_high] = self.first_day.to_le_bytes();
        let [last_low, last_high] = self.last_day.to_le_bytes();
        [
            self.issuer,
            self.requester,
            self.permission,
            self.trust,
            first_low,
            first_high,
            last_low,
            last_high,
        ]
    }

    /// The statement in these bytes, whatever they are.
    fn from_bytes(bytes: [u8; STATEMENT_BYTES]) -> Statement {
        let [issuer, requester, permission, trust, days @ ..] = bytes;
        let [first_low, first_high, last_low, last_high] = days;
        Statement {
            issuer,
            requester,
            permission,
            trust,
            first_day: u16::from_le_bytes([first_low, first_high]),
            last_day: u16::from_le_bytes([last_low, last_high]),
        }
    }
}

/// A register of statements, in any order. Without a statement nobody vouches for anybody,
/// and only a requester alone can be granted a permission.
///
/// ```
/// use release::{Register, Statement};
///
/// let register = Register::new()
///     .with(Statement::new(2, 0, 0, 4))
///     .with(Statement::new(3, 0, 0, 2).on_days(900, 990));
/// assert_eq!(register.statements().count(), 2);
/// assert_eq!(register.bytes().len(), 16);
/// ```
#[derive(Clone, Debug, Default, PartialEq, Eq, Hash)]
pub struct Register {
    bytes: Vec<u8>,
}

impl Register {
    /// The empty register.
    ///
    /// ```
    /// assert_eq!(release::Register::new().bytes(), []);
    /// ```
    pub fn new() -> Register {
        Register::default()
    }

    /// The register with one statement more, behind the others. With more than 256
    /// it gets [`Refusal::Register`].
    ///
    /// ```
    /// use release::{Register, Statement};
    ///
    /// let trusts = Statement::new(2, 0, 0, 4);
    /// assert!(Register::new().with(trusts).statements().eq([trusts]));
    /// ```
    pub fn with(mut self, statement: Statement) -> Register {
        self.bytes.extend(statement.bytes());
        self
    }

    /// The register in these bytes, if they are whole statements.
    ///
    /// ```
    /// use release::{Register, Statement};
    ///
    /// let trusts = Statement::new(2, 0, 0, 4);
    /// let register = Register::from_bytes(&trusts.bytes()).expect("one statement");
    /// assert!(register.statements().eq([trusts]));
    /// assert_eq!(Register::from_bytes(&[0; 7]), None);
    /// ```
    pub fn from_bytes(bytes: &[u8]) -> Option<Register> {
        let whole = bytes.len().is_multiple_of(STATEMENT_BYTES);
        whole.then(|| Register {
            bytes: bytes.to_vec(),
        })
    }

    /// The register as the library takes it, 8 bytes a statement.
    ///
    /// ```
    /// use release::{Register, Statement};
    ///
    /// let register = Register::new().with(Statement::new(2, 0, 0, 4));
    /// assert_eq!(register.bytes(), [2, 0, 0, 4, 0, 0, 255, 255]);
    /// ```
    pub fn bytes(&self) -> &[u8] {
        &self.bytes
    }

    /// Its statements, in order.
    ///
    /// ```
    /// use release::{Register, Statement};
    ///
    /// let statements = [Statement::new(2, 0, 0, 4), Statement::new(3, 0, 0, 2)];
    /// let register: Register = statements.into_iter().collect();
    /// assert!(register.statements().eq(statements));
    /// ```
    pub fn statements(&self) -> impl Iterator<Item = Statement> + '_ {
        let (statements, _) = self.bytes.as_chunks();
        statements.iter().copied().map(Statement::from_bytes)
    }
}

impl Extend<Statement> for Register {
    fn extend<I: IntoIterator<Item = Statement>>(&mut self, statements: I) {
        let bytes = statements.into_iter().flat_map(Statement::bytes);
        self.bytes.extend(bytes);
    }
}

impl FromIterator<Statement> for Register {
    fn from_iter<I: IntoIterator<Item = Statement>>(statements: I) -> Register {
        let mut register = Register::new();
        register.extend(statements);
        register
    }
}

/// Whether the group may release the permission at its first entry's request: `Ok`
/// if it is granted, else the first of refusals 1 to 9, 25, 27, 10 to 15, 24, 26,
/// 16 and 17 that applies.
///
/// The first entry is the requester's. The user of each other one has to vouch for
/// the requester: one statement of the register is from that user to the
/// requester, for the permission, of a trust of at least the threshold, and the
/// context's date is among its days, both included. A requester alone needs none.
/// All else is as in [`decide`](crate::decide); the order of the others doesn't
/// matter.
///
/// ```
/// use release::example::SMALL_SHOP;
/// use release::{decide_vouched, Context, Entry, Refusal, Register, Statement};
///
/// // A clerk, user 2, trusts the manager, user 0, up to day 900.
/// let register = Register::new().with(Statement::new(2, 0, 0, 3).on_days(0, 900));
/// let decided = |date, threshold, group: &[Entry]| {
///     let by_day = Context::new(600, 0, 0, date);
///     decide_vouched(&SMALL_SHOP, 0, by_day, &register, threshold, group)
/// };
/// let (manager, clerk) = (Entry::new(0, 0), Entry::new(2, 2));
/// assert_eq!(decided(900, 3, &[manager, clerk]), Ok(()));
///
/// assert_eq!(decided(901, 3, &[manager, clerk]), Err(Refusal::NotVouched));
/// assert_eq!(decided(900, 4, &[manager, clerk]), Err(Refusal::NotVouched));
/// assert_eq!(decided(900, 6, &[manager, clerk]), Err(Refusal::Threshold));
///
/// // Nobody vouches for the clerk.
/// assert_eq!(decided(900, 3, &[clerk, manager]), Err(Refusal::NotVouched));
/// ```
pub fn decide_vouched(
    base: &[u8],
    permission: u32,
    context: Context,
    register: &Register,
    threshold: u32,
    group: &[Entry],
) -> Result<(), Refusal> {
    let bytes: Vec<u8> = group.iter().flat_map(|entry| entry.bytes()).collect();
    decide_vouched_bytes(
        base,
        permission,
        context,
        register.bytes(),
        threshold,
        &bytes,
    )
}

/// The same for a register and a group as bytes, 8 a statement and 2 an entry. They
/// may be any bytes of any length.
///
/// ```
/// use release::example::SMALL_SHOP;
/// use release::{decide_vouched_bytes, Context, Refusal};
///
/// let by_day = Context::new(600, 0, 0, 900);
/// let by = |register: &[u8]| {
///     decide_vouched_bytes(&SMALL_SHOP, 0, by_day, register, 3, &[0, 0, 2, 2])
/// };
/// assert_eq!(by(&[2, 0, 0, 3, 0, 0, 255, 255]), Ok(()));
/// assert_eq!(by(&[]), Err(Refusal::NotVouched));
///
/// // Seven bytes, a user who isn't there, a trust of 6, days turned.
/// for no_register in [
///     &[2, 0, 0, 3, 0, 0, 255][..],
///     &[4, 0, 0, 3, 0, 0, 255, 255],
///     &[2, 0, 0, 6, 0, 0, 255, 255],
///     &[2, 0, 0, 3, 1, 0, 0, 0],
/// ] {
///     assert_eq!(by(no_register), Err(Refusal::Register));
/// }
/// ```
pub fn decide_vouched_bytes(
    base: &[u8],
    permission: u32,
    context: Context,
    register: &[u8],
    threshold: u32,
    group: &[u8],
) -> Result<(), Refusal> {
    let answer = answers::decide_vouched(base, permission, context, register, threshold, group);
    result_of(answer)
}

/// The report for a requester: for each permission a smallest group that
/// [`decide_vouched`] grants with the requester first, by the same register and
/// threshold. In a group shown the requester's entry stands first and the others
/// follow by rising user. Or the first of refusals 1 to 9, 25, 27, 11 and 13 that
/// applies; 13, [`Refusal::NoUserOrRole`], if the requester isn't in the base. The
/// number isn't cut: requester 256 gets it too.
///
/// ```
/// use release::example::SMALL_SHOP;
/// use release::{report_vouched, Context, Entry, Refusal, Register, Statement};
///
/// let by_day = Context::new(600, 0, 0, 900);
/// let register = Register::new().with(Statement::new(0, 2, 0, 3));
/// let for_clerk = report_vouched(&SMALL_SHOP, by_day, &register, 3, 2)?;
/// let permission = for_clerk.permissions().next().expect("the shop has one");
/// assert!(permission.entries().eq([Entry::new(2, 2), Entry::new(0, 0)]));
///
/// // Nobody vouches for the manager, who can't release it alone.
/// let for_manager = report_vouched(&SMALL_SHOP, by_day, &register, 3, 0)?;
/// assert_eq!(for_manager.count(), 0);
///
/// let for_nobody = report_vouched(&SMALL_SHOP, by_day, &register, 3, 4);
/// assert_eq!(for_nobody, Err(Refusal::NoUserOrRole));
/// # Ok::<(), Refusal>(())
/// ```
pub fn report_vouched(
    base: &[u8],
    context: Context,
    register: &Register,
    threshold: u32,
    requester: u32,
) -> Result<Report, Refusal> {
    let mut bytes = [UNWRITTEN; LONGEST_REPORT];
    let count = report_vouched_into(
        base,
        context,
        register.bytes(),
        threshold,
        requester,
        &mut bytes,
    )?;
    Ok(Report { count, bytes })
}

/// Writes the report for a requester by a register of any bytes, as
/// [`report_into`](crate::report_into) does that of all groups. The result is how
/// many permissions some group can release with the requester first, or the first
/// of refusals 1 to 9, 25, 27, 11, 13 and 19 that applies. No refusal writes.
///
/// ```
/// use release::example::SMALL_SHOP;
/// use release::{report_vouched_into, Context, Refusal};
///
/// let by_day = Context::new(600, 0, 0, 900);
/// let register = [0, 2, 0, 3, 0, 0, 255, 255];
/// let mut buffer = [7; 14];
/// let count = report_vouched_into(&SMALL_SHOP, by_day, &register, 3, 2, &mut buffer);
/// assert_eq!(count, Ok(1));
/// assert_eq!(buffer, [2, 2, 2, 0, 0, 255, 255, 255, 255, 255, 255, 255, 255, 7]);
///
/// let short = report_vouched_into(&SMALL_SHOP, by_day, &register, 3, 2, &mut buffer[..12]);
/// assert_eq!(short, Err(Refusal::ReportBuffer));
/// ```
pub fn report_vouched_into(
    base: &[u8],
    context: Context,
    register: &[u8],
    threshold: u32,
    requester: u32,
    buffer: &mut [u8],
) -> Result<usize, Refusal> {
    answers::report_vouched(base, context, register, threshold, requester, buffer).counted()
}

#[cfg(test)]
mod tests {
    use super::*;
    use crate::example::SMALL_SHOP;
    use crate::report::report;

    const BY_DAY: Context = Context {
        minute: 600,
        day: 0,
        zone: 0,
        date: 900,
    };

    const MANAGER: Entry = Entry { user: 0, role: 0 };
    const BUYER: Entry = Entry { user: 1, role: 1 };
    const CLERK: Entry = Entry { user: 2, role: 2 };
    const OTHER_CLERK: Entry = Entry { user: 3, role: 2 };

    /// The small shop's answer by day at threshold 3.
    fn decided(statements: &[Statement], group: &[Entry]) -> Result<(), Refusal> {
        let register: Register = statements.iter().copied().collect();
        decide_vouched(&SMALL_SHOP, 0, BY_DAY, &register, 3, group)
    }

    #[test]
    fn each_other_entrys_user_vouches_for_the_first() {
        let clerk = Statement::new(2, 0, 0, 3);
        let other_clerk = Statement::new(3, 0, 0, 5);
        let both = [MANAGER, OTHER_CLERK, CLERK];
        assert_eq!(decided(&[clerk, other_clerk], &both), Ok(()));
        assert_eq!(decided(&[clerk], &both), Err(Refusal::NotVouched));
        assert_eq!(decided(&[other_clerk], &both), Err(Refusal::NotVouched));
        assert_eq!(decided(&[clerk], &[MANAGER, CLERK]), Ok(()));
        assert_eq!(decided(&[], &[MANAGER]), Err(Refusal::Condition));
    }

    #[test]
    fn one_statement_fits_in_every_point() {
        let fits = Statement::new(2, 0, 0, 3).on_days(900, 900);
        let group = [MANAGER, CLERK];
        assert_eq!(decided(&[fits], &group), Ok(()));
        let early = fits.on_days(0, 899);
        let late = fits.on_days(901, 65_535);
        let weak = Statement { trust: 2, ..fits };
        let turned = Statement::new(0, 2, 0, 5);
        let of_another = Statement { issuer: 3, ..fits };
        for unfit in [early, late, weak, turned, of_another] {
            assert_eq!(decided(&[unfit], &group), Err(Refusal::NotVouched));
            assert_eq!(decided(&[unfit, fits], &group), Ok(()));
        }
        let all = [early, late, weak, turned, of_another];
        assert_eq!(decided(&all, &group), Err(Refusal::NotVouched));
    }

    #[test]
    fn a_register_that_breaks_its_rules_is_refused() {
        let sound = Statement::new(2, 0, 0, 3);
        for statement in [
            Statement { issuer: 4, ..sound },
            Statement {
                requester: 4,
                ..sound
            },
            Statement {
                permission: 1,
                ..sound
            },
            Statement { trust: 0, ..sound },
            Statement { trust: 6, ..sound },
            sound.on_days(1, 0),
        ] {
            let refused = decided(&[sound, statement], &[]);
            assert_eq!(refused, Err(Refusal::Register));
        }
        let longest = vec![sound; LONGEST_REGISTER / STATEMENT_BYTES];
        assert_eq!(decided(&longest, &[MANAGER, CLERK]), Ok(()));
        let longer = [longest, vec![sound]].concat();
        let refused = decided(&longer, &[MANAGER, CLERK]);
        assert_eq!(refused, Err(Refusal::Register));
    }

    #[test]
    fn refusals_come_in_order() {
        let late = Context::new(1440, 0, 0, 900);
        let refused = |base: &[u8], permission, at, register: &[u8], threshold, group: &[u8]| {
            let decided = decide_vouched_bytes(base, permission, at, register, threshold, group);
            decided.err()
        };
        let shop = &SMALL_SHOP[..];
        let no_base = refused(&shop[1..], 1, late, &[0], 0, &[]);
        assert_eq!(no_base, Some(Refusal::Trailer));
        let faults = [
            (refused(shop, 1, late, &[0], 0, &[]), Refusal::Register),
            (refused(shop, 1, late, &[], 0, &[]), Refusal::Threshold),
            (refused(shop, 1, late, &[], 256, &[]), Refusal::Threshold),
            (refused(shop, 1, late, &[], 5, &[]), Refusal::NoPermission),
            (refused(shop, 0, late, &[], 5, &[]), Refusal::Context),
            (refused(shop, 0, BY_DAY, &[], 5, &[]), Refusal::GroupLength),
        ];
        for (found, refusal) in faults {
            assert_eq!(found, Some(refusal));
        }
    }

    /// A sum of 4 suffices. By day the buyer weighs 2, the manager, who trusts the
    /// buyer at 1, 5, and a clerk, who does at 2, 1.
    #[test]
    fn a_higher_threshold_takes_more_or_leaves_nobody() {
        let mut shop = SMALL_SHOP;
        shop[45] = 4;
        let statements = [(0, 1), (2, 2), (3, 2)];
        let to_buyer = statements.map(|(user, trust)| Statement::new(user, 1, 0, trust));
        let register: Register = to_buyer.into_iter().collect();
        let approvers = |threshold, requester| {
            let report = report_vouched(&shop, BY_DAY, &register, threshold, requester);
            let report = report.expect("nothing is refused");
            let permission = report.permissions().next().expect("the shop has one");
            permission.approvers()
        };
        let for_buyer = [1, 2, 3].map(|threshold| approvers(threshold, 1));
        assert_eq!(for_buyer, [2, 3, 0]);
        let for_others = [0, 2, 3].map(|requester| approvers(1, requester));
        assert_eq!(for_others, [0; 3]);
        assert_eq!(report(&shop, BY_DAY).map(|report| report.count()), Ok(1));
    }

    #[test]
    fn a_requester_is_a_user_whose_number_is_not_cut() {
        let register = Register::new();
        for requester in [4, 255, 256, 65_536, u32::MAX] {
            let refused = report_vouched(&SMALL_SHOP, BY_DAY, &register, 1, requester);
            assert_eq!(refused, Err(Refusal::NoUserOrRole));
        }
        for requester in 0..4 {
            let alone = report_vouched(&SMALL_SHOP, BY_DAY, &register, 1, requester);
            assert_eq!(alone.expect("the user is there").count(), 0);
        }
    }

    #[test]
    fn a_refused_report_writes_nothing() {
        let late = Context::new(0, 7, 0, 900);
        let mut buffer = [7; LONGEST_REPORT];
        for (at, register, threshold, requester, length, refusal) in [
            (late, &[0; 7][..], 0, 4, 0, Refusal::Register),
            (late, &[0; 7], 1, 0, 208, Refusal::Register),
            (late, &[], 0, 4, 0, Refusal::Threshold),
            (late, &[], 1, 4, 0, Refusal::Context),
            (BY_DAY, &[], 1, 4, 0, Refusal::NoUserOrRole),
            (BY_DAY, &[], 1, 0, 12, Refusal::ReportBuffer),
        ] {
            let lent = &mut buffer[..length];
            let refused =
                report_vouched_into(&SMALL_SHOP, at, register, threshold, requester, lent);
            assert_eq!(refused, Err(refusal));
        }
        assert_eq!(buffer, [7; LONGEST_REPORT]);
    }

    #[test]
    fn the_requester_stands_first_whoever_it_is() {
        let users = [MANAGER, BUYER, CLERK, OTHER_CLERK];
        for requester in users {
            let to_requester = |other: Entry| Statement::new(other.user, requester.user, 0, 1);
            let register: Register = users.map(to_requester).into_iter().collect();
            let report = report_vouched(&SMALL_SHOP, BY_DAY, &register, 1, requester.user.into());
            let report = report.expect("nothing is refused");
            let permission = report.permissions().next().expect("the shop has one");
            let group: Vec<Entry> = permission.entries().collect();
            assert_eq!(group[0].user, requester.user);
            assert_eq!(
                decide_vouched(&SMALL_SHOP, 0, BY_DAY, &register, 1, &group),
                Ok(())
            );
        }
    }

    #[test]
    fn statements_keep_their_bytes() {
        let bytes: Vec<u8> = (0..=255).collect();
        let register = Register::from_bytes(&bytes).expect("32 statements");
        let statements: Vec<Statement> = register.statements().collect();
        assert_eq!(statements.len(), 32);
        let third = Statement::new(16, 17, 18, 19).on_days(0x1514, 0x1716);
        assert_eq!(statements[2], third);
        let again: Register = statements.into_iter().collect();
        assert_eq!(again, register);
        assert_eq!(again.bytes(), bytes);
    }

    #[test]
    fn a_register_has_whole_statements() {
        for length in 0..100 {
            let register = Register::from_bytes(&vec![1; length]);
            assert_eq!(register.is_some(), length % 8 == 0);
        }
    }
}
