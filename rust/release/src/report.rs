//! The release report.

use crate::answers;
use crate::context::Context;
use crate::decision::{first_entries, Entry};
use crate::refusal::Refusal;
use crate::resolution::Resolution;

/// Bytes of a report for each permission.
pub const PERMISSION_BYTES: usize = 13;

/// Bytes that suffice for the report of every base: 16 permissions at most.
pub const LONGEST_REPORT: usize = 16 * PERMISSION_BYTES;

/// The most approvers that a permission can need.
const MOST_APPROVERS: u8 = 6;

/// In bytes that no report has written. A permission's first byte is never
/// this.
pub(crate) const UNWRITTEN: u8 = 255;

/// A release report: for each permission a smallest group that can release it
/// in the context.
#[derive(Clone, Debug, PartialEq, Eq)]
pub struct Report {
    pub(crate) count: usize,
    pub(crate) bytes: [u8; LONGEST_REPORT],
}

impl Report {
    /// How many permissions some group can release.
    ///
    /// ```
    /// use release::example::SMALL_SHOP;
    /// use release::{report, Context};
    ///
    /// let early = report(&SMALL_SHOP, Context::new(480, 0, 0, 900))?;
    /// assert_eq!(early.count(), 1);
    /// # Ok::<(), release::Refusal>(())
    /// ```
    pub fn count(&self) -> usize {
        self.count
    }

    /// All permissions of the base, in order.
    ///
    /// ```
    /// use release::example::SMALL_SHOP;
    /// use release::{report, Context};
    ///
    /// let early = report(&SMALL_SHOP, Context::new(480, 0, 0, 900))?;
    /// let numbers: Vec<u32> = early.permissions().map(|p| p.number()).collect();
    /// assert_eq!(numbers, [0]);
    /// # Ok::<(), release::Refusal>(())
    /// ```
    pub fn permissions(&self) -> impl Iterator<Item = Permission> + '_ {
        permissions(&self.bytes)
    }

    /// The report's bytes, 13 a permission.
    ///
    /// ```
    /// use release::example::SMALL_SHOP;
    /// use release::{report, Context};
    ///
    /// let early = report(&SMALL_SHOP, Context::new(480, 0, 0, 900))?;
    /// assert_eq!(early.bytes(), [2, 0, 0, 1, 1, 255, 255, 255, 255, 255, 255, 255, 255]);
    /// # Ok::<(), release::Refusal>(())
    /// ```
    pub fn bytes(&self) -> &[u8] {
        &self.bytes[..PERMISSION_BYTES * self.permissions().count()]
    }
}

/// A permission in a report: the smallest number of approvers, and a group of
/// so many that can release it.
#[derive(Clone, Copy, Debug, PartialEq, Eq)]
pub struct Permission {
    number: u32,
    bytes: [u8; PERMISSION_BYTES],
}

impl Permission {
    /// The permission's number in the base.
    ///
    /// ```
    /// # use release::{example::SMALL_SHOP, report, Context};
    /// # let early = report(&SMALL_SHOP, Context::new(480, 0, 0, 900))?;
    /// for permission in early.permissions() {
    ///     println!("permission {}", permission.number());
    /// }
    /// # Ok::<(), release::Refusal>(())
    /// ```
    pub fn number(&self) -> u32 {
        self.number
    }

    /// The smallest number of approvers, 1 to 6, or 0 if no group at all can
    /// release the permission.
    ///
    /// ```
    /// # use release::{example::SMALL_SHOP, report, Context};
    /// # let early = report(&SMALL_SHOP, Context::new(480, 0, 0, 900))?;
    /// let permission = early.permissions().next().expect("the shop has one");
    /// assert_eq!(permission.approvers(), 2);
    /// # Ok::<(), release::Refusal>(())
    /// ```
    pub fn approvers(&self) -> usize {
        self.bytes[0].into()
    }

    /// The group shown, by rising user; none if no group can release it. In a
    /// report for a requester the requester's entry stands first, and the others
    /// rise.
    ///
    /// ```
    /// # use release::{decide, example::SMALL_SHOP, report, Context, Entry};
    /// # let context = Context::new(480, 0, 0, 900);
    /// # let early = report(&SMALL_SHOP, context)?;
    /// let permission = early.permissions().next().expect("the shop has one");
    /// let group: Vec<Entry> = permission.entries().collect();
    /// assert_eq!(group, [Entry::new(0, 0), Entry::new(1, 1)]);
    /// assert_eq!(decide(&SMALL_SHOP, permission.number(), context, &group), Ok(()));
    /// # Ok::<(), release::Refusal>(())
    /// ```
    pub fn entries(&self) -> impl Iterator<Item = Entry> + '_ {
        first_entries(&self.bytes[1..], self.approvers())
    }
}

/// The report for a base in a context, or the first of refusals 1 to 9 and 11
/// that applies. Its groups are of users whose days include the context's date,
/// as no others are granted.
///
/// The library gets a buffer of [`LONGEST_REPORT`] bytes, all 255, which
/// suffices for every base. It writes 13 bytes a permission, the first at most
/// 6, and keeps the later bytes, so the report itself tells how many
/// permissions there are: the base is read by the proved library alone, and
/// checked once.
///
/// ```
/// use release::example::SMALL_SHOP;
/// use release::{report, Context, Refusal};
///
/// let early = report(&SMALL_SHOP, Context::new(480, 0, 0, 900))?;
/// for permission in early.permissions() {
///     println!("{} needs {}", permission.number(), permission.approvers());
/// }
/// let late = report(&SMALL_SHOP, Context::new(1440, 0, 0, 900));
/// assert_eq!(late, Err(Refusal::Context));
/// # Ok::<(), Refusal>(())
/// ```
pub fn report(base: &[u8], context: Context) -> Result<Report, Refusal> {
    let mut bytes = [UNWRITTEN; LONGEST_REPORT];
    let count = report_into(base, context, &mut bytes)?;
    Ok(Report { count, bytes })
}

/// Writes the report into the buffer's first bytes, 13 a permission: the
/// smallest number of approvers, a group of so many, 2 bytes an entry, and 255
/// in every byte left. Later bytes keep their contents. The result is how many
/// permissions some group can release, or the first of refusals 1 to 9, 11 and
/// 19 that applies. No refusal writes.
///
/// A buffer of [`LONGEST_REPORT`] bytes suffices for every base. For
/// [`permissions`] fill it with 255 before.
///
/// ```
/// use release::example::SMALL_SHOP;
/// use release::{report_into, Context, Refusal};
///
/// let early = Context::new(480, 0, 0, 900);
/// let mut buffer = [7; 14];
/// assert_eq!(report_into(&SMALL_SHOP, early, &mut buffer), Ok(1));
/// assert_eq!(buffer, [2, 0, 0, 1, 1, 255, 255, 255, 255, 255, 255, 255, 255, 7]);
///
/// let short = report_into(&SMALL_SHOP, early, &mut buffer[..12]);
/// assert_eq!(short, Err(Refusal::ReportBuffer));
/// ```
pub fn report_into(base: &[u8], context: Context, buffer: &mut [u8]) -> Result<usize, Refusal> {
    answers::report(base, context, buffer).counted()
}

/// The report by a resolution list: for groups that
/// [`decide_by`](crate::decide_by) grants with that list. Or the first of
/// refusals 1 to 9 and 11 that applies.
///
/// ```
/// use release::example::SMALL_SHOP;
/// use release::{report, report_by, Context, Refusal, Resolution, Rule};
///
/// // The buyer's policy made a second one of the manager: of weight 1, and from
/// // a later day.
/// let mut shop = SMALL_SHOP;
/// (shop[78], shop[84]) = (0, 1);
/// let by_day = Context::new(600, 0, 0, 900);
/// assert_eq!(report(&shop, by_day)?.count(), 1);
///
/// let newest = Resolution::by(Rule::LaterDay);
/// let by_newest = report_by(&shop, by_day, newest)?;
/// let approvers: Vec<usize> = by_newest.permissions().map(|p| p.approvers()).collect();
/// assert_eq!(approvers, [4]);
/// # Ok::<(), Refusal>(())
/// ```
pub fn report_by(base: &[u8], context: Context, resolution: Resolution) -> Result<Report, Refusal> {
    let mut bytes = [UNWRITTEN; LONGEST_REPORT];
    let count = report_by_into(base, context, resolution.bytes(), &mut bytes)?;
    Ok(Report { count, bytes })
}

/// Writes the report by a list of any bytes, as [`report_into`] does without
/// one. The result is how many permissions some group can release, or the first
/// of refusals 1 to 9, 22, 11 and 19 that applies. No refusal writes.
///
/// ```
/// use release::example::SMALL_SHOP;
/// use release::{report_by_into, Context, Refusal};
///
/// let early = Context::new(480, 0, 0, 900);
/// let mut buffer = [7; 14];
/// assert_eq!(report_by_into(&SMALL_SHOP, early, &[0, 1], &mut buffer), Ok(1));
/// assert_eq!(buffer, [2, 0, 0, 1, 1, 255, 255, 255, 255, 255, 255, 255, 255, 7]);
///
/// let no_list = report_by_into(&SMALL_SHOP, early, &[], &mut buffer);
/// assert_eq!(no_list, Err(Refusal::Resolution));
/// ```
pub fn report_by_into(
    base: &[u8],
    context: Context,
    list: &[u8],
    buffer: &mut [u8],
) -> Result<usize, Refusal> {
    answers::report_by(base, context, list, buffer).counted()
}

/// The permissions in a report's bytes, 13 each, up to the first 13 bytes that
/// no report has written: those that start with a number above 6. So the buffer
/// has to hold 255 before the report: where nothing was written, a lower byte
/// would read as a permission.
///
/// ```
/// use release::example::SMALL_SHOP;
/// use release::{permissions, report_into, Context, LONGEST_REPORT};
///
/// let mut buffer = [255; LONGEST_REPORT];
/// report_into(&SMALL_SHOP, Context::new(480, 0, 0, 900), &mut buffer)?;
/// let approvers: Vec<usize> = permissions(&buffer).map(|p| p.approvers()).collect();
/// assert_eq!(approvers, [2]);
/// # Ok::<(), release::Refusal>(())
/// ```
pub fn permissions(bytes: &[u8]) -> impl Iterator<Item = Permission> + '_ {
    let (parts, _) = bytes.as_chunks::<PERMISSION_BYTES>();
    let written = parts.iter().take_while(|part| part[0] <= MOST_APPROVERS);
    let numbered = (0..).zip(written);
    numbered.map(|(number, &bytes)| Permission { number, bytes })
}

#[cfg(test)]
mod tests {
    use super::*;
    use crate::example::SMALL_SHOP;
    use crate::resolution::Rule;

    const EARLY: Context = Context {
        minute: 480,
        day: 0,
        zone: 0,
        date: 900,
    };

    /// The shortest base: no records at all.
    fn no_permission() -> [u8; 36] {
        let mut base = [0; 36];
        base[28] = 1;
        base[32..].copy_from_slice(b"LCAQ");
        base
    }

    /// A base of one role and as many permissions, which nobody can release.
    fn without_users(permissions: u8) -> Vec<u8> {
        let mut base = no_permission().to_vec();
        base[10] = permissions;
        let end = 2 * permissions;
        for offset in [12, 16, 20, 24] {
            base[offset] = end;
        }
        base.splice(0..0, std::iter::repeat_n(0, end.into()));
        base
    }

    #[test]
    fn the_small_shop_early() {
        let report = report(&SMALL_SHOP, EARLY).expect("it is reported");
        let permissions: Vec<Permission> = report.permissions().collect();
        assert_eq!((report.count(), permissions.len()), (1, 1));
        assert_eq!(permissions[0].number(), 0);
        assert_eq!(permissions[0].approvers(), 2);
        assert!(permissions[0]
            .entries()
            .map(Entry::bytes)
            .eq([[0, 0], [1, 1]]));
    }

    #[test]
    fn there_are_0_to_16_permissions() {
        for count in 0..=16 {
            let report = report(&without_users(count), EARLY).expect("it is reported");
            assert_eq!(report.count(), 0);
            assert_eq!(report.bytes().len(), 13 * usize::from(count));
            assert!(report.permissions().map(|p| p.number()).eq(0..count.into()));
            assert!(report.permissions().all(|p| p.approvers() == 0));
            assert!(report.permissions().all(|p| p.entries().next().is_none()));
        }
        let seventeen = report(&without_users(17), EARLY);
        assert_eq!(seventeen, Err(Refusal::Trailer));
    }

    #[test]
    fn an_empty_buffer_suffices_for_no_permission() {
        assert_eq!(report_into(&no_permission(), EARLY, &mut []), Ok(0));
        let refused = report_into(&without_users(1), EARLY, &mut []);
        assert_eq!(refused, Err(Refusal::ReportBuffer));
    }

    #[test]
    fn a_refusal_writes_nothing() {
        let mut buffer = [7; LONGEST_REPORT];
        let late = Context::new(0, 7, 0, 900);
        let no_date = Context {
            date: 65_536,
            ..EARLY
        };
        for context in [late, no_date] {
            let refused = report_into(&SMALL_SHOP, context, &mut buffer);
            assert_eq!(refused, Err(Refusal::Context));
            assert_eq!(buffer, [7; LONGEST_REPORT]);
        }
    }

    #[test]
    fn a_refused_list_writes_nothing() {
        let late = Context::new(0, 7, 0, 900);
        let mut buffer = [7; LONGEST_REPORT];
        for list in [&[][..], &[1, 1], &[255], &[2, 1, 0, 2]] {
            for (context, length) in [(EARLY, LONGEST_REPORT), (late, 0)] {
                let lent = &mut buffer[..length];
                let refused = report_by_into(&SMALL_SHOP, context, list, lent);
                assert_eq!(refused, Err(Refusal::Resolution));
                let no_base = report_by_into(&SMALL_SHOP[1..], context, list, lent);
                assert_eq!(no_base, Err(Refusal::Trailer));
            }
        }
        let refused = report_by_into(&SMALL_SHOP, late, &[2, 1, 0], &mut []);
        assert_eq!(refused, Err(Refusal::Context));
        let refused = report_by_into(&SMALL_SHOP, EARLY, &[2, 1, 0], &mut buffer[..12]);
        assert_eq!(refused, Err(Refusal::ReportBuffer));
        assert_eq!(buffer, [7; LONGEST_REPORT]);
    }

    /// The number of approvers by day, where a sum of 4 suffices, the manager has
    /// days 7 to 9 and the buyer those from 6 on; by a list too.
    fn approvers_on(date: u32) -> usize {
        let mut shop = SMALL_SHOP;
        shop[45] = 4;
        (shop[8], shop[10], shop[11]) = (7, 9, 0);
        shop[16] = 6;
        let context = Context::new(600, 0, 0, date);
        let report = report(&shop, context).expect("it is reported");
        let by_list = report_by(&shop, context, Resolution::by(Rule::LaterDay));
        assert_eq!(by_list.as_ref(), Ok(&report));
        let permission = report.permissions().next().expect("the shop has one");
        assert_eq!(report.count(), usize::from(permission.approvers() > 0));
        permission.approvers()
    }

    /// The roles weigh 5, 2 and 1: without the manager it takes the buyer and both
    /// clerks, and without the buyer nobody can release it.
    #[test]
    fn users_out_of_their_days_are_not_considered() {
        for (date, approvers) in [(0, 0), (5, 0), (6, 3), (7, 2), (9, 2), (10, 3)] {
            assert_eq!(approvers_on(date), approvers);
        }
    }

    /// Each role of the small shop has one policy at most.
    #[test]
    fn without_rivals_a_list_changes_nothing() {
        for rule in Rule::ALL {
            let by_list = report_by(&SMALL_SHOP, EARLY, Resolution::by(rule));
            assert_eq!(by_list, report(&SMALL_SHOP, EARLY));
        }
    }

    #[test]
    fn bytes_that_are_no_report_have_no_permissions() {
        assert_eq!(permissions(&[255; 30]).count(), 0);
        assert_eq!(permissions(&[7; 30]).count(), 0);
        assert_eq!(permissions(&[6; 30]).count(), 2);
        assert_eq!(permissions(&[0; 12]).count(), 0);
    }
}
