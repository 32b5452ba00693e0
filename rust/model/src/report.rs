//! The release report.

use crate::answer::Answer;
use crate::base::Base;
use crate::context::Context;
use crate::decision::Question;
use crate::group::Entry;
use crate::reading::Reading;
use crate::refusal::{refuse_if, Refusal};
use crate::resolution::Resolution;
use crate::smallest::{heaviest_group, smallest_group};

/// Bytes of a permission's record: k and six entries.
pub const RECORD: usize = 13;

/// In bytes of a record that are left.
const LEFT: u8 = 255;

/// Writes a record for each permission: the number of a smallest group's
/// entries and the group, by rising user. Later bytes keep their contents.
/// The answer carries how many permissions have a group. No refusal writes.
pub fn report(base: &[u8], at: Context, out: &mut [u8]) -> Answer {
    report_as(Reading::Paper, base, at, None, out)
}

/// The same by a resolution list: the first of refusals 1 to 9, 22, 11 and 19.
pub fn report_by(base: &[u8], at: Context, list: &[u8], out: &mut [u8]) -> Answer {
    report_as(Reading::Paper, base, at, Some(list), out)
}

/// The report by this reading, with a list or without.
pub fn report_as(
    reading: Reading,
    base: &[u8],
    at: Context,
    list: Option<&[u8]>,
    out: &mut [u8],
) -> Answer {
    write_groups(groups_to_show(reading, base, at, list, out.len()), out)
}

/// Writes a record for each group, and answers how many aren't empty; or the
/// refusal, which writes nothing.
pub fn write_groups(groups: Result<Vec<Vec<Entry>>, Refusal>, out: &mut [u8]) -> Answer {
    let groups = match groups {
        Ok(groups) => groups,
        Err(refusal) => return Answer::refused(refusal),
    };
    for (group, part) in groups.iter().zip(out.chunks_exact_mut(RECORD)) {
        part.copy_from_slice(&record(group));
    }
    let releasable = groups.iter().filter(|group| !group.is_empty());
    Answer::done(releasable.count())
}

/// A group for each permission, empty where none is granted.
fn groups_to_show(
    reading: Reading,
    base: &[u8],
    at: Context,
    list: Option<&[u8]>,
    room: usize,
) -> Result<Vec<Vec<Entry>>, Refusal> {
    let base = Base::read_as(reading, base)?;
    let lent = Resolution::lent(reading, list)?;
    let resolution = match reading {
        Reading::ListIgnored => Resolution::none(),
        _ => lent,
    };
    refuse_if(!at.in_range(), Refusal::Context)?;
    refuse_if(room < bytes_for(&base), Refusal::ReportBuffer)?;
    let permissions = 0..base.permissions.len() as u32;
    permissions
        .map(|permission| {
            let question = Question::by(resolution.clone(), &base, permission, at, reading)?;
            let group = match reading {
                Reading::HeaviestUsers => heaviest_group(&question),
                _ => smallest_group(&question),
            };
            Ok(group.unwrap_or_default())
        })
        .collect()
}

/// Bytes of a report on the base.
pub fn bytes_for(base: &Base) -> usize {
    RECORD * base.permissions.len()
}

fn record(group: &[Entry]) -> [u8; RECORD] {
    let mut record = [LEFT; RECORD];
    record[0] = group.len() as u8;
    for (entry, part) in group.iter().zip(record[1..].chunks_exact_mut(2)) {
        part.copy_from_slice(&entry.bytes());
    }
    record
}

#[cfg(test)]
mod tests {
    use super::*;
    use crate::samples::{at_minute, SMALL_SHOP};

    #[test]
    fn the_small_shop_needs_two() {
        let mut out = [7; 15];
        let answer = report(&SMALL_SHOP, at_minute(480), &mut out);
        assert_eq!(answer, Answer::done(1));
        assert_eq!(out[..6], [2, 0, 0, 1, 1, 255]);
        assert_eq!(out[6..], [255, 255, 255, 255, 255, 255, 255, 7, 7]);
    }

    #[test]
    fn a_group_is_not_shown_where_none_is_granted() {
        let mut shop = SMALL_SHOP;
        shop[45] = 6;
        let mut out = [7; 13];
        assert_eq!(report(&shop, at_minute(480), &mut out), Answer::done(0));
        assert_eq!(out[0], 0);
        assert_eq!(out[1..], [255; 12]);
    }

    /// The refusal, if nothing was written and the count is 0.
    fn refused(base: &[u8], minute: u32, room: usize) -> u8 {
        refused_as(Reading::Paper, base, minute, None, room)
    }

    fn refused_as(
        reading: Reading,
        base: &[u8],
        minute: u32,
        list: Option<&[u8]>,
        room: usize,
    ) -> u8 {
        let mut out = vec![7; room];
        let answer = report_as(reading, base, at_minute(minute), list, &mut out);
        assert_eq!((answer.count, out), (0, vec![7; room]));
        answer.refusal
    }

    #[test]
    fn refusals_come_in_order() {
        assert_eq!(refused(&SMALL_SHOP[1..], 1440, 0), 3);
        assert_eq!(refused(&SMALL_SHOP, 1440, 0), 11);
        assert_eq!(refused(&SMALL_SHOP, 1440, 13), 11);
        assert_eq!(refused(&SMALL_SHOP, 1439, 0), 19);
        assert_eq!(refused(&SMALL_SHOP, 1439, 12), 19);
    }

    #[test]
    fn a_list_is_refused_behind_the_base_and_before_the_context() {
        let by = |base, minute, list, room| {
            let reading = Reading::Paper;
            refused_as(reading, base, minute, Some(list), room)
        };
        for list in [&[][..], &[0, 0], &[3], &[0, 1, 2, 0]] {
            assert_eq!(by(&SMALL_SHOP[1..], 1440, list, 0), 3);
            assert_eq!(by(&SMALL_SHOP, 1440, list, 0), 22);
            assert_eq!(by(&SMALL_SHOP, 600, list, 0), 22);
            assert_eq!(by(&SMALL_SHOP, 600, list, 13), 22);
        }
        assert_eq!(by(&SMALL_SHOP, 1440, &[2, 0, 1], 0), 11);
        assert_eq!(by(&SMALL_SHOP, 600, &[2, 0, 1], 12), 19);
    }

    /// The manager's policy of weight 3, with a later one of weight 1 and type 0
    /// behind it: early the manager weighs 4 or 2, and the buyer 1.
    #[test]
    fn by_a_list_other_groups_suffice() {
        let base = later_policy_behind();
        let mut out = [7; 14];
        let by = |list: &[u8], out: &mut [u8]| report_by(&base, at_minute(480), list, out);
        assert_eq!(by(&[1, 0], &mut out), Answer::done(0));
        assert_eq!(out[..2], [0, 255]);
        assert_eq!(by(&[1], &mut out), Answer::done(1));
        assert_eq!(out[..6], [2, 0, 0, 1, 1, 255]);
        assert_eq!(out[13], 7);
    }

    /// The small shop with its manager's policy twice, the second time of weight
    /// 1 and from day 1 on.
    fn later_policy_behind() -> Vec<u8> {
        let mut base = SMALL_SHOP.to_vec();
        (base[116], base[118]) = (4, 102);
        base.splice(94..94, [0, 0, 1, 0, 255, 0, 1, 0]);
        base
    }

    #[test]
    fn a_wrong_reading_ignores_the_list() {
        let base = later_policy_behind();
        let mut out = [7; 13];
        let wrong = Reading::ListIgnored;
        let answer = report_as(wrong, &base, at_minute(480), Some(&[0]), &mut out);
        assert_eq!((answer, out[0]), (Answer::done(1), 2));
        assert_eq!(refused_as(wrong, &base, 480, Some(&[]), 13), 22);
    }

    /// The small shop's k by a reading at minute 600 on date 300, where the
    /// manager's last day is this one. Without the manager, who weighs 5, the
    /// buyer's 2 and both clerks' 1 don't suffice.
    fn with_managers_last_day(reading: Reading, day: u16) -> u8 {
        let mut base = SMALL_SHOP;
        base[10..12].copy_from_slice(&day.to_le_bytes());
        let mut out = [7; 13];
        let answer = report_as(reading, &base, at_minute(600), None, &mut out);
        assert_eq!((answer.refusal, answer.count), (0, u32::from(out[0] > 0)));
        out[0]
    }

    #[test]
    fn only_users_who_come_on_the_date_are_considered() {
        let days = [0, 299, 300, 301, 65_535];
        let paper = days.map(|day| with_managers_last_day(Reading::Paper, day));
        assert_eq!(paper, [0, 0, 2, 2, 2]);
        let forgotten = days.map(|day| with_managers_last_day(Reading::DaysForgotten, day));
        assert_eq!(forgotten, [2; 5]);
    }

    #[test]
    fn an_exact_buffer_suffices() {
        let mut out = [7; 13];
        assert_eq!(report(&SMALL_SHOP, at_minute(0), &mut out).refusal, 0);
    }

    #[test]
    fn without_permissions_there_is_nothing_to_write() {
        let mut base = [0; 36];
        base[28] = 8;
        base[32..].copy_from_slice(b"LCAQ");
        assert_eq!(report(&base, at_minute(0), &mut []), Answer::done(0));
    }

    #[test]
    fn each_permission_has_its_own_part() {
        let mut base = two_permissions();
        let mut out = [7; 27];
        assert_eq!(report(&base, at_minute(600), &mut out), Answer::done(1));
        assert_eq!((out[0], out[13], out[26]), (0, 2, 7));
        base[40] = 0;
        assert_eq!(report(&base, at_minute(600), &mut out), Answer::done(0));
        assert_eq!((out[0], out[13]), (0, 0));
    }

    /// The small shop with a permission put before its own.
    fn two_permissions() -> Vec<u8> {
        let mut base = SMALL_SHOP.to_vec();
        for policy in [70, 78, 86] {
            base[policy + 1] = 1;
        }
        base[38] = 1;
        for offset in [106, 110, 114, 118] {
            base[offset] += 2;
        }
        base[104] = 2;
        base.splice(36..36, [0, 0]);
        base
    }
}
