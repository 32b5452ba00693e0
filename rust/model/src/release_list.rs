//! What program `release_list` prints.

use crate::answer::Answer;
use crate::base::Base;
use crate::context::Context;
use crate::fields::Fields;
use crate::refusal::Refusal;
use crate::report::{report, RECORD};

/// The lines for an input: minute in 2 bytes, day, zone, date in 2 bytes and then
/// a base.
pub fn render(input: &[u8]) -> String {
    let Some((at, base)) = input.split_first_chunk::<6>() else {
        return lines(Answer::refused(Refusal::Length), &[]);
    };
    let mut fields = Fields::of(at);
    let at = Context {
        minute: fields.short().into(),
        day: fields.byte().into(),
        zone: fields.byte().into(),
        date: fields.short().into(),
    };
    let permissions = Base::read(base).map_or(0, |base| base.permissions.len());
    let mut records = vec![0; RECORD * permissions];
    let answer = report(base, at, &mut records);
    lines(answer, &records)
}

/// The lines for a report's answer and records.
pub fn lines(answer: Answer, records: &[u8]) -> String {
    if answer.refusal != 0 {
        return format!("refused {}\n", answer.refusal);
    }
    let permissions: String = records
        .chunks_exact(RECORD)
        .enumerate()
        .map(|(permission, record)| line(permission, record))
        .collect();
    format!("{permissions}releasable {}\n", answer.count)
}

/// A permission's number, k and the group by rising user.
fn line(permission: usize, record: &[u8]) -> String {
    let k = record[0];
    let mut group: Vec<&[u8]> = record[1..].chunks_exact(2).take(k.into()).collect();
    group.sort();
    let group: String = group
        .iter()
        .map(|entry| format!(" {}/{}", entry[0], entry[1]))
        .collect();
    format!("permission {permission}: {k}{group}\n")
}

#[cfg(test)]
mod tests {
    use super::*;
    use crate::samples::SMALL_SHOP;

    /// The lines for a minute, day, zone and date and a base.
    fn printed(at: [u8; 6], base: &[u8]) -> String {
        render(&[&at, base].concat())
    }

    const MINUTE_480: [u8; 6] = [0xe0, 0x01, 0, 0, 0, 0];
    const MINUTE_1440: [u8; 6] = [0xa0, 0x05, 0, 0, 0, 0];

    #[test]
    fn the_papers_example() {
        let text = printed(MINUTE_480, &SMALL_SHOP);
        assert_eq!(text, "permission 0: 2 0/0 1/1\nreleasable 1\n");
    }

    /// The buyer's last day is 300: from the next one on the manager needs
    /// another user, and by 480 there is none with weight.
    #[test]
    fn the_date_is_read_in_two_bytes_behind_the_zone() {
        let mut shop = SMALL_SHOP;
        (shop[18], shop[19]) = (0x2c, 0x01);
        let on = |date: u16| {
            let [low, high] = date.to_le_bytes();
            printed([0xe0, 0x01, 0, 0, low, high], &shop)
        };
        let granted = "permission 0: 2 0/0 1/1\nreleasable 1\n";
        assert_eq!([0, 1, 299, 300].map(on), [granted; 4]);
        let refused = "permission 0: 0\nreleasable 0\n";
        assert_eq!([301, 0x2d2c, 65_535].map(on), [refused; 3]);
    }

    #[test]
    fn a_permission_that_nobody_can_release() {
        let mut shop = SMALL_SHOP;
        shop[45] = 6;
        let text = printed(MINUTE_480, &shop);
        assert_eq!(text, "permission 0: 0\nreleasable 0\n");
    }

    #[test]
    fn a_base_without_permissions() {
        let mut base = [0; 36];
        base[28] = 1;
        base[32..].copy_from_slice(b"LCAQ");
        assert_eq!(printed(MINUTE_480, &base), "releasable 0\n");
        assert_eq!(printed(MINUTE_1440, &base), "refused 11\n");
    }

    #[test]
    fn short_input_is_refused() {
        for length in 0..=6 {
            assert_eq!(render(&MINUTE_480[..length]), "refused 1\n");
        }
        assert_eq!(render(&MINUTE_1440), "refused 1\n");
    }

    #[test]
    fn a_refused_base_comes_before_the_context() {
        assert_eq!(printed(MINUTE_1440, &SMALL_SHOP), "refused 11\n");
        assert_eq!(printed(MINUTE_1440, &SMALL_SHOP[1..]), "refused 3\n");
        assert_eq!(printed([0, 0, 7, 0, 0, 0], &SMALL_SHOP), "refused 11\n");
        let last = printed([0x9f, 0x05, 6, 255, 255, 255], &SMALL_SHOP);
        assert_eq!(last.lines().count(), 2);
    }

    #[test]
    fn a_group_is_printed_by_rising_user() {
        let record = [3, 9, 1, 10, 0, 2, 7, 255, 255, 255, 255, 255, 255];
        let text = lines(Answer::done(1), &record);
        assert_eq!(text, "permission 0: 3 2/7 9/1 10/0\nreleasable 1\n");
    }
}
