//! The decision and the report among those who vouch for a requester: a group's
//! first entry is the requester's.

use crate::answer::Answer;
use crate::base::Base;
use crate::context::Context;
use crate::decision::Question;
use crate::group::Entry;
use crate::reading::Reading;
use crate::refusal::{number, refuse_if, Refusal};
use crate::report::{bytes_for, write_groups};
use crate::smallest::smallest_group;
use crate::smallest_vouched::smallest_group_for;
use crate::vouching::Vouching;

/// 0 if the group is granted the permission, else the first of refusals 1 to 9,
/// 25, 27, 10 to 15, 24, 26, 16 and 17 that applies.
pub fn decide_vouched(
    base: &[u8],
    permission: u32,
    at: Context,
    register: &[u8],
    threshold: u32,
    group: &[u8],
) -> u8 {
    decide_vouched_as(
        Reading::Paper,
        base,
        permission,
        at,
        register,
        threshold,
        group,
    )
}

/// The same by this reading.
pub fn decide_vouched_as(
    reading: Reading,
    base: &[u8],
    permission: u32,
    at: Context,
    register: &[u8],
    threshold: u32,
    group: &[u8],
) -> u8 {
    number(Base::read_as(reading, base).and_then(|base| {
        let vouching = Vouching::lent(reading, &base, register, threshold)?;
        let question = Question::new(&base, permission, at, reading)?;
        question.vouched(&vouching).ask(group)
    }))
}

/// Writes a record for each permission: the number of entries of a smallest group
/// that [`decide_vouched`] grants with the requester first, and the group, the
/// others by rising user. Later bytes keep their contents. The answer carries how
/// many permissions have a group, or the first of refusals 1 to 9, 25, 27, 11, 13
/// and 19 that applies. No refusal writes.
pub fn report_vouched(
    base: &[u8],
    at: Context,
    register: &[u8],
    threshold: u32,
    requester: u32,
    out: &mut [u8],
) -> Answer {
    report_vouched_as(
        Reading::Paper,
        base,
        at,
        register,
        threshold,
        requester,
        out,
    )
}

/// The same by this reading.
pub fn report_vouched_as(
    reading: Reading,
    base: &[u8],
    at: Context,
    register: &[u8],
    threshold: u32,
    requester: u32,
    out: &mut [u8],
) -> Answer {
    let groups = Base::read_as(reading, base).and_then(|base| {
        let vouching = Vouching::lent(reading, &base, register, threshold)?;
        let requester = base.user(requester);
        if reading == Reading::RequesterFirst {
            requester.ok_or(Refusal::NoUserOrRole)?;
        }
        refuse_if(!at.in_range(), Refusal::Context)?;
        let requester = requester.ok_or(Refusal::NoUserOrRole)?;
        refuse_if(out.len() < bytes_for(&base), Refusal::ReportBuffer)?;
        let permissions = 0..base.permissions.len() as u32;
        let groups = permissions.map(|permission| {
            let question = Question::new(&base, permission, at, reading)?;
            Ok(group_to_show(reading, question, &vouching, requester).unwrap_or_default())
        });
        groups.collect()
    });
    write_groups(groups, out)
}

fn group_to_show<'a>(
    reading: Reading,
    question: Question<'a>,
    vouching: &'a Vouching,
    requester: u8,
) -> Option<Vec<Entry>> {
    match reading {
        Reading::FirstReport => smallest_group(&question),
        _ => smallest_group_for(&question.vouched(vouching), requester),
    }
}

#[cfg(test)]
mod tests {
    use super::*;
    use crate::decision::decide;
    use crate::report::report;
    use crate::samples::*;

    /// Users 1 and 3 of the small shop trust user 0 at 3, user 0 trusts user 2.
    fn register() -> Vec<u8> {
        statement_bytes(&[statement(1, 0, 3), statement(3, 0, 3), statement(0, 2, 5)])
    }

    /// The small shop's answer by a reading at threshold 3, at a minute.
    fn ask_as(reading: Reading, minute: u32, group: &[[u8; 2]]) -> u8 {
        let (at, group) = (at_minute(minute), group.concat());
        decide_vouched_as(reading, &SMALL_SHOP, 0, at, &register(), 3, &group)
    }

    fn ask(group: &[[u8; 2]]) -> u8 {
        ask_as(Reading::Paper, 600, group)
    }

    #[test]
    fn each_other_entrys_user_vouches_for_the_first() {
        assert_eq!(ask(&[MANAGER, BUYER]), 0);
        assert_eq!(ask(&[MANAGER, OTHER_CLERK]), 0);
        assert_eq!(ask(&[MANAGER, BUYER, OTHER_CLERK]), 0);
        assert_eq!(ask(&[MANAGER, CLERK]), 26);
        assert_eq!(ask(&[MANAGER, BUYER, CLERK]), 26);
        assert_eq!(ask(&[MANAGER, CLERK, BUYER]), 26);
    }

    #[test]
    fn the_first_entry_requests() {
        assert_eq!(ask(&[CLERK, MANAGER]), 0);
        assert_eq!(ask(&[BUYER, MANAGER]), 26);
        let last = |group: &[[u8; 2]]| ask_as(Reading::LastEntryRequests, 600, group);
        assert_eq!(last(&[MANAGER, CLERK]), 0);
        assert_eq!(last(&[CLERK, MANAGER]), 26);
    }

    #[test]
    fn a_requester_alone_needs_no_statement() {
        assert_eq!(ask(&[MANAGER]), 17);
        assert_eq!(ask(&[BUYER]), 17);
        let vouched = |group| ask_as(Reading::RequesterVouched, 600, group);
        assert_eq!(vouched(&[MANAGER]), 26);
        assert_eq!(vouched(&[MANAGER, BUYER]), 26);
    }

    /// The small shop where a clerk's days are over, early, when clerks have no
    /// weight. Nobody trusts the buyer.
    fn ask_gone(reading: Reading, group: &[[u8; 2]]) -> u8 {
        let mut shop = SMALL_SHOP;
        shop[26..28].copy_from_slice(&299_u16.to_le_bytes());
        let (at, group) = (at_minute(480), group.concat());
        decide_vouched_as(reading, &shop, 0, at, &register(), 3, &group)
    }

    #[test]
    fn refusal_26_stands_between_24_and_16() {
        let paper = |group: &[[u8; 2]]| ask_gone(Reading::Paper, group);
        assert_eq!(paper(&[BUYER, MANAGER, CLERK]), 24);
        assert_eq!(paper(&[BUYER, MANAGER, [3, 1]]), 15);
        assert_eq!(paper(&[BUYER, OTHER_CLERK]), 26);
        assert_eq!(paper(&[MANAGER, OTHER_CLERK]), 16);
        let before_days = |group| ask_gone(Reading::VouchingBeforeDays, group);
        assert_eq!(before_days(&[BUYER, MANAGER, CLERK]), 26);
        let after_weight = |group| ask_gone(Reading::VouchingAfterWeight, group);
        assert_eq!(after_weight(&[BUYER, OTHER_CLERK]), 16);
        assert_eq!(after_weight(&[BUYER, MANAGER]), 26);
    }

    /// With every other fault of the call there is.
    #[test]
    fn refusals_25_and_27_come_behind_the_base_and_before_10() {
        let late = at_minute(1440);
        let ask = |base: &[u8], permission, register: &[u8], threshold| {
            decide_vouched(base, permission, late, register, threshold, &[])
        };
        assert_eq!(ask(&SMALL_SHOP[1..], 1, &[0; 7], 0), 3);
        assert_eq!(ask(&SMALL_SHOP, 1, &[0; 7], 0), 25);
        assert_eq!(ask(&SMALL_SHOP, 1, &register(), 0), 27);
        assert_eq!(ask(&SMALL_SHOP, 1, &register(), 5), 10);
        assert_eq!(ask(&SMALL_SHOP, 0, &[], 5), 11);
    }

    #[test]
    fn without_statements_only_a_requester_alone_is_granted() {
        let mut shop = SMALL_SHOP;
        shop[42] = 1;
        for (group, answer) in [(&[0, 0][..], 0), (&[0, 0, 2, 2], 26), (&[1, 1], 17)] {
            let alone = decide_vouched(&shop, 0, at_minute(600), &[], 1, group);
            assert_eq!(alone, answer);
        }
        assert_eq!(decide(&shop, 0, at_minute(600), &[0, 0, 2, 2]), 0);
    }

    /// The small shop's report by a reading at threshold 3, with the answer.
    fn shown(reading: Reading, requester: u32) -> (u8, u32, [u8; 15]) {
        let mut out = [7; 15];
        let (at, register) = (at_minute(600), register());
        let answer = report_vouched_as(reading, &SMALL_SHOP, at, &register, 3, requester, &mut out);
        (answer.refusal, answer.count, out)
    }

    #[test]
    fn the_requester_stands_first() {
        let (refusal, count, out) = shown(Reading::Paper, 2);
        assert_eq!((refusal, count), (0, 1));
        assert_eq!(out[..5], [2, 2, 2, 0, 0]);
        assert_eq!(out[5..], [255, 255, 255, 255, 255, 255, 255, 255, 7, 7]);
        let (_, count, out) = shown(Reading::Paper, 0);
        assert_eq!((count, out[0], out[1]), (1, 2, 0));
    }

    #[test]
    fn nobody_vouches_for_the_buyer() {
        for requester in [1, 3] {
            let (refusal, count, out) = shown(Reading::Paper, requester);
            assert_eq!((refusal, count), (0, 0));
            assert_eq!(out[..2], [0, 255]);
            let (_, count, out) = shown(Reading::FirstReport, requester);
            assert_eq!((count, out[0]), (1, 2));
        }
    }

    /// By day the manager weighs 5; a sum of 10 takes both trusted users and one
    /// more.
    #[test]
    fn a_number_is_larger_or_there_is_none_than_in_the_first_report() {
        let mut shop = SMALL_SHOP;
        let mut report_of = |sum, register: &[u8]| {
            shop[45] = sum;
            let mut out = [7; 13];
            report(&shop, at_minute(600), &mut out);
            let first = out[0];
            report_vouched(&shop, at_minute(600), register, 1, 0, &mut out);
            (first, out[0])
        };
        let clerks = statement_bytes(&[statement(2, 0, 1), statement(3, 0, 1)]);
        assert_eq!(report_of(6, &clerks), (2, 2));
        assert_eq!(report_of(7, &clerks), (2, 3));
        assert_eq!(report_of(8, &clerks), (3, 0));
        assert_eq!(report_of(7, &clerks[..8]), (2, 0));
    }

    #[test]
    fn a_requester_out_of_date_has_no_group() {
        let mut shop = SMALL_SHOP;
        shop[10..12].copy_from_slice(&299_u16.to_le_bytes());
        let mut out = [7; 13];
        let answer = report_vouched(&shop, at_minute(600), &register(), 1, 0, &mut out);
        assert_eq!((answer, out[0]), (Answer::done(0), 0));
        let answer = report_vouched(&shop, at_minute(600), &register(), 1, 2, &mut out);
        assert_eq!((answer, out[0]), (Answer::done(0), 0));
    }

    /// The manager is asked for twice, and trusts the manager.
    #[test]
    fn a_wrong_search_lets_the_requester_stand_again() {
        let mut shop = SMALL_SHOP;
        shop[45] = 10;
        let number = |reading, statements: &[_]| {
            let (register, mut out) = (statement_bytes(statements), [7; 13]);
            report_vouched_as(reading, &shop, at_minute(600), &register, 1, 0, &mut out);
            out[0]
        };
        let to_oneself = [statement(0, 0, 5)];
        assert_eq!(number(Reading::Paper, &to_oneself), 0);
        assert_eq!(number(Reading::RequesterAgain, &to_oneself), 2);
        assert_eq!(number(Reading::RequesterAgain, &[]), 0);
    }

    /// The refusal, if nothing was written and the count is 0.
    fn refused(
        reading: Reading,
        base: &[u8],
        minute: u32,
        (register, threshold): (&[u8], u32),
        requester: u32,
        room: usize,
    ) -> u8 {
        let mut out = vec![7; room];
        let at = at_minute(minute);
        let answer = report_vouched_as(reading, base, at, register, threshold, requester, &mut out);
        assert_eq!((answer.count, out), (0, vec![7; room]));
        answer.refusal
    }

    #[test]
    fn refusals_of_a_report_come_in_order() {
        let of_shop = |reading, minute, register: &[u8], threshold, requester, room| {
            refused(
                reading,
                &SMALL_SHOP,
                minute,
                (register, threshold),
                requester,
                room,
            )
        };
        let paper = Reading::Paper;
        assert_eq!(
            refused(paper, &SMALL_SHOP[1..], 1440, (&[0; 7], 0), 4, 0),
            3
        );
        assert_eq!(of_shop(paper, 1440, &[0; 7], 0, 4, 0), 25);
        assert_eq!(of_shop(paper, 1440, &[], 0, 4, 0), 27);
        assert_eq!(of_shop(paper, 1440, &[], 1, 4, 0), 11);
        assert_eq!(of_shop(paper, 600, &[], 1, 4, 0), 13);
        assert_eq!(of_shop(paper, 600, &[], 1, 256, 13), 13);
        assert_eq!(of_shop(paper, 600, &[], 1, 3, 12), 19);
        assert_eq!(of_shop(Reading::ThresholdFirst, 1440, &[0; 7], 0, 4, 0), 27);
        assert_eq!(of_shop(Reading::RequesterFirst, 1440, &[], 1, 4, 0), 13);
        assert_eq!(of_shop(Reading::RequesterFirst, 1440, &[], 1, 3, 0), 11);
    }
}
