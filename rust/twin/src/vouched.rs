//! Decisions and reports by a register: the first entry of a group is the
//! requester's, and the others vouch for him.

use model::{Answer, Context};

use crate::base::Base;
use crate::beside::Search;
use crate::register::{self, Statement, Wanted};
use crate::weights::{all_weights, role_weights, setting};
use crate::{decide_checked, RECORD};

/// 0 where the group is granted the permission, else the first of refusals 1 to 9,
/// 25, 27, 10 to 15, 24, 26, 16 and 17 that applies.
pub fn decide_vouched(
    base: &[u8],
    permission: u32,
    at: Context,
    register: &[u8],
    threshold: u32,
    group: &[u8],
) -> u8 {
    let (base, statements) = match read_both(base, register, threshold) {
        Ok(both) => both,
        Err(refusal) => return refusal,
    };
    let lacking = |entries: &[[u8; 2]]| {
        let wanted = Wanted {
            requester: entries[0][0],
            threshold: threshold as u8,
            date: at.date,
        };
        let others = entries[1..].iter();
        let others = others.fold(0, |users, entry| users | 1 << (entry[0] & 31));
        !wanted.vouched_by(statements, permission as u8, others)
    };
    decide_checked(
        &base,
        permission,
        at,
        group,
        lacking,
        |setting, permission| role_weights(&base, setting, permission),
    )
}

/// A base and the statements of a register, or the first of refusals 1 to 9, 25 and
/// 27 that applies.
fn read_both<'a>(
    base: &'a [u8],
    register: &'a [u8],
    threshold: u32,
) -> Result<(Base<'a>, &'a [Statement]), u8> {
    let base = Base::read(base)?;
    let statements = register::read(&base, register)?;
    match threshold {
        1..=5 => Ok((base, statements)),
        _ => Err(27),
    }
}

/// Writes a record for each permission: as a report's, but of the groups that the
/// decision by the register grants with the requester first, and the requester's
/// entry before the others by rising user. The first of refusals 1 to 9, 25, 27, 11,
/// 13 and 19.
pub fn report_vouched(
    base: &[u8],
    at: Context,
    register: &[u8],
    threshold: u32,
    requester: u32,
    out: &mut [u8],
) -> Answer {
    match report(base, at, register, threshold, requester, out) {
        Ok(count) => Answer { refusal: 0, count },
        Err(refusal) => Answer { refusal, count: 0 },
    }
}

fn report(
    base: &[u8],
    at: Context,
    register: &[u8],
    threshold: u32,
    requester: u32,
    out: &mut [u8],
) -> Result<u32, u8> {
    let (base, statements) = read_both(base, register, threshold)?;
    if !at.in_range() {
        return Err(11);
    }
    if base.users.len() as u32 <= requester {
        return Err(13);
    }
    let records = out.as_chunks_mut::<RECORD>().0;
    let records = records.get_mut(..base.permissions.len()).ok_or(19)?;
    let wanted = Wanted {
        requester: requester as u8,
        threshold: threshold as u8,
        date: at.date,
    };
    Ok(fill(&base, at, wanted, statements, records))
}

/// Writes the records; the number of permissions that have a group.
#[inline(never)]
fn fill(
    base: &Base,
    at: Context,
    wanted: Wanted,
    statements: &[Statement],
    records: &mut [[u8; RECORD]],
) -> u32 {
    let setting = setting(base, at);
    let w = all_weights(base, &setting);
    let users = wanted.vouching(statements);
    Search::new(base, &setting, wanted.requester).fill(&w, &users, records)
}

#[cfg(test)]
mod tests {
    use super::*;
    use crate::draws::*;
    use crate::plan::Plan;
    use crate::MOST;

    const PERMISSIONS: u8 = 4;

    /// A plan whose clauses mostly ask for more entries or sums than one has, and its
    /// bytes with users' days.
    fn random_base(draws: &mut Draws) -> (Plan, Vec<u8>) {
        let mut plan = random_plan(draws);
        for (_, conditions) in &mut plan.clauses {
            let more = [(0, 2, draws.byte(2, 6)), (1, 2, draws.byte(4, 60))];
            match draws.below(4) {
                0 => (),
                1 => conditions.truncate(1),
                place => conditions[0] = more[place - 2],
            }
        }
        let base = with_days(draws, plan.bytes());
        (plan, base)
    }

    /// Days that begin or end at the date, or beside it.
    fn random_days(draws: &mut Draws) -> [u8; 4] {
        let date = AT.date as u16;
        let first = [0, 0, date, date + 1][draws.below(4)];
        let last = [65_535, 65_535, date, date - 1][draws.below(4)];
        let [a, b] = first.min(last).to_le_bytes();
        let [c, d] = last.max(first).to_le_bytes();
        [a, b, c, d]
    }

    /// Statements that mostly name the requester, at times one of them spoilt.
    fn random_register(draws: &mut Draws, users: usize, requester: u8) -> Vec<u8> {
        let Some(last) = users.checked_sub(1) else {
            return vec![];
        };
        let mut statements: Vec<[u8; 8]> = (0..draws.below(257))
            .map(|_| {
                let to = [requester, requester, draws.byte(0, last as u8)][draws.below(3)];
                let [a, b, c, d] = random_days(draws);
                let permission = draws.byte(0, PERMISSIONS - 1);
                let issuer = draws.byte(0, last as u8);
                [issuer, to, permission, draws.byte(1, 5), a, b, c, d]
            })
            .collect();
        if draws.below(20) == 0 && !statements.is_empty() {
            let place = draws.below(statements.len());
            statements[place][draws.below(8)] = draws.byte(0, 255);
        }
        let mut register = statements.concat();
        if draws.below(20) == 0 {
            register.resize(register.len() + draws.below(9), 0);
        }
        register
    }

    /// A register and a threshold for a requester.
    struct Trust<'a> {
        register: &'a [u8],
        threshold: u32,
        requester: u32,
    }

    /// Asserts that the record is right; its number.
    fn expect_smallest(base: &[u8], trust: &Trust, permission: u32, record: &[u8]) -> u8 {
        let &Trust {
            register,
            threshold,
            requester,
        } = trust;
        let smallest = model::smallest_vouched_by_reach;
        let k = smallest(base, AT, register, threshold, requester, permission);
        let (group, left) = record[1..].split_at(2 * usize::from(k));
        assert!(record[0] == k && left.iter().all(|&byte| byte == 255));
        if k > 0 {
            let decide = model::decide_vouched;
            assert_eq!(decide(base, permission, AT, register, threshold, group), 0);
            assert!(u32::from(group[0]) == requester && rises(&group[2..]));
        }
        k
    }

    #[test]
    fn a_smallest_group_is_shown_for_each_permission() {
        let mut draws = Draws(12);
        let (mut seen, mut refused) = ([0; 1 + MOST], 0);
        for _ in 0..2_000 {
            let (plan, base) = random_base(&mut draws);
            let Some(last) = plan.users.len().checked_sub(1) else {
                continue;
            };
            let user = draws.byte(0, last as u8);
            let register = &random_register(&mut draws, plan.users.len(), user)[..];
            let (threshold, requester) = (draws.byte(1, 5).into(), u32::from(user));
            let mut out = [7; 4 * RECORD + 1];
            let answer = report_vouched(&base, AT, register, threshold, requester, &mut out);
            if answer.refusal != 0 {
                assert_eq!((answer.refusal, answer.count), (25, 0));
                assert_eq!(out, [7; 4 * RECORD + 1]);
                refused += 1;
                continue;
            }
            let trust = Trust {
                register,
                threshold,
                requester,
            };
            let records = (0..).zip(out.chunks_exact(RECORD));
            let numbers = records.map(|(p, record)| expect_smallest(&base, &trust, p, record));
            let numbers: Vec<u8> = numbers.collect();
            numbers.iter().for_each(|&k| seen[usize::from(k)] += 1);
            let count = numbers.iter().filter(|&&k| k > 0).count();
            assert_eq!((answer.count, out[4 * RECORD]), (count as u32, 7));
        }
        assert!(refused > 20, "{refused}");
        assert!(seen.iter().all(|&times| times > 5), "{seen:?}");
    }

    #[test]
    fn a_decision_is_the_models() {
        let mut draws = Draws(13);
        let mut answers = [0; 28];
        for _ in 0..4_000 {
            let (plan, base) = random_base(&mut draws);
            for _ in 0..5 {
                let group = random_group(&mut draws, &plan.users);
                let requester = group.first().copied().unwrap_or(0);
                let register = random_register(&mut draws, plan.users.len(), requester);
                let permission = number(&mut draws, 0, PERMISSIONS.into());
                let threshold = number(&mut draws, 1, 6);
                let answer = decide_vouched(&base, permission, AT, &register, threshold, &group);
                let decide = model::decide_vouched;
                let by_model = decide(&base, permission, AT, &register, threshold, &group);
                assert_eq!(answer, by_model);
                answers[usize::from(answer)] += 1;
            }
        }
        for answer in [0, 10, 12, 13, 14, 15, 16, 17, 24, 25, 26, 27] {
            assert!(answers[answer] > 5, "{answers:?}");
        }
    }

    #[test]
    fn refusals_come_in_order_and_write_nothing() {
        let late = Context { minute: 1440, ..AT };
        let (plan, base) = random_base(&mut Draws(7));
        let users = plan.users.len() as u32;
        let refused = |base: &[u8], at, register: &[u8], threshold, requester, room| {
            let mut out = vec![7; room];
            let answer = report_vouched(base, at, register, threshold, requester, &mut out);
            assert_eq!((answer.count, out), (0, vec![7; room]));
            answer.refusal
        };
        assert!(users > 0);
        assert_eq!(refused(&base[1..], late, &[0], 0, users, 0), 3);
        assert_eq!(refused(&base, late, &[0], 0, users, 0), 25);
        assert_eq!(refused(&base, late, &[0; 2_056], 0, users, 0), 25);
        assert_eq!(refused(&base, late, &[], 0, users, 0), 27);
        assert_eq!(refused(&base, late, &[], 257, users, 0), 27);
        assert_eq!(refused(&base, late, &[], 1, users, 0), 11);
        assert_eq!(refused(&base, AT, &[], 1, users, 0), 13);
        assert_eq!(refused(&base, AT, &[], 1, 256, 0), 13);
        assert_eq!(refused(&base, AT, &[], 1, users - 1, 4 * RECORD - 1), 19);
    }
}
