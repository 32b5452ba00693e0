//! The library's calls in plain Rust, tuned: the same tables, the same steps.
//! For measuring what a call costs, and which bases cost most.

mod acting;
mod allowed;
mod asked;
mod back;
mod base;
mod batch;
mod beside;
mod bound;
mod check;
mod clause_masks;
mod conditions;
pub mod counts;
#[cfg(test)]
mod draws;
mod ends;
mod groups;
mod masks;
mod multisets;
mod operators;
mod parameter;
pub mod plan;
mod register;
mod related;
mod resolution;
mod rows;
mod search;
mod sheet;
mod users;
mod vouched;
mod weights;
pub mod worst;

use base::Base;
use model::{Answer, Context};
use resolution::Rules;
use weights::{Setting, Weights};

pub use batch::batch;
pub use bound::bound;
pub use parameter::parameter;
pub use sheet::{sheet_ask, sheet_open, sheet_sign, sheet_withdraw};
pub use vouched::{decide_vouched, report_vouched};

/// The identity codes of roles 0 to 7.
const CODES: [u32; 8] = [3, 5, 7, 11, 13, 17, 19, 23];

/// The most entries of a group.
pub const MOST: usize = 6;

/// Bytes of a permission's record: k and six entries.
pub const RECORD: usize = 1 + 2 * MOST;

/// 0, or the first of refusals 1 to 9 that applies.
pub fn check(base: &[u8]) -> u8 {
    Base::read(base).err().unwrap_or(0)
}

/// 0 where the group is granted the permission, else the first of refusals 1
/// to 15, 24, 16 and 17 that applies.
pub fn decide(base: &[u8], permission: u32, at: Context, group: &[u8]) -> u8 {
    let base = match Base::read(base) {
        Ok(base) => base,
        Err(refusal) => return refusal,
    };
    decide_checked(
        &base,
        permission,
        at,
        group,
        |_| false,
        |setting, permission| weights::role_weights(&base, setting, permission),
    )
}

/// The same by a resolution list: the first of refusals 1 to 9, 22, 10 to 15, 24,
/// 16 and 17.
pub fn decide_by(base: &[u8], permission: u32, at: Context, list: &[u8], group: &[u8]) -> u8 {
    let (base, rules) = match read_both(base, list) {
        Ok(both) => both,
        Err(refusal) => return refusal,
    };
    decide_checked(
        &base,
        permission,
        at,
        group,
        |_| false,
        |setting, permission| weights::role_weights_by(&base, setting, permission, &rules),
    )
}

/// A base and a resolution list, or the first of refusals 1 to 9 and 22 that
/// applies.
fn read_both<'a>(base: &'a [u8], list: &[u8]) -> Result<(Base<'a>, Rules), u8> {
    let base = Base::read(base)?;
    Ok((base, Rules::read(list)?))
}

/// 0, or the first of refusals 10 to 15, 24, 26, 16 and 17 that applies; whether it
/// is 26 the entries are asked.
#[inline(always)]
fn decide_checked(
    base: &Base,
    permission: u32,
    at: Context,
    group: &[u8],
    lacking: impl FnOnce(&[[u8; 2]]) -> bool,
    weights: impl FnOnce(&Setting, u8) -> Weights,
) -> u8 {
    if base.permissions.len() as u32 <= permission {
        return 10;
    }
    if !at.in_range() {
        return 11;
    }
    let setting = weights::setting(base, at);
    let permission = permission as u8;
    let weights = || weights(&setting, permission);
    groups::group_refusal(base, permission, &setting, lacking, weights, group)
}

/// Writes the list of conflicts, 3 bytes each. The answer carries their
/// number, also if the buffer is too short. No refusal writes.
pub fn conflicts(base: &[u8], out: &mut [u8]) -> Answer {
    let base = match Base::read(base) {
        Ok(base) => base,
        Err(refusal) => return Answer { refusal, count: 0 },
    };
    let rows = rows::all_rows(&base);
    let count = rows::row_count(&rows);
    let places = out.as_chunks_mut().0;
    if places.len() < count as usize {
        return Answer { refusal: 18, count };
    }
    rows::write_rows(&rows, places);
    Answer { refusal: 0, count }
}

/// Writes a record for each permission: the number of a smallest group's
/// entries and the group, by rising user. Users out of their days are in none.
/// Later bytes keep their contents. The answer carries how many permissions
/// have a group. No refusal writes.
pub fn report(base: &[u8], at: Context, out: &mut [u8]) -> Answer {
    let base = match Base::read(base) {
        Ok(base) => base,
        Err(refusal) => return Answer { refusal, count: 0 },
    };
    report_checked(&base, at, out, |setting| {
        weights::all_weights(&base, setting)
    })
}

/// The same by a resolution list: the first of refusals 1 to 9, 22, 11 and 19.
pub fn report_by(base: &[u8], at: Context, list: &[u8], out: &mut [u8]) -> Answer {
    let (base, rules) = match read_both(base, list) {
        Ok(both) => both,
        Err(refusal) => return Answer { refusal, count: 0 },
    };
    report_checked(&base, at, out, |setting| {
        weights::all_weights_by(&base, setting, &rules)
    })
}

/// The report, or the first of refusals 11 and 19 that applies.
#[inline(always)]
fn report_checked(
    base: &Base,
    at: Context,
    out: &mut [u8],
    weights: impl FnOnce(&Setting) -> [Weights; 16],
) -> Answer {
    let refused = |refusal| Answer { refusal, count: 0 };
    if !at.in_range() {
        return refused(11);
    }
    if out.len() < RECORD * base.permissions.len() {
        return refused(19);
    }
    let records = &mut out.as_chunks_mut().0[..base.permissions.len()];
    let count = fill(base, at, weights, records);
    Answer { refusal: 0, count }
}

/// Writes the records; the number of permissions that have a group.
#[inline(never)]
fn fill(
    base: &Base,
    at: Context,
    weights: impl FnOnce(&Setting) -> [Weights; 16],
    records: &mut [[u8; RECORD]],
) -> u32 {
    let setting = weights::setting(base, at);
    let w = weights(&setting);
    let next_ends = ends::next_ends(base.users, &setting.juniors, at.date);
    search::fill(base, &w, &next_ends, records)
}

#[cfg(test)]
mod tests {
    use super::*;
    use crate::draws::*;
    use plan::Plan;

    #[test]
    fn a_smallest_group_is_shown_for_each_permission() {
        let mut draws = Draws(7);
        let mut seen = [0; 1 + MOST];
        for turn in 0..600 {
            let mut base = random_plan(&mut draws).bytes();
            if turn % 2 == 0 {
                base = with_days(&mut draws, base);
            }
            let mut out = [7; 4 * RECORD + 1];
            let answer = report(&base, AT, &mut out);
            let mut count = 0;
            for (permission, record) in (0..).zip(out.chunks_exact(RECORD)) {
                let k = record[0];
                let (group, left) = record[1..].split_at(2 * usize::from(k));
                assert_eq!(k, model::smallest_by_reach(&base, AT, None, permission));
                assert!(k == 0 || model::decide(&base, permission, AT, group) == 0);
                assert!(rises(group) && left.iter().all(|&byte| byte == 255));
                seen[usize::from(k)] += 1;
                count += u32::from(k > 0);
            }
            assert_eq!((answer.refusal, answer.count), (0, count));
            assert_eq!(out[4 * RECORD], 7);
        }
        assert!(seen.iter().all(|&times| times > 0), "{seen:?}");
    }

    /// A plan with many policies of three roles, and its bytes with few different
    /// issue days and ranks and with users' days. Users hold those roles alone, and
    /// the clauses ask for sums.
    fn rivals(draws: &mut Draws) -> (Plan, Vec<u8>) {
        let mut plan = random_plan(draws);
        for policy in &mut plan.policies {
            policy.0 %= 3;
        }
        for user in &mut plan.users {
            *user = 1 + *user % 7;
        }
        let sum = |draws: &mut Draws| (1, draws.byte(0, 5), draws.byte(1, 16));
        plan.clauses = (0..4).map(|p| (p, vec![sum(draws)])).collect();
        let mut base = with_days(draws, plan.bytes());
        let policies = offset(&base, 5)..offset(&base, 6);
        for policy in base[policies].chunks_exact_mut(8) {
            (policy[5], policy[7]) = (draws.byte(0, 2), draws.byte(0, 2));
        }
        (plan, base)
    }

    #[test]
    fn by_every_list_a_smallest_group_is_shown() {
        let mut draws = Draws(9);
        let mut others = [0; 15];
        for _ in 0..200 {
            let (_, base) = rivals(&mut draws);
            for (list, others) in model::LEGAL_LISTS.into_iter().zip(&mut others) {
                let mut out = [7; 4 * RECORD + 1];
                let answer = report_by(&base, AT, list, &mut out);
                let mut count = 0;
                for (permission, record) in (0..).zip(out.chunks_exact(RECORD)) {
                    let k = record[0];
                    let group = &record[1..=2 * usize::from(k)];
                    let smallest = |list| model::smallest_by_reach(&base, AT, list, permission);
                    assert_eq!(k, smallest(Some(list)));
                    assert!(k == 0 || model::decide_by(&base, permission, AT, list, group) == 0);
                    *others += usize::from(k != smallest(None));
                    count += u32::from(k > 0);
                }
                assert_eq!((answer.refusal, answer.count), (0, count));
                assert_eq!(out[4 * RECORD], 7);
            }
        }
        assert!(others.iter().all(|&times| times > 0), "{others:?}");
    }

    #[test]
    fn by_every_list_a_decision_is_the_models() {
        let mut draws = Draws(10);
        let (mut answers, mut others) = ([0; 25], [0; 15]);
        for _ in 0..1_000 {
            let (plan, base) = rivals(&mut draws);
            let group = random_group(&mut draws, &plan.users);
            let permission = number(&mut draws, 0, 4);
            for (list, others) in model::LEGAL_LISTS.into_iter().zip(&mut others) {
                let answer = decide_by(&base, permission, AT, list, &group);
                let by_model = model::decide_by(&base, permission, AT, list, &group);
                assert_eq!(answer, by_model, "{list:?}");
                answers[usize::from(answer)] += 1;
                let without = model::decide(&base, permission, AT, &group);
                *others += usize::from(answer != without);
            }
        }
        for answer in [0, 10, 12, 13, 14, 15, 24, 16, 17] {
            assert!(answers[answer] > 0, "{answers:?}");
        }
        assert!(others.iter().all(|&times| times > 0), "{others:?}");
    }

    #[test]
    fn a_list_is_refused_behind_the_base_alone() {
        let late = Context { minute: 1440, ..AT };
        let (_, base) = rivals(&mut Draws(7));
        for list in [&[][..], &[0, 0], &[3], &[0, 1, 2, 0]] {
            assert_eq!(decide_by(&base[1..], 4, late, list, &[]), 3);
            assert_eq!(decide_by(&base, 4, late, list, &[]), 22);
            let mut out = [7; 4 * RECORD];
            let answer = report_by(&base, late, list, &mut out[..1]);
            assert_eq!((answer.refusal, answer.count), (22, 0));
            let answer = report_by(&base, AT, list, &mut out);
            assert_eq!((answer.refusal, answer.count), (22, 0));
            assert_eq!(out, [7; 4 * RECORD]);
        }
        assert_eq!(decide_by(&base, 4, late, &[0], &[]), 10);
        assert_eq!(decide_by(&base, 0, late, &[0], &[]), 11);
        assert_eq!(decide_by(&base, 0, AT, &[0], &[]), 12);
        assert_eq!(report_by(&base, late, &[0], &mut []).refusal, 11);
        assert_eq!(report_by(&base, AT, &[0], &mut []).refusal, 19);
    }

    /// The base with exclusions of eight roles and of four permissions.
    fn with_exclusions(draws: &mut Draws, mut base: Vec<u8>) -> Vec<u8> {
        let count = draws.below(33);
        let end = base.len() - 36;
        base[end + 26] = count as u8;
        let exclusion = |draws: &mut Draws| {
            let kind = draws.byte(0, 1);
            let b = draws.byte(1, [7, 3][usize::from(kind)]);
            [kind, draws.byte(0, b - 1), b]
        };
        let exclusions: Vec<u8> = (0..count).flat_map(|_| exclusion(draws)).collect();
        base.splice(end..end, exclusions);
        base
    }

    #[test]
    fn a_list_is_the_models() {
        let mut draws = Draws(11);
        let mut kinds = [0; 4];
        for _ in 0..500 {
            let base = random_plan(&mut draws).bytes();
            let base = with_exclusions(&mut draws, base);
            let base = with_days(&mut draws, base);
            let (mut by_twin, mut by_model) = ([7; 8_400], [7; 8_400]);
            let answer = conflicts(&base, &mut by_twin);
            assert_eq!(answer, model::conflicts(&base, &mut by_model));
            assert_eq!((answer.refusal, by_twin), (0, by_model));
            let list = by_twin.chunks_exact(3).take(answer.count as usize);
            list.for_each(|conflict| kinds[usize::from(conflict[0])] += 1);
            let room = 3 * answer.count as usize;
            if let Some(less) = room.checked_sub(1) {
                let short = conflicts(&base, &mut by_twin[..less]);
                assert_eq!((short.refusal, short.count), (18, answer.count));
            }
        }
        assert!(kinds[1..].iter().all(|&times| times > 500), "{kinds:?}");
    }

    #[test]
    fn a_bound_is_the_models() {
        let mut draws = Draws(8);
        let (mut refusals, mut bounds) = ([0; 22], [0; 25]);
        for _ in 0..2_000 {
            let mut plan = random_plan(&mut draws);
            let base = with_days(&mut draws, plan.bytes());
            for _ in 0..10 {
                let policy = number(&mut draws, 0, plan.policies.len() as u32);
                let weight = number(&mut draws, 1, 6);
                let group = random_group(&mut draws, &plan.users);
                let answer = bound(&base, policy, weight, &group);
                assert_eq!(answer, model::bound(&base, policy, weight, &group));
                refusals[usize::from(answer.refusal)] += 1;
                bounds[answer.count as usize] += 1;
            }
            plan.hierarchy.push((3, 3));
            let answer = bound(&plan.bytes(), 0, 1, &[]);
            assert_eq!((answer.refusal, answer.count), (4, 0));
        }
        for refusal in [0, 12, 13, 14, 15, 21] {
            assert!(refusals[refusal] > 0, "{refusals:?}");
        }
        for bound in [0, 1, 2, 3, 4, 6, 8, 12, 16] {
            assert!(bounds[bound] > 0, "{bounds:?}");
        }
    }

    #[test]
    fn refusals_come_in_order_and_write_nothing() {
        let late = Context { minute: 1440, ..AT };
        let base = random_plan(&mut Draws(7)).bytes();
        let refused = |base: &[u8], at: Context, room: usize| {
            let mut out = vec![7; room];
            let answer = report(base, at, &mut out);
            assert_eq!((answer.count, out), (0, vec![7; room]));
            answer.refusal
        };
        assert_eq!(refused(&base[1..], late, 0), 3);
        assert_eq!(refused(&base, late, 0), 11);
        let no_date = Context { date: 65_536, ..AT };
        assert_eq!(refused(&base, no_date, 0), 11);
        assert_eq!(refused(&base, AT, 4 * RECORD - 1), 19);
    }
}
