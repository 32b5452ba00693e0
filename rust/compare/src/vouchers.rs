//! Random registers and thresholds, made for a question or for a report.

use model::Base;

use crate::questions::Asked;
use crate::random::Random;
use crate::trust::{register_of, Statement, Trust, MOST_STATEMENTS};
use crate::ways::Link;

/// A register for a question about a base: each other entry's user vouches for the
/// first one's, or most of them do. At times damaged, or with another threshold.
pub fn trust_for(random: &mut Random, base: &Base, asked: &Asked) -> Trust {
    let users: Vec<u8> = asked.group.iter().step_by(2).copied().take(6).collect();
    let Some((requester, others)) = users.split_first() else {
        return trust_of(random, base, 1, vec![]);
    };
    let threshold = random.between(1, 5).into();
    let one_in = random.pick(&[None, None, Some(6), Some(3), Some(1)]);
    let mut statements = Vec::new();
    for user in others {
        let link = Link {
            user: *user,
            requester: *requester,
            permission: asked.permission as u8,
            date: asked.at.date,
            threshold,
        };
        statements.extend(vouch(random, base, link, one_in));
    }
    statements.retain(|statement| is_sound(base, statement));
    trust_of(random, base, threshold, statements)
}

/// A register for a report: of each permission all users vouch for the requester,
/// most of them, some or few, as far as there is room.
pub fn trust_in(random: &mut Random, base: &Base, date: u32, requester: u32) -> Trust {
    let threshold = random.between(1, 5).into();
    let mut statements = Vec::new();
    for permission in 0..base.permissions.len() as u8 {
        let one_in = random.pick(&[None, None, Some(8), Some(3), Some(2), Some(1)]);
        for user in 0..base.users.len() as u8 {
            let link = Link {
                user,
                requester: requester as u8,
                permission,
                date,
                threshold,
            };
            statements.extend(vouch(random, base, link, one_in));
        }
    }
    statements.retain(|statement| is_sound(base, statement));
    random.shuffle(&mut statements);
    trust_of(random, base, threshold, statements)
}

/// Mostly a user of a base.
pub fn any_requester(random: &mut Random, base: &Base) -> u32 {
    let users = base.users.len() as u32;
    let inside = random.below(base.users.len().max(1)) as u32;
    if random.chance(12) {
        random.pick(&[users, 255, 256, 256 + inside, 65_536 + inside, u32::MAX])
    } else {
        inside
    }
}

/// The statements, at times with others or damaged, in any order.
fn trust_of(
    random: &mut Random,
    base: &Base,
    threshold: u32,
    mut statements: Vec<Statement>,
) -> Trust {
    statements.truncate(MOST_STATEMENTS);
    let room = MOST_STATEMENTS - statements.len();
    let few = random.below(20);
    let others = random.pick(&[0, 0, few, few, few, room]).min(room);
    if !base.users.is_empty() && !base.permissions.is_empty() {
        let other = |_| any_statement(random, base);
        statements.extend((0..others).map(other).collect::<Vec<_>>());
    }
    random.shuffle(&mut statements);
    let mut register = register_of(&statements);
    if random.chance(12) {
        spoil(random, base, &mut register);
    }
    Trust {
        register,
        threshold: any_threshold(random, threshold),
    }
}

/// Mostly this threshold.
fn any_threshold(random: &mut Random, threshold: u32) -> u32 {
    if random.chance(12) {
        random.pick(&[
            0,
            6,
            7,
            255,
            256,
            256 + threshold,
            65_536 + threshold,
            u32::MAX,
        ])
    } else {
        threshold
    }
}

/// A register of any bytes, and any threshold.
pub fn loose_trust(random: &mut Random) -> Trust {
    let any = random.below(100);
    let length = random.pick(&[0, 8, 16, 24, 2_048, 2_056, any]);
    let last = random.pick(&[1, 3, 8, 255]);
    let register = (0..length).map(|_| random.between(0, last)).collect();
    let threshold = random.between(1, 5).into();
    Trust {
        register,
        threshold: any_threshold(random, threshold),
    }
}

/// Statements by which a user vouches for the requester; for one in so many users
/// such as don't suffice.
fn vouch(random: &mut Random, base: &Base, link: Link, one_in: Option<usize>) -> Vec<Statement> {
    if one_in.is_some_and(|one_in| random.chance(one_in)) {
        return unfit(random, base, link);
    }
    let mut statements = vec![fitting(random, link)];
    if random.chance(4) {
        statements.extend(unfit(random, base, link));
    }
    statements
}

/// A statement that fits, mostly at an edge.
fn fitting(random: &mut Random, link: Link) -> Statement {
    let threshold = link.threshold as u8;
    let trust = random.pick(&[threshold, threshold, 5]);
    let (first, last) = days_around(random, link.date);
    Statement::always(link.user, link.requester, link.permission, trust).on(first, last)
}

/// Days that include the date, if it is in range.
fn days_around(random: &mut Random, date: u32) -> (u16, u16) {
    let date = date.min(65_535) as u16;
    let few = random.between(1, 40).into();
    let first = random.pick(&[date, date.saturating_sub(1), date.saturating_sub(few), 0]);
    let last = random.pick(&[
        date,
        date.saturating_add(1),
        date.saturating_add(few),
        65_535,
    ]);
    (first, last)
}

/// Days that don't include the date, mostly one before or behind.
fn days_apart(random: &mut Random, date: u32) -> (u16, u16) {
    let date = date.min(65_535) as u16;
    let few = random.pick(&[1, 1, 1, 2, 30]);
    let before = date.checked_sub(few).map(|last| (0, last));
    let behind = date.checked_add(few).map(|first| (first, 65_535));
    let apart: Vec<(u16, u16)> = before.into_iter().chain(behind).collect();
    random.pick(&apart)
}

/// Statements that don't suffice, by one fault or together; at times none.
fn unfit(random: &mut Random, base: &Base, link: Link) -> Vec<Statement> {
    let fitting = fitting(random, link);
    match random.below(7) {
        0 => vec![],
        1 => vec![Statement {
            issuer: fitting.requester,
            requester: fitting.issuer,
            ..fitting
        }],
        2 => vec![Statement {
            permission: other_number(random, base.permissions.len(), link.permission),
            ..fitting
        }],
        3 => vec![Statement {
            requester: other_number(random, base.users.len(), link.requester),
            ..fitting
        }],
        4 if link.threshold > 1 => vec![too_low(random, link)],
        5 if link.threshold > 1 => vec![too_low(random, link), apart(random, link)],
        _ => vec![apart(random, link)],
    }
}

/// A statement that fits but for its trust; the threshold is above 1.
fn too_low(random: &mut Random, link: Link) -> Statement {
    let trust = random.pick(&[1, link.threshold as u8 - 1]);
    Statement {
        trust,
        ..fitting(random, link)
    }
}

/// A statement that fits but for its days.
fn apart(random: &mut Random, link: Link) -> Statement {
    let (first, last) = days_apart(random, link.date);
    fitting(random, link).on(first, last)
}

/// Another number below the end, if there is one.
fn other_number(random: &mut Random, end: usize, number: u8) -> u8 {
    let other = random.below(end.max(1)) as u8;
    match other == number {
        true => ((usize::from(number) + 1) % end.max(1)) as u8,
        false => other,
    }
}

/// Any statement that 25 doesn't refuse, of a base that has users and permissions.
fn any_statement(random: &mut Random, base: &Base) -> Statement {
    let [issuer, requester] = [0, 1].map(|_| random.below(base.users.len()) as u8);
    let permission = random.below(base.permissions.len()) as u8;
    let trust = random.between(1, 5);
    let [one, other] = [0, 1].map(|_| u16::from_le_bytes([random.byte(), random.byte()]));
    Statement::always(issuer, requester, permission, trust).on(one.min(other), one.max(other))
}

/// Whether the base has its users and its permission and the trust is 1 to 5.
fn is_sound(base: &Base, statement: &Statement) -> bool {
    let has_user = |user: u8| usize::from(user) < base.users.len();
    let names_users = has_user(statement.issuer) && has_user(statement.requester);
    let has_permission = usize::from(statement.permission) < base.permissions.len();
    names_users && has_permission && (1..=5).contains(&statement.trust)
}

/// Gives the register another length, or one of its statements, mostly the last, a
/// number that isn't there or breaks its range.
fn spoil(random: &mut Random, base: &Base, register: &mut Vec<u8>) {
    if register.is_empty() || random.chance(4) {
        let more = register.len() + 1 + random.below(7);
        let length = random.pick(&[more, 2_049, 2_056, 65_536]);
        register.resize(length, 0);
        return;
    }
    let last = register.len() - 8;
    let any = 8 * random.below(register.len() / 8);
    let at = random.pick(&[last, last, any]);
    let record = &mut register[at..at + 8];
    let (users, permissions) = (base.users.len() as u8, base.permissions.len() as u8);
    match random.below(6) {
        0 => record[0] = random.pick(&[users, 255]),
        1 => record[1] = random.pick(&[users, 255]),
        2 => record[2] = random.pick(&[permissions, 255]),
        3 => record[3] = random.pick(&[0, 6, 255]),
        4 => record[4..].copy_from_slice(&[1, 1, 0, 1]),
        _ => record[4..].copy_from_slice(&[0, 1, 255, 0]),
    }
}

#[cfg(test)]
mod tests {
    use super::*;
    use crate::calls::{Decision, Report};
    use crate::lively::lively_base;
    use crate::questions::{any_context, random_question};
    use crate::sparse::sparse_base;
    use model::{Context, Reading};

    /// Questions to lively bases, ten each, with registers.
    fn questions(seed: u64, bases: usize, mut attempt: impl FnMut(&[u8], &Trust, &Asked)) {
        let mut random = Random::new(seed);
        for _ in 0..bases {
            let records = lively_base(&mut random, 24);
            let bytes = records.bytes();
            let base = Base::read(&bytes).expect("a lively base passes");
            for _ in 0..10 {
                let asked = random_question(&mut random, &records, &base);
                let trust = trust_for(&mut random, &base, &asked);
                attempt(&bytes, &trust, &asked);
            }
        }
    }

    /// Reports on sparse bases, two each, with registers.
    fn reports(seed: u64, bases: usize, mut attempt: impl FnMut(&[u8], Context, Report)) {
        let mut random = Random::new(seed);
        for _ in 0..bases {
            let records = sparse_base(&mut random, 12);
            let bytes = records.bytes();
            let base = Base::read(&bytes).expect("a sparse base passes");
            for _ in 0..2 {
                let at = any_context(&mut random, &records);
                let requester = any_requester(&mut random, &base);
                let trust = &trust_in(&mut random, &base, at.date, requester);
                attempt(&bytes, at, Report::For { requester, trust });
            }
        }
    }

    /// The refusal and the numbers of a report by a reading.
    fn reported(reading: Reading, base: &[u8], at: Context, report: Report) -> (u8, Vec<u8>) {
        let mut records = [255; 3 * 13];
        let answer = report.by_model(reading, base, at, &mut records);
        (answer.refusal, crate::shown::numbers(&records))
    }

    #[test]
    fn every_answer_comes_up_often() {
        let mut tally = [0; 28];
        questions(301, 1_000, |base, trust, asked| {
            let answer = Decision::Vouched(trust).by_model(Reading::Paper, base, asked);
            tally[usize::from(answer)] += 1;
        });
        for (answer, times) in tally.into_iter().enumerate() {
            match answer {
                0 | 10..=17 | 24..=27 => assert!(times >= 150, "{tally:?}"),
                _ => assert_eq!(times, 0, "{tally:?}"),
            }
        }
    }

    #[test]
    fn every_smallest_number_comes_up() {
        let mut tally = [0; 7];
        reports(302, 600, |base, at, report| {
            let (_, numbers) = reported(Reading::Paper, base, at, report);
            let numbers = numbers.into_iter().filter(|k| *k <= 6);
            numbers.for_each(|k| tally[usize::from(k)] += 1);
        });
        assert!(tally.iter().all(|&times| times >= 5), "{tally:?}");
    }

    /// In how many decisions and reports a wrong reading answers otherwise.
    fn differences(reading: Reading) -> [usize; 2] {
        let [mut decisions, mut in_reports] = [0; 2];
        questions(303, 500, |base, trust, asked| {
            let by = |reading| Decision::Vouched(trust).by_model(reading, base, asked);
            decisions += usize::from(by(reading) != by(Reading::Paper));
        });
        reports(304, 800, |base, at, report| {
            let by = |reading| reported(reading, base, at, report);
            in_reports += usize::from(by(reading) != by(Reading::Paper));
        });
        [decisions, in_reports]
    }

    #[test]
    fn every_wrong_reading_comes_up() {
        for reading in Reading::WRONG_OF_VOUCHING {
            let found = differences(reading);
            println!("{reading:?}: {found:?} decisions and reports");
            let shows = match reading {
                Reading::LastEntryRequests
                | Reading::VouchingBeforeDays
                | Reading::VouchingAfterWeight => [true, false],
                Reading::RequesterFirst | Reading::RequesterAgain | Reading::FirstReport => {
                    [false, true]
                }
                _ => [true, true],
            };
            for (found, shows) in found.into_iter().zip(shows) {
                assert!(found >= 5 || (!shows && found == 0), "{reading:?}");
            }
        }
    }
}
