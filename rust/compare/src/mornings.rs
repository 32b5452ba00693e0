//! Random mornings on a sheet, and random sheets of any bytes.

use model::{Base, Context, Question, Reading, Sheet};

use crate::builder::{BaseBuilder, CODES};
use crate::capped::capped_base;
use crate::damage::{any_damage, crowd, empty_clause};
use crate::days::{give_days, turn_days};
use crate::lively::{full_base, heavy_base, lively_base};
use crate::questions::{any_context, any_permission, context_in_range, near_smallest, sound_group};
use crate::random::Random;
use crate::sheets::SheetCall;
use crate::sparse::sparse_base;
use crate::valid::{random_base, Size};

/// A run of calls on one sheet, of which the first opens it.
pub struct Morning {
    /// The bases that the calls are made against, sound and damaged.
    pub bases: Vec<Vec<u8>>,
    /// The calls, each with its base's place.
    pub calls: Vec<(usize, SheetCall)>,
}

/// A random morning: an opening, then signings, withdrawals, askings and at
/// times another opening, while the base changes.
pub fn morning(random: &mut Random) -> Morning {
    let records = sound_base(random);
    let base = read(&records);
    let permission = any_permission(random, base.permissions.len());
    let at = context_in_range(random, &records);
    let mut signers = Signers::new(random, &base, permission, at);
    let withdrawals = random.pick(&[0, 4, 12]);
    let mut place = random.pick(&[0, 0, 0, 0, 0, 0, 0, 1, 2, 3, 4]);
    let mut calls = vec![(place, SheetCall::Open { permission })];
    for _ in 0..random.pick(&[5, 10, 20, 30, 40]) {
        if random.chance(4) {
            place = random.pick(&[0, 0, 0, 0, 0, 0, 1, 1, 2, 3, 4]);
        }
        let call = match random.below(40 + withdrawals) {
            0 => SheetCall::Open {
                permission: any_permission(random, base.permissions.len()),
            },
            1..=17 => signers.next(random, &base),
            18..=23 => signers.anybody(random, &base),
            24..=30 => SheetCall::Ask {
                at: any_context(random, &records),
            },
            31..=39 => SheetCall::Ask { at },
            _ => signers.withdrawal(random),
        };
        calls.push((place, call));
    }
    let bases = bases(random, &records);
    Morning { bases, calls }
}

/// A base to start from, mostly of many users.
pub(crate) fn sound_base(random: &mut Random) -> BaseBuilder {
    match random.below(16) {
        0 => random_base(random, Size::Small),
        1 => random_base(random, Size::Any),
        2 => full_base(random),
        3 => heavy_base(random),
        4 | 5 => sparse_base(random, 24),
        6 | 7 => {
            let roles = random.between(1, 8);
            capped_base(random, roles)
        }
        8 => lively_base(random, 4),
        _ => lively_base(random, 24),
    }
}

fn read(records: &BaseBuilder) -> Base {
    Base::read(&records.bytes()).expect("the base passes")
}

/// The base, one with other members, another base and two damaged ones.
fn bases(random: &mut Random, records: &BaseBuilder) -> Vec<Vec<u8>> {
    let mut spoilt = records.clone();
    let spoil = random.pick(&[crowd, empty_clause, turn_days]);
    spoil(random, &mut spoilt);
    vec![
        records.bytes(),
        with_other_members(random, records).bytes(),
        sound_base(random).bytes(),
        any_damage(random, &records.image()),
        spoilt.bytes(),
    ]
}

/// The base with some users gone from its end, with other roles or other days
/// for some, or with fewer H records.
fn with_other_members(random: &mut Random, records: &BaseBuilder) -> BaseBuilder {
    let mut changed = records.clone();
    match random.below(4) {
        0 => {
            let users = random.below(records.users.len() + 1);
            changed.users.truncate(users);
        }
        1 => {
            let codes = &CODES[..usize::from(records.roles)];
            for user in &mut changed.users {
                if random.chance(3) {
                    user.parameter = random.pick(codes);
                }
            }
        }
        2 => give_days(random, &mut changed.users),
        _ => {
            let one_in = random.pick(&[1, 2, 4]);
            changed.hierarchy.retain(|_| !random.chance(one_in));
        }
    }
    changed
}

/// Who signs on a morning.
struct Signers {
    /// The entries that are wanted next, from the last on.
    wanted: Vec<[u8; 2]>,
    /// Those who have come forward, whether accepted or not.
    come: Vec<[u8; 2]>,
}

impl Signers {
    /// At first a sound group is wanted, or one near a smallest, or nobody.
    fn new(random: &mut Random, base: &Base, permission: u32, at: Context) -> Signers {
        let wanted = match Question::new(base, permission, at, Reading::Paper) {
            Ok(question) if random.chance(3) => sound_group(random, &question),
            Ok(question) if random.chance(2) => near_smallest(random, &question),
            _ => vec![],
        };
        let come = vec![];
        Signers { wanted, come }
    }

    /// The next entry that is wanted, or anybody's.
    fn next(&mut self, random: &mut Random, base: &Base) -> SheetCall {
        let Some(entry) = self.wanted.pop() else {
            return self.anybody(random, base);
        };
        self.come.push(entry);
        let [user, role] = entry.map(u32::from);
        SheetCall::Sign { user, role }
    }

    fn anybody(&mut self, random: &mut Random, base: &Base) -> SheetCall {
        let entry = any_entry(random, base);
        self.come.push(entry);
        signing_near(random, base, entry)
    }

    /// Mostly of one who has come forward, and who may be wanted again.
    fn withdrawal(&mut self, random: &mut Random) -> SheetCall {
        let entry = match self.come[..] {
            [] => [0, 0],
            _ => random.pick(&self.come),
        };
        if random.chance(2) {
            self.wanted.push(entry);
        }
        withdrawal_near(random, entry)
    }
}

/// Mostly a user who is there, in a role that the user may act in.
pub fn any_signing(random: &mut Random, base: &Base) -> SheetCall {
    let entry = any_entry(random, base);
    signing_near(random, base, entry)
}

/// Mostly of this entry, at times of another user or role.
fn signing_near(random: &mut Random, base: &Base, entry: [u8; 2]) -> SheetCall {
    let [mut user, mut role] = entry.map(u32::from);
    let (users, roles) = (base.users.len() as u32, u32::from(base.roles));
    match random.below(16) {
        0 => user = random.pick(&[users, users + 1, 255]),
        1 => user = above_bytes(random, user),
        2 => role = random.pick(&[roles, 8, 9, 255]),
        3 => role = above_bytes(random, role),
        _ => (),
    }
    SheetCall::Sign { user, role }
}

/// A number above 255, mostly one that would be cut to this byte or to 0.
fn above_bytes(random: &mut Random, byte: u32) -> u32 {
    random.pick(&[256, 257, 256 + byte, 65_536, 65_536 + byte, u32::MAX])
}

/// Mostly of a user in one of a sheet's six entries, held or not.
pub fn any_withdrawal(random: &mut Random, sheet: &Sheet) -> SheetCall {
    let place = 2 + 2 * random.below(6);
    withdrawal_near(random, [sheet[place], sheet[place + 1]])
}

/// Mostly of this entry's user.
fn withdrawal_near(random: &mut Random, entry: [u8; 2]) -> SheetCall {
    let [user, role] = entry.map(u32::from);
    let user = match random.below(12) {
        0 => role,
        1 => random.byte().into(),
        2 => above_bytes(random, user),
        _ => user,
    };
    SheetCall::Withdraw { user }
}

/// Mostly a user who is there, in a role that the user may act in.
fn any_entry(random: &mut Random, base: &Base) -> [u8; 2] {
    let user = random.below(base.users.len().max(1)) as u8;
    let roles = 0..base.roles;
    let acted_in: Vec<u8> = roles.filter(|role| base.may_act(user, *role)).collect();
    if acted_in.is_empty() || random.chance(6) {
        [user, random.between(0, base.roles - 1)]
    } else {
        [user, random.pick(&acted_in)]
    }
}

/// Bases with sheets of any bytes, and a call for each of them.
pub fn loose_sheets(
    seed: u64,
    bases: usize,
    mut attempt: impl FnMut(&mut Random, &[u8], SheetCall, Sheet),
) {
    let mut drawn = Random::new(seed);
    let mut random = Random::new(seed + 1);
    for _ in 0..bases {
        let records = sound_base(&mut drawn);
        let base = read(&records);
        let bytes = records.bytes();
        for _ in 0..15 {
            let at = any_context(&mut drawn, &records);
            let sheet = loose_sheet(&mut drawn, &base, at);
            let call = match drawn.below(8) {
                0 => SheetCall::Open {
                    permission: any_permission(&mut drawn, base.permissions.len()),
                },
                1 | 2 => any_signing(&mut drawn, &base),
                3..=5 => any_withdrawal(&mut drawn, &sheet),
                _ => SheetCall::Ask { at },
            };
            if drawn.chance(5) {
                let damaged = any_damage(&mut drawn, &records.image());
                attempt(&mut random, &damaged, call, sheet);
            } else {
                attempt(&mut random, &bytes, call, sheet);
            }
        }
    }
}

/// A sheet of any bytes. Mostly it has a permission that is there, and claims
/// and has entries that a base's users can make.
fn loose_sheet(random: &mut Random, base: &Base, at: Context) -> Sheet {
    let mut sheet: Sheet = [0; 14].map(|_: u8| random.byte());
    if !random.chance(6) {
        sheet[0] = random.below(base.permissions.len().max(1)) as u8;
    }
    let claims = [0, 1, 2, 3, 4, 5, 6, 6, 7, 8, 127, 128, 254, 255, sheet[1]];
    sheet[1] = random.pick(&claims);
    let mut entries = match Question::new(base, sheet[0].into(), at, Reading::Paper) {
        Ok(question) if random.chance(2) => near_smallest(random, &question),
        _ => vec![],
    };
    if !entries.is_empty() && random.chance(2) {
        sheet[1] = entries.len() as u8;
    }
    let wild = random.pick(&[4, 30]);
    while entries.len() < 6 && !random.chance(wild) {
        entries.push(any_entry(random, base));
    }
    for (entry, part) in entries.iter().zip(sheet[2..].chunks_exact_mut(2)) {
        part.copy_from_slice(entry);
    }
    sheet
}

#[cfg(test)]
mod tests {
    use super::*;

    /// Makes the calls of some mornings, each as one sheet's, and of some
    /// loose sheets.
    fn all_calls(mut attempt: impl FnMut(&[u8], SheetCall, &mut Sheet)) {
        let mut random = Random::new(91);
        for _ in 0..500 {
            let Morning { bases, calls } = morning(&mut random);
            let mut sheet = [7; 14];
            for (place, call) in calls {
                attempt(&bases[place], call, &mut sheet);
            }
        }
        loose_sheets(92, 300, |_, base, call, mut sheet| {
            attempt(base, call, &mut sheet);
        });
    }

    #[test]
    fn every_answer_comes_up_often() {
        let mut tally = [[0; 25]; 4];
        all_calls(|base, call, sheet| {
            let answer = call.by_model(Reading::Paper, base, sheet);
            tally[call.kind()][usize::from(answer)] += 1;
        });
        let often = |kind: usize, answers: &[usize]| {
            let seen = tally[kind];
            assert!(answers.iter().all(|&answer| seen[answer] >= 50), "{seen:?}");
        };
        often(0, &[0, 10]);
        often(1, &[0, 13, 14, 15, 20]);
        often(2, &[0, 23]);
        often(3, &[0, 10, 11, 12, 13, 14, 15, 24, 16, 17]);
    }

    /// Those that sound bases show.
    const OF_DATES: [Reading; 5] = [
        Reading::FirstDayExcluded,
        Reading::LastDayExcluded,
        Reading::DaysBeforeMembership,
        Reading::DaysAfterWeight,
        Reading::DaysAtSigning,
    ];

    /// In how many openings, signings, withdrawals and askings a wrong reading
    /// has another answer or another sheet.
    fn differences(reading: Reading) -> [usize; 4] {
        let mut found = [0; 4];
        all_calls(|base, call, sheet| {
            let mut other = *sheet;
            let by_reading = call.by_model(reading, base, &mut other);
            let by_paper = call.by_model(Reading::Paper, base, sheet);
            let differs = by_reading != by_paper || other != *sheet;
            found[call.kind()] += usize::from(differs);
        });
        found
    }

    #[test]
    fn every_wrong_reading_comes_up() {
        let on_sheets = Reading::WRONG_ON_SHEETS.into_iter();
        let on_sheets = on_sheets.chain(Reading::WRONG_OF_WITHDRAWAL);
        let on_sheets = on_sheets.chain(Reading::WRONG_OF_ACTING);
        for reading in on_sheets.chain(OF_DATES) {
            let found = differences(reading);
            println!("{reading:?}: {found:?}");
            let shows = match reading {
                Reading::PermissionKept => [true, false, false, false],
                Reading::OverSixAsNone => [false, true, true, true],
                Reading::HeldAlone | Reading::DirectJuniors | Reading::SeniorsToo => {
                    [false, true, false, true]
                }
                Reading::SeniorInSet | Reading::SeniorsWeight => [false, false, false, true],
                Reading::DaysAtSigning => [false, true, false, false],
                _ if OF_DATES.contains(&reading) => [false, false, false, true],
                _ if Reading::WRONG_OF_WITHDRAWAL.contains(&reading) => [false, false, true, false],
                _ => [false, true, false, false],
            };
            assert_eq!(found.map(|count| count > 0), shows, "{reading:?}");
        }
    }
}
