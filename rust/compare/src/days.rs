//! Users' days, dates at and beside them, and what days cost a report.

use model::{Answer, Base, Context};

use crate::builder::*;
use crate::lists::List;
use crate::random::Random;
use crate::shown::{self, RECORD};

/// Gives users their days. In some bases everybody keeps all days, in the others
/// some get fewer, most of them at one side of a day of the base.
pub fn give_days(random: &mut Random, users: &mut [User]) {
    let any = any_day(random);
    let day = random.pick(&[any, any, any, any, 0, 1, 255, 256, 32_768, LAST_DAY]);
    let Some(one_in) = random.pick(&[None, Some(8), Some(4), Some(3)]) else {
        return;
    };
    for user in users {
        if random.chance(one_in) {
            let (first, last) = few_days(random, day);
            user.set_days(first, last);
        }
    }
}

/// Days that start or end at this day or beside it, that day alone, few days
/// around it, an end of all days, or any from this day to another.
fn few_days(random: &mut Random, day: u16) -> (u16, u16) {
    let few = random.between(1, 40).into();
    let [before, after] = [day.saturating_sub(1), day.saturating_add(1)];
    let (other, end) = (any_day(random), random.pick(&[0, LAST_DAY]));
    random.pick(&[
        (day, day),
        (0, day),
        (0, before),
        (day, LAST_DAY),
        (after, LAST_DAY),
        (before, after),
        (day.saturating_sub(few), day),
        (day, day.saturating_add(few)),
        (day.min(other), day.max(other)),
        (end, end),
    ])
}

fn any_day(random: &mut Random) -> u16 {
    u16::from_le_bytes([random.byte(), random.byte()])
}

/// A date in range, mostly at or beside a user's first or last day.
pub fn date_in_range(random: &mut Random, users: &[User]) -> u32 {
    let days = users
        .iter()
        .flat_map(|user| [user.first_day, user.last_day]);
    let beside = days.flat_map(|day| [day.saturating_sub(1), day, day.saturating_add(1)]);
    let mut dates: Vec<u16> = beside.collect();
    dates.sort();
    dates.dedup();
    let anywhere = any_day(random);
    dates.extend([0, LAST_DAY, anywhere, anywhere]);
    random.pick(&dates).into()
}

/// Ends a user's days before a date, or starts them behind it.
pub fn end_days(random: &mut Random, user: &mut User, date: u16) {
    if date == 0 || (date < LAST_DAY && random.chance(2)) {
        user.set_days(date + 1, user.last_day.max(date + 1));
    } else {
        user.set_days(user.first_day.min(date - 1), date - 1);
    }
}

/// Turns the days of one user round, or gives the user a last day that is one
/// before the first.
pub fn turn_days(random: &mut Random, base: &mut BaseBuilder) {
    if base.users.is_empty() {
        return;
    }
    let place = random.below(base.users.len());
    let user = &mut base.users[place];
    let (first, last) = (user.first_day, user.last_day);
    if first < last && random.chance(2) {
        user.set_days(last, first);
    } else {
        let first = first.max(1);
        user.set_days(first, first - 1);
    }
}

/// A base that passes with all days for each of its users, where the trailer says
/// that they lie.
pub fn with_all_days(base: &[u8]) -> Vec<u8> {
    let trailer = &base[base.len() - 36..];
    let number = |place| usize::from(u16::from_le_bytes([trailer[place], trailer[place + 1]]));
    let (offset, count) = (number(4), number(6));
    let mut changed = base.to_vec();
    for user in changed[offset..][..8 * count].chunks_exact_mut(8) {
        user[4..].copy_from_slice(&[0, 0, 255, 255]);
    }
    changed
}

/// Where a date lies at or beside the days of a user in a group.
#[derive(Clone, Copy, Debug, PartialEq, Eq)]
pub enum Edge {
    /// The group is granted on the user's first day, which isn't the last, or on
    /// the last, which isn't the first, or on the only one.
    FirstDay,
    LastDay,
    OnlyDay,
    /// The group gets 24 one day before the user's first, or behind the last.
    DayBefore,
    DayBehind,
}

/// The edges of a group's users on a date, if it is granted or gets 24. Days that
/// start with the first of all or end with the last of all have no edge there.
pub fn edges(base: &Base, date: u32, group: &[u8], answer: u8) -> Vec<Edge> {
    let users = group.iter().step_by(2);
    let users = users.map(|user| &base.users[usize::from(*user)]);
    users
        .filter_map(|user| edge(user.first_day.into(), user.last_day.into(), date, answer))
        .collect()
}

fn edge(first: u32, last: u32, date: u32, answer: u8) -> Option<Edge> {
    let (starts, ends) = (date == first && first > 0, date == last && last < 65_535);
    match answer {
        0 if starts && ends => Some(Edge::OnlyDay),
        0 if starts => Some(Edge::FirstDay),
        0 if ends => Some(Edge::LastDay),
        24 if date + 1 == first => Some(Edge::DayBefore),
        24 if date == last + 1 => Some(Edge::DayBehind),
        _ => None,
    }
}

/// What users' days cost a smallest number.
#[derive(Clone, Copy, Debug, PartialEq, Eq)]
pub enum Loss {
    /// With all days the number is the same.
    Nothing,
    /// More entries are needed.
    More,
    /// There is no group.
    Group,
}

impl Loss {
    /// From a number with all days to the one of a date.
    fn between(with_all: u8, k: u8) -> Loss {
        match k {
            _ if with_all == k => Loss::Nothing,
            0 => Loss::Group,
            _ => {
                assert!(
                    0 < with_all && with_all < k,
                    "{k}, with all days {with_all}"
                );
                Loss::More
            }
        }
    }
}

/// The loss for each of a report's numbers, by a list or without one, if nothing
/// refuses it.
pub fn losses(base: &[u8], at: Context, list: List, numbers: &[u8]) -> Vec<Loss> {
    let base = with_all_days(base);
    let mut records = vec![0; RECORD * numbers.len()];
    let Answer { refusal, .. } = match list {
        None => twin::report(&base, at, &mut records),
        Some(list) => twin::report_by(&base, at, list, &mut records),
    };
    assert_eq!(refusal, 0);
    let with_all = shown::numbers(&records).into_iter();
    let pairs = with_all.zip(numbers);
    pairs
        .map(|(with_all, k)| Loss::between(with_all, *k))
        .collect()
}

#[cfg(test)]
mod tests {
    use super::*;
    use crate::kinds::{Make, KINDS};
    use crate::lively::lively_base;
    use crate::questions::at_date;
    use crate::rivals::rival_base;
    use crate::shop::small_shop;
    use crate::valid::{random_base, Size};

    /// Where a date lies beside a user's days.
    #[derive(Clone, Copy)]
    enum Place {
        Before,
        OneBefore,
        First,
        Inside,
        Last,
        Only,
        OneBehind,
        Behind,
    }

    const PLACES: usize = 8;

    fn place(user: &User, date: u32) -> Place {
        let (first, last) = (u32::from(user.first_day), u32::from(user.last_day));
        match date {
            _ if date + 1 < first => Place::Before,
            _ if date < first => Place::OneBefore,
            _ if date > last + 1 => Place::Behind,
            _ if date > last => Place::OneBehind,
            _ if first == last => Place::Only,
            _ if date == first => Place::First,
            _ if date == last => Place::Last,
            _ => Place::Inside,
        }
    }

    #[test]
    fn dates_lie_everywhere_in_bases_of_every_kind() {
        let rivals: (&str, Make) = ("rivals", |random| rival_base(random, 8));
        let kinds = KINDS.into_iter().chain([rivals]);
        let mut random = Random::new(191);
        for (name, make) in kinds {
            let mut tally = [0; PLACES];
            for _ in 0..600 {
                let base = make(&mut random);
                let date = date_in_range(&mut random, &base.users);
                for user in &base.users {
                    tally[place(user, date) as usize] += 1;
                }
            }
            println!("{name}: {tally:?}");
            assert!(tally.iter().all(|&times| times >= 3), "{name}: {tally:?}");
            let inside = [Place::First, Place::Inside, Place::Last, Place::Only];
            let inside: usize = inside.iter().map(|place| tally[*place as usize]).sum();
            let all: usize = tally.iter().sum();
            assert!(4 * inside > 3 * all, "{name}: {inside} of {all}");
        }
    }

    #[test]
    fn ended_days_are_one_before_a_date_or_one_behind() {
        let mut random = Random::new(194);
        for date in [0, 1, 300, 65_534, 65_535] {
            let mut seen = [false; 2];
            for (first, last) in [(0, LAST_DAY), (date, date), (0, date), (date, LAST_DAY)] {
                for _ in 0..20 {
                    let mut user = User::always(1);
                    user.set_days(first, last);
                    end_days(&mut random, &mut user, date);
                    assert!(user.first_day <= user.last_day);
                    let before = date > 0 && user.last_day == date - 1;
                    assert!(before || user.first_day == date + 1);
                    seen[usize::from(before)] = true;
                }
            }
            assert_eq!(seen, [date < LAST_DAY, date > 0]);
        }
    }

    #[test]
    fn turned_days_are_refused() {
        let mut random = Random::new(192);
        for _ in 0..500 {
            let mut base = lively_base(&mut random, 8);
            turn_days(&mut random, &mut base);
            assert_eq!(model::check(&base.bytes()), 5);
        }
    }

    #[test]
    fn all_days_alone_are_replaced() {
        let mut random = Random::new(193);
        for _ in 0..500 {
            let mut base = random_base(&mut random, Size::Any);
            let bytes = base.bytes();
            for user in &mut base.users {
                user.set_days(0, LAST_DAY);
            }
            assert_eq!(with_all_days(&bytes), base.bytes());
        }
    }

    /// By day the roles weigh 5, 2 and 1. Without the manager two users and more
    /// are needed, and without the buyer too there is no group.
    #[test]
    fn losses_of_the_small_shop() {
        let mut shop = small_shop();
        shop.group_clauses = vec![GroupClause::new(0, &[(1, 2, 3)])];
        shop.users[0].set_days(0, 299);
        shop.users[1].set_days(0, 300);
        let bytes = shop.bytes();
        for (date, k, loss) in [
            (299, 1, Loss::Nothing),
            (300, 2, Loss::More),
            (301, 0, Loss::Group),
        ] {
            let at = at_date(600, date);
            assert_eq!(losses(&bytes, at, None, &[k]), [loss], "{date}");
            assert_eq!(losses(&bytes, at, Some(&[0]), &[k]), [loss], "{date}");
        }
    }

    /// The manager's days are 300 to 310, the buyer's 310 alone, a clerk's up to
    /// 299.
    #[test]
    fn edges_of_the_small_shop() {
        let mut shop = small_shop();
        shop.users[0].set_days(300, 310);
        shop.users[1].set_days(310, 310);
        shop.users[2].set_days(0, 299);
        let shop = Base::read(&shop.bytes()).expect("the base passes");
        let of = |date, answer| edges(&shop, date, &[0, 0, 1, 1, 2, 2, 3, 2], answer);
        assert_eq!(of(299, 24), [Edge::DayBefore]);
        assert_eq!(of(299, 0), [Edge::LastDay]);
        assert_eq!(of(300, 0), [Edge::FirstDay]);
        assert_eq!(of(300, 24), [Edge::DayBehind]);
        assert_eq!(of(310, 0), [Edge::LastDay, Edge::OnlyDay]);
        assert_eq!(of(311, 24), [Edge::DayBehind, Edge::DayBehind]);
        for date in [0, 301, 65_535] {
            assert_eq!(of(date, 0), []);
            assert_eq!(of(date, 24), []);
        }
    }
}
