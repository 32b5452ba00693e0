//! Random bases with many conflicts, and with pairs that narrowly miss one.

use crate::builder::*;
use crate::days::give_days;
use crate::random::Random;
use crate::valid::{random_edge, random_exclusion, times};

/// A random base that passes the check: few roles, permissions and weights,
/// users with most roles or with few that have chains of juniors, and contexts
/// that barely fit or barely don't.
pub fn clashing_base(random: &mut Random) -> BaseBuilder {
    let steep = random.chance(2);
    let roles = match steep {
        true => random.pick(&[2, 3, 4, 6, 8, 8, 8]),
        false => random.pick(&[1, 2, 2, 3, 4, 8]),
    };
    let permissions = random.pick(&[1, 2, 2, 3, 16]);
    let heaviest = random.between(1, 5);
    let numbers = random.between(1, 5);
    let most = |random: &mut Random, table: usize| {
        let few = random.below(7);
        random.pick(&[few, few, LIMITS[table]])
    };
    let mut base = BaseBuilder::new(roles).with_permissions(permissions.into());
    if steep {
        base.hierarchy = chains(random, roles);
    } else if roles > 1 {
        base.hierarchy = times(random.below(8), || random_edge(random, roles));
    }
    let held = random.pick(&[None, Some(1), Some(2), Some(roles.min(4))]);
    base.users = times(most(random, 1), || match held {
        Some(held) => user_of_few(random, held.min(roles)),
        None => user_of_most(random, roles),
    });
    give_days(random, &mut base.users);
    base.context_clauses = times(random.below(13), || tight_clause(random, numbers));
    base.policies = times(most(random, 5), || {
        let context = random.between(0, numbers);
        Policy {
            rank: random.byte(),
            issue_day: random.byte().into(),
            ..Policy::new(
                random.between(0, roles - 1),
                random.between(0, permissions - 1),
                random.between(1, heaviest),
                random.between(0, 1),
                random.pick(&[context, context, NO_CONTEXT]),
            )
        }
    });
    if roles > 1 || permissions > 1 {
        base.exclusions = times(most(random, 6), || {
            random_exclusion(random, roles, permissions)
        });
    }
    base
}

/// One chain through all roles, or one through the even and one through the odd
/// ones, in any order. At times a record is missing, or others are there.
fn chains(random: &mut Random, roles: u8) -> Vec<Edge> {
    let step = random.pick(&[1, 1, 1, 2]);
    let mut records: Vec<Edge> = (step..roles)
        .map(|junior| Edge::new(junior - step, junior))
        .collect();
    random.shuffle(&mut records);
    match random.below(6) {
        0 => _ = records.pop(),
        1 => {
            let others = random.below(4);
            records.extend(times(others, || random_edge(random, roles)));
        }
        _ => (),
    }
    records
}

/// Mostly a user who holds most roles.
fn user_of_most(random: &mut Random, roles: u8) -> User {
    let left_out = random.pick(&[2, 4, 8]);
    let codes = CODES[..usize::from(roles)].iter();
    let parameter = codes.filter(|_| !random.chance(left_out)).product();
    User::always(parameter)
}

/// Mostly a user who holds one or two of the first roles, where the seniors are.
fn user_of_few(random: &mut Random, first: u8) -> User {
    let mut codes = CODES[..usize::from(first)].to_vec();
    random.shuffle(&mut codes);
    let held = random.pick(&[0, 1, 1, 1, 2, 2]);
    User::always(codes.iter().take(held).product())
}

/// A clause of a number below `numbers`, mostly on one parameter, with values
/// close together at either end of its range or within it.
fn tight_clause(random: &mut Random, numbers: u8) -> ContextClause {
    let ranges = [(0, 1439, 600), (1, 6, 3), (2, 255, 128)];
    let main = random.pick(&ranges);
    let count = 1 + random.below(3);
    let conditions = times(count, || {
        let other = random.pick(&ranges);
        let (parameter, last, inside) = random.pick(&[main, main, main, other]);
        let near = random.below(3) as u16;
        let value = random.pick(&[near, inside + near, last - near]);
        (parameter, random.between(0, 5), value)
    });
    ContextClause::new(random.between(0, numbers - 1), &conditions)
}

#[cfg(test)]
mod tests {
    use super::*;
    use crate::excluded::Ways;
    use model::Reading;

    #[test]
    fn counts_of_all_sizes_come_up() {
        let mut random = Random::new(27);
        let mut tally = [0; 4];
        for _ in 0..500 {
            let bytes = clashing_base(&mut random).bytes();
            let base = model::Base::read(&bytes).expect("a clashing base passes");
            let place = match model::conflict_list(&base).len() {
                0 => 0,
                1..=255 => 1,
                256..=999 => 2,
                _ => 3,
            };
            tally[place] += 1;
        }
        assert!(tally.iter().all(|&times| times >= 10), "{tally:?}");
    }

    #[test]
    fn users_act_in_excluded_roles_in_every_way() {
        let mut random = Random::new(30);
        let mut ways = Ways::default();
        for _ in 0..1_000 {
            let bytes = clashing_base(&mut random).bytes();
            let base = model::Base::read(&bytes).expect("a clashing base passes");
            ways.note(&bytes, &model::conflict_list(&base).concat());
        }
        ways.lines().iter().for_each(|line| println!("{line}"));
        ways.expect_each(20);
    }

    /// How many bases have another list by a wrong reading.
    fn differences(reading: Reading) -> usize {
        let mut random = Random::new(31);
        let bases = std::iter::repeat_with(|| clashing_base(&mut random).bytes());
        let list = |reading, base: &[u8]| {
            let mut out = vec![0; 8_400];
            let answer = model::conflicts_as(reading, base, &mut out);
            (answer, out)
        };
        let other = |base: &Vec<u8>| list(reading, base) != list(Reading::Paper, base);
        bases.take(300).filter(other).count()
    }

    #[test]
    fn every_wrong_reading_comes_up() {
        let of_acting = [
            Reading::HeldAlone,
            Reading::DirectJuniors,
            Reading::SeniorsToo,
        ];
        for reading in Reading::WRONG_IN_LISTS.into_iter().chain(of_acting) {
            let found = differences(reading);
            println!("{reading:?}: {found}");
            assert!(found >= 20, "{reading:?}: {found}");
        }
    }
}
