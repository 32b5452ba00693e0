//! How far below their roles users act.

use model::{Base, Context, Reading};

use crate::shown::{self, RECORD};

/// How many H records can lead from a role held to one acted in: 0 where they are the
/// same, and up to seven.
pub const RECORDS: [u8; 8] = [0, 1, 2, 3, 4, 5, 6, 7];

/// The fewest H records of a chain from a role that the user holds to the one
/// acted in: 0 if the user holds it, nothing if no chain leads to it.
pub fn records_down(base: &Base, [user, role]: [u8; 2]) -> Option<u8> {
    let roles = 0..base.roles;
    let held = roles.filter(|held| base.holds(user, *held)).collect();
    records_between(base, held, role)
}

/// The fewest H records of a chain from one of these roles to another: 0 if it
/// is among them, nothing if no chain leads to it.
pub fn records_between(base: &Base, mut roles: Vec<u8>, role: u8) -> Option<u8> {
    for records in 0..base.roles {
        if roles.contains(&role) {
            return Some(records);
        }
        let below = base.hierarchy.iter();
        let below = below.filter(|edge| roles.contains(&edge.senior));
        roles = below.map(|edge| edge.junior).collect();
    }
    None
}

/// The most records that an entry of a group needs, if all may act.
pub fn most_records_down(base: &Base, group: &[u8]) -> Option<u8> {
    let entries = group.chunks_exact(2);
    let records = entries.map(|entry| records_down(base, [entry[0], entry[1]]));
    let records: Option<Vec<u8>> = records.collect();
    records?.into_iter().max()
}

/// What acting in roles that are not held brings to a smallest number.
#[derive(Clone, Copy, Debug, PartialEq, Eq)]
pub enum Gain {
    /// The number is the same by roles held alone.
    Nothing,
    /// Fewer entries suffice.
    Fewer,
    /// Without it there is no group.
    Group,
}

impl Gain {
    /// From a number by roles held alone to the one by all.
    fn between(held: u8, k: u8) -> Gain {
        match held {
            _ if held == k => Gain::Nothing,
            0 => Gain::Group,
            _ => {
                assert!(0 < k && k < held, "{k} in all, {held} by roles held");
                Gain::Fewer
            }
        }
    }
}

/// The gain for each of a report's numbers, if nothing refuses it.
pub fn gains(base: &[u8], at: Context, numbers: &[u8]) -> Vec<Gain> {
    let mut records = vec![0; RECORD * numbers.len()];
    let answer = model::report_as(Reading::HeldAlone, base, at, None, &mut records);
    assert_eq!(answer.refusal, 0);
    let held = shown::numbers(&records);
    let pairs = held.into_iter().zip(numbers);
    pairs.map(|(held, k)| Gain::between(held, *k)).collect()
}

#[cfg(test)]
mod tests {
    use super::*;
    use crate::builder::*;
    use crate::kinds::KINDS;
    use crate::lively::lively_base;
    use crate::questions::at_minute;
    use crate::random::Random;
    use crate::shop::small_shop;

    #[test]
    fn the_small_shops_users_act_below_their_roles() {
        let shop = Base::read(&small_shop().bytes()).expect("the small shop passes");
        let down = |user| [0, 1, 2].map(|role| records_down(&shop, [user, role]));
        assert_eq!(down(0), [Some(0), Some(1), Some(2)]);
        assert_eq!(down(1), [None, Some(0), Some(1)]);
        assert_eq!(down(2), [None, None, Some(0)]);
        assert_eq!(down(4), [None; 3]);
        assert_eq!(most_records_down(&shop, &[1, 2, 0, 2, 2, 2]), Some(2));
        assert_eq!(most_records_down(&shop, &[0, 0, 2, 1]), None);
    }

    #[test]
    fn a_chain_has_up_to_seven_records() {
        let mut base = BaseBuilder::new(8);
        base.hierarchy = (0..7)
            .map(|role| Edge {
                senior: role,
                junior: role + 1,
            })
            .collect();
        base.users = vec![User::always(3)];
        let base = Base::read(&base.bytes()).expect("the base passes");
        for role in 0..8 {
            assert_eq!(records_down(&base, [0, role]), Some(role));
        }
    }

    #[test]
    fn whoever_reaches_a_role_may_act_in_it() {
        let mut random = Random::new(28);
        for _ in 0..300 {
            let bytes = lively_base(&mut random, 6).bytes();
            let base = Base::read(&bytes).expect("a lively base passes");
            for user in 0..=base.users.len() as u8 {
                for role in 0..=8 {
                    let down = records_down(&base, [user, role]);
                    assert_eq!(down.is_some(), base.may_act(user, role));
                    assert_eq!(down == Some(0), base.holds(user, role));
                }
            }
        }
    }

    /// Whether some user acts in a role that no shorter chain than one of two H
    /// records leads to.
    fn has_far_role(base: &Base) -> bool {
        let users = 0..base.users.len() as u8;
        users.into_iter().any(|user| {
            let mut roles = 0..base.roles;
            roles.any(|role| records_down(base, [user, role]) >= Some(2))
        })
    }

    #[test]
    fn users_act_far_below_in_bases_of_every_kind() {
        let mut random = Random::new(29);
        for (name, make) in KINDS {
            let bases = std::iter::repeat_with(|| make(&mut random).bytes()).take(300);
            let far = bases.filter(|bytes| {
                let base = Base::read(bytes).expect("the base passes");
                has_far_role(&base)
            });
            let count = far.count();
            println!("{name}: {count} of 300");
            assert!(count >= 5, "{name}: {count}");
        }
    }

    /// By holding alone one manager, one buyer and two clerks can come.
    #[test]
    fn gains_of_the_small_shop() {
        for (condition, k, gain) in [
            ((0, 2, 2), 2, Gain::Nothing),
            ((0, 2, 5), 0, Gain::Nothing),
            ((1, 4, 4), 2, Gain::Fewer),
            ((1, 4, 5), 1, Gain::Nothing),
        ] {
            let mut shop = small_shop();
            shop.group_clauses = vec![GroupClause::new(0, &[condition])];
            assert_eq!(gains(&shop.bytes(), at_minute(600), &[k]), [gain]);
        }
        let mut shop = small_shop();
        shop.group_clauses = vec![GroupClause::new(0, &[(0, 4, 3), (2, 4, 1)])];
        assert_eq!(gains(&shop.bytes(), at_minute(600), &[3]), [Gain::Group]);
    }
}
