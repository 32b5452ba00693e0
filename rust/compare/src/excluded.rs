//! How the users of a conflict list come to act in both roles of an exclusion.

use model::{Base, Exclusion};

use crate::acting::{records_between, RECORDS};
use crate::tally::Tally;

/// Which of an exclusion's roles a user holds.
#[derive(Clone, Copy, Debug, PartialEq, Eq)]
pub enum Held {
    Neither,
    FirstAlone,
    SecondAlone,
    Both,
}

/// A user who may act in both roles of an exclusion.
#[derive(Clone, Copy, Debug, PartialEq, Eq)]
pub struct BothRoles {
    pub held: Held,
    /// How many H records lead to each of the two from the nearest role held: the
    /// larger number.
    pub records: u8,
    /// No role held leads to both: one leads to the first, another to the second.
    pub by_two: bool,
}

/// Those of a list, 3 bytes a conflict, that are of kind 3.
pub fn both_roles(base: &Base, list: &[u8]) -> Vec<BothRoles> {
    let roles = || 0..base.roles;
    let between = |held, role| records_between(base, vec![held], role);
    let down = |held| roles().map(|role| between(held, role)).collect();
    let down: Vec<Vec<Option<u8>>> = roles().map(down).collect();
    let list = list.chunks_exact(3).filter(|conflict| conflict[0] == 3);
    list.map(|conflict| of_user(base, &down, conflict[1], conflict[2]))
        .collect()
}

/// How a user acts in both roles of a record, by the H records from each role to
/// each.
fn of_user(base: &Base, down: &[Vec<Option<u8>>], user: u8, record: u8) -> BothRoles {
    let Exclusion::Roles(a, b) = base.exclusions[usize::from(record)] else {
        panic!("record {record} is of permissions");
    };
    let held = || (0..base.roles).filter(|&role| base.holds(user, role));
    let records = |held: u8, role: u8| down[usize::from(held)][usize::from(role)];
    let fewest = |role| {
        let all = held().filter_map(|held| records(held, role));
        all.min().expect("who stands in the list may act")
    };
    let leads_to_both = |held| records(held, a).is_some() && records(held, b).is_some();
    BothRoles {
        held: match [a, b].map(|role| base.holds(user, role)) {
            [false, false] => Held::Neither,
            [true, false] => Held::FirstAlone,
            [false, true] => Held::SecondAlone,
            [true, true] => Held::Both,
        },
        records: fewest(a).max(fewest(b)),
        by_two: !held().any(leads_to_both),
    }
}

const HELD: [(Held, &str); 4] = [
    (Held::Neither, "in both roles, neither held"),
    (Held::FirstAlone, "in both roles, the first held alone"),
    (Held::SecondAlone, "in both roles, the second held alone"),
    (Held::Both, "in both roles, both held"),
];

/// In how many conflict lists somebody acts in both roles of an exclusion, by which
/// of them are held, by how many H records, and through two roles held.
#[derive(Default)]
pub struct Ways {
    held: Tally<4>,
    records: Tally<8>,
    by_two: usize,
}

impl Ways {
    /// Notes a list, 3 bytes a conflict: each way once.
    pub fn note(&mut self, base: &[u8], list: &[u8]) {
        if !list.chunks_exact(3).any(|conflict| conflict[0] == 3) {
            return;
        }
        let base = Base::read(base).expect("a refused base has no list");
        let users = both_roles(&base, list);
        for (held, _) in HELD {
            if users.iter().any(|user| user.held == held) {
                self.held.add(held as u8);
            }
        }
        for records in RECORDS {
            if users.iter().any(|user| user.records == records) {
                self.records.add(records);
            }
        }
        let by_two = |user: &BothRoles| user.by_two && user.held == Held::Neither;
        self.by_two += usize::from(users.iter().any(by_two));
    }

    fn counts(&self) -> Vec<(String, usize)> {
        let held = HELD.map(|(held, name)| (name.to_string(), self.held.seen(held as u8)));
        let records = RECORDS.map(|records| {
            let name = format!("in both roles, H records: {records}");
            (name, self.records.seen(records))
        });
        let by_two = ("in each role by another one held".to_string(), self.by_two);
        held.into_iter().chain(records).chain([by_two]).collect()
    }

    pub fn lines(&self) -> Vec<String> {
        let counts = self.counts().into_iter();
        counts
            .map(|(name, seen)| format!("{name}: {seen} lists"))
            .collect()
    }

    /// Asserts that each way was seen in so many lists at least.
    pub fn expect_each(&self, fewest: usize) {
        for (name, seen) in self.counts() {
            assert!(seen >= fewest, "{name}: {seen} lists");
        }
    }
}

#[cfg(test)]
mod tests {
    use super::*;
    use crate::builder::{edges, BaseBuilder, User};
    use crate::shop::small_shop;

    fn of_users(records: &BaseBuilder) -> Vec<(u8, BothRoles)> {
        let base = Base::read(&records.bytes()).expect("the base passes");
        let list = model::conflict_list(&base);
        let users = list.iter().map(|conflict| conflict[1]);
        users.zip(both_roles(&base, &list.concat())).collect()
    }

    fn exclusion(a: u8, b: u8) -> crate::builder::Exclusion {
        crate::builder::Exclusion { kind: 0, a, b }
    }

    fn one(held: Held, records: u8) -> BothRoles {
        BothRoles {
            held,
            records,
            by_two: false,
        }
    }

    /// 0 over 1 over 2, and users 0 and 1 hold roles 0 and 1.
    #[test]
    fn of_the_small_shops_users() {
        let mut shop = small_shop();
        shop.exclusions = vec![exclusion(0, 2)];
        assert_eq!(of_users(&shop), [(0, one(Held::FirstAlone, 2))]);
        shop.exclusions = vec![exclusion(1, 2)];
        let both = [(0, one(Held::Neither, 2)), (1, one(Held::FirstAlone, 1))];
        assert_eq!(of_users(&shop), both);
        shop.users[0].parameter = 21;
        let both = [
            (0, one(Held::SecondAlone, 1)),
            (1, one(Held::FirstAlone, 1)),
        ];
        assert_eq!(of_users(&shop), both);
        shop.users[0].parameter = 35;
        let both = [(0, one(Held::Both, 0)), (1, one(Held::FirstAlone, 1))];
        assert_eq!(of_users(&shop), both);
    }

    /// 0 over 2 over 4, 1 over 3: user 0 holds roles 0 and 1, user 1 roles 1 and 4.
    fn two_chains() -> BaseBuilder {
        BaseBuilder {
            hierarchy: edges(&[(0, 2), (2, 4), (1, 3)]),
            users: [15, 5 * 13].map(User::always).to_vec(),
            exclusions: vec![exclusion(3, 4)],
            ..BaseBuilder::new(5)
        }
    }

    #[test]
    fn by_two_roles_held() {
        let by_two = |held, records| BothRoles {
            by_two: true,
            ..one(held, records)
        };
        let both = [
            (0, by_two(Held::Neither, 2)),
            (1, by_two(Held::SecondAlone, 1)),
        ];
        assert_eq!(of_users(&two_chains()), both);
    }

    fn ways(bases: &[BaseBuilder]) -> Ways {
        let mut ways = Ways::default();
        for records in bases {
            let bytes = records.bytes();
            let base = Base::read(&bytes).expect("the base passes");
            ways.note(&bytes, &model::conflict_list(&base).concat());
        }
        ways
    }

    /// In the second list users 0 and 1 stand twice for one way each, user 0 for
    /// another one too.
    #[test]
    fn each_way_counts_once_a_list() {
        let mut shop = small_shop();
        shop.exclusions = vec![exclusion(1, 2), exclusion(1, 2), exclusion(0, 2)];
        let ways = ways(&[small_shop(), shop, two_chains(), two_chains()]);
        let seen: Vec<usize> = ways.counts().into_iter().map(|(_, seen)| seen).collect();
        let (held, records, by_two) = ([3, 1, 2, 0], [0, 3, 3, 0, 0, 0, 0, 0], 2);
        assert_eq!(seen, [&held[..], &records, &[by_two]].concat());
    }

    #[test]
    #[should_panic(expected = "in both roles, the first held alone: 0 lists")]
    fn a_way_in_too_few_lists_fails() {
        ways(&[two_chains()]).expect_each(1);
    }
}
