//! The same for a base and a register: looks for those whose report for a requester
//! costs most.

use compare::builder::BaseBuilder;
use compare::random::Random;
use compare::trust::Trust;

use crate::cases::{report_vouched, Case, Who};
use crate::climb::{changed, climb, numbers_of};
use crate::counting::{of_report_vouched, REGISTER};
use crate::worst;

/// What a report for a requester is lent.
#[derive(Clone)]
struct Lent {
    base: BaseBuilder,
    trust: Trust,
}

impl Lent {
    /// One of [`worst::all_vouched`].
    fn named(name: &str) -> Lent {
        let lent = worst::all_vouched().into_iter().find(|lent| lent.0 == name);
        let (_, base, trust) = lent.unwrap_or_else(|| panic!("no base is called {name}"));
        Lent { base, trust }
    }

    fn case(&self) -> Case {
        report_vouched("", &self.base.bytes(), self.trust.clone())
    }

    fn cost(&self, who: Who) -> u64 {
        of_report_vouched(&self.base.bytes(), &self.trust.register, who)
    }
}

/// Climbs from a base and register of [`worst::all_vouched`] by the instructions that
/// one takes, prints what those found cost and writes them to two files.
pub fn print(seed: u64, steps: u64, name: &str, file: &str, who: Who) {
    let start = Lent::named(name);
    let cost = |lent: &Lent| lent.cost(who) as f64;
    let found = climb(&mut Random::new(seed), steps, &start, cost, with_changes);
    for (end, bytes) in [("", &found.base.bytes()), (REGISTER, &found.trust.register)] {
        std::fs::write(format!("{file}{end}"), bytes).expect("the file can be written");
    }
    for (which, lent) in [("start", &start), ("found", &found)] {
        let [library, twin] = [Who::Library, Who::Twin].map(|who| lent.cost(who));
        println!("{which}: library {library}, twin {twin}");
        println!("k {:?}", numbers_of(&lent.case()));
    }
}

/// Changes of the base, or of one to eight statements.
fn with_changes(random: &mut Random, lent: &Lent) -> Lent {
    let mut lent = lent.clone();
    match random.chance(3) {
        true => (0..=random.below(8)).for_each(|_| change_statement(random, &mut lent)),
        false => lent.base = changed(random, &lent.base),
    }
    lent
}

/// Another issuer or permission, or another requester in place of user 0, or that
/// one again.
fn change_statement(random: &mut Random, lent: &mut Lent) {
    let mut statements = lent.trust.statements();
    let place = random.below(statements.len());
    let (users, permissions) = (lent.base.users.len(), lent.base.permissions.len());
    let statement = &mut statements[place];
    match random.below(4) {
        0 => statement.requester = u8::from(statement.requester == 0),
        1 => statement.permission = random.below(permissions) as u8,
        _ => statement.issuer = random.below(users) as u8,
    }
    lent.trust = Trust::new(lent.trust.threshold, &statements);
}

#[cfg(test)]
mod tests {
    use super::*;

    #[test]
    fn changed_ones_pass() {
        let mut random = Random::new(7);
        for (name, ..) in worst::all_vouched() {
            let mut lent = Lent::named(name);
            for _ in 0..100 {
                lent = with_changes(&mut random, &lent);
                let answer = lent.case().answer(Who::Twin, &mut [0; 3 * 2_784]);
                assert_eq!(answer % 256, 0);
            }
        }
    }
}
