//! What is said of trust in full and of a higher threshold, on many random bases.

use compare::builder::BaseBuilder;
use compare::lent::Lent;
use compare::questions::context_in_range;
use compare::random::Random;
use compare::shown::{numbers, RECORD};
use compare::trust::{Statement, Trust, MOST_STATEMENTS};
use compare::{agreed_decision, agreed_decision_vouched, agreed_report_vouched, cases};
use model::{Base, Context};

use crate::vouched::{questions, sound_reports};

/// Every other user trusts the requester at 5 for a permission.
fn in_full(base: &Base, requester: u8, permission: u8, threshold: u32) -> Trust {
    let others = (0..base.users.len() as u8).filter(|user| *user != requester);
    let statements: Vec<Statement> = others
        .map(|user| Statement::always(user, requester, permission, 5))
        .collect();
    Trust::new(threshold, &statements)
}

#[test]
fn by_trust_in_full_the_first_decision_decides() {
    let mut random = Random::new(331);
    let mut granted = 0;
    cases::lively_bases(332, 2_000, |bytes, asked| {
        let base = Base::read(bytes).expect("a lively base passes");
        let permission = base.permission(asked.permission);
        let requester = asked.group.first().copied().unwrap_or(0);
        let is_there = base.user(requester.into()).is_some();
        if let (Some(permission), true) = (permission, is_there) {
            let threshold = random.between(1, 5).into();
            let trust = in_full(&base, requester, permission, threshold);
            let answer = agreed_decision_vouched(bytes, &trust, asked);
            assert_eq!(answer, agreed_decision(bytes, asked));
            granted += usize::from(answer == 0);
        }
    });
    assert!(granted >= 2_000, "{granted}");
}

/// A report's numbers for a requester.
fn reported(bytes: &[u8], at: Context, trust: &Trust, requester: u32) -> Vec<u8> {
    let whole = RECORD * compare::permission_count(bytes);
    let mut lent = Lent::noisy(&mut Random::new(whole as u64), whole);
    let answer = agreed_report_vouched(bytes, at, trust, requester, &mut lent);
    assert_eq!(answer.refusal, 0);
    numbers(lent.buffer())
}

/// For each user shown by the first report the number is the same, for each other
/// one it is none or at least as large.
#[test]
fn by_trust_in_full_those_shown_first_need_as_many() {
    let (mut same, mut larger) = (0, 0);
    sound_reports(1_000, |random, records, requester| {
        let bytes = records.bytes();
        let base = Base::read(&bytes).expect("the base passes");
        let at = context_in_range(random, records);
        let mut first = vec![0; RECORD * base.permissions.len()];
        twin::report(&bytes, at, &mut first);
        for (permission, record) in first.chunks_exact(RECORD).enumerate() {
            let trust = in_full(&base, requester as u8, permission as u8, 5);
            let k = reported(&bytes, at, &trust, requester)[permission];
            let shown = &record[1..=2 * usize::from(record[0])];
            let is_shown = shown.iter().step_by(2).any(|user| *user == requester as u8);
            assert!(k == record[0] || (!is_shown && (k == 0 || k > record[0])));
            same += usize::from(is_shown);
            larger += usize::from(k > record[0]);
        }
    });
    assert!(same >= 200 && larger >= 20, "{same}, {larger}");
}

#[test]
fn a_higher_threshold_grants_no_more() {
    let mut lost = 0;
    questions(2_000, |base, trust, asked| {
        let granted = [1, 2, 3, 4, 5].map(|threshold| {
            let register = trust.register.clone();
            let trust = Trust {
                register,
                threshold,
            };
            agreed_decision_vouched(base, &trust, asked) == 0
        });
        assert!(granted.is_sorted_by(|lower, higher| lower >= higher));
        lost += usize::from(granted[0] && !granted[4]);
    });
    assert!(lost >= 500, "{lost}");
}

/// Each user trusts the requester at any of 1 to 5, as far as there is room.
fn graded(random: &mut Random, base: &Base, requester: u8) -> Vec<Statement> {
    let mut statements = Vec::new();
    for permission in 0..base.permissions.len() as u8 {
        for user in 0..base.users.len() as u8 {
            let trust = random.between(1, 5);
            statements.push(Statement::always(user, requester, permission, trust));
        }
    }
    random.shuffle(&mut statements);
    statements.truncate(MOST_STATEMENTS);
    statements
}

/// The numbers for a requester at each threshold.
fn by_thresholds(random: &mut Random, records: &BaseBuilder, requester: u32) -> [Vec<u8>; 5] {
    let bytes = records.bytes();
    let base = Base::read(&bytes).expect("the base passes");
    let at = context_in_range(random, records);
    let statements = graded(random, &base, requester as u8);
    [1, 2, 3, 4, 5].map(|threshold| {
        let trust = Trust::new(threshold, &statements);
        reported(&bytes, at, &trust, requester)
    })
}

#[test]
fn with_the_threshold_a_number_stays_rises_or_becomes_0() {
    let [mut risen, mut gone] = [0; 2];
    sound_reports(2_000, |random, records, requester| {
        let numbers = by_thresholds(random, records, requester);
        for pair in numbers.windows(2) {
            for (lower, higher) in pair[0].iter().zip(&pair[1]) {
                assert!(*higher == 0 || (*lower > 0 && lower <= higher));
                risen += usize::from(lower < higher);
                gone += usize::from(*lower > 0 && *higher == 0);
            }
        }
    });
    assert!(risen >= 5 && gone >= 200, "{risen}, {gone}");
}
