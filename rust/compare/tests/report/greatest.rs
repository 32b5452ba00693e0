//! Bases at the limits, and those whose reports cost most.

use crate::setups::*;
use compare::builder::*;
use compare::questions::at_minute;
use compare::shown::RECORD;
use compare::{expect_report, expect_report_refused};
use twin::worst;

#[test]
fn bases_whose_reports_cost_most() {
    for (name, plan) in worst::all() {
        let base = plan.bytes();
        let k = if name == "sixes" { 6 } else { 0 };
        expect_report(&base, at_minute(0), 16 * RECORD, &[k; 16]);
        expect_report_refused(&base, at_minute(0), 16 * RECORD - 1, 19);
        expect_report_refused(&base, at_minute(1440), 16 * RECORD, 11);
    }
}

/// The worst base, with the last clause of each permission made easier.
fn spread_with(conditions: &[GroupCondition]) -> Vec<u8> {
    let mut plan = worst::spread();
    for (_, last) in plan.clauses.iter_mut().skip(48) {
        *last = conditions.to_vec();
    }
    plan.bytes()
}

/// The heaviest role weighs 17, and seven users hold it: 102 is the sum of six
/// of them and no other's. 90 is five times 17 and 5; 85 is five times 17; two
/// roles weigh 3 and 4.
#[test]
fn a_group_among_the_most_sums() {
    for (conditions, k) in [
        (vec![(1, 2, 103)], 0),
        (vec![(1, 2, 102)], 6),
        (vec![(1, 4, 90)], 6),
        (vec![(1, 4, 85)], 5),
        (vec![(1, 1, 5)], 1),
    ] {
        let base = spread_with(&conditions);
        expect_report(&base, at_minute(0), 16 * RECORD, &[k; 16]);
    }
}

/// Every table is full: 2,460 bytes. Permission p asks for 1 + p % 6 entries.
#[test]
fn the_longest_base() {
    let role = |permission: u8| permission % 8;
    let base = BaseBuilder {
        hierarchy: vec![
            Edge {
                senior: 0,
                junior: 7,
            };
            28
        ],
        users: vec![user(&[0, 1, 2, 3, 4, 5, 6, 7]); 24],
        group_clauses: (0..64)
            .map(|clause| GroupClause::new(clause % 16, &[(0, 2, 1 + clause % 16 % 6)]))
            .collect(),
        context_clauses: vec![ContextClause::new(0, &[(0, 2, 0)]); 32],
        policies: (0..64)
            .map(|policy| Policy::new(role(policy), policy % 16, 1, 1, 0))
            .collect(),
        exclusions: vec![
            Exclusion {
                kind: 0,
                a: 0,
                b: 1,
            };
            32
        ],
        ..BaseBuilder::new(8).with_permissions(16)
    };
    assert_eq!(base.bytes().len(), 2_460);
    let numbers: Vec<u8> = (0..16).map(|permission| 1 + permission % 6).collect();
    expect_numbers(&base, &numbers);
}
