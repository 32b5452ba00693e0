//! Bases that the edges start from, and how to ask about them.

use compare::builder::*;
use compare::questions::{at_minute, Asked};
use compare::{expect_decision_by, sums_that_tell};

/// A policy of role 2 for permission 0, of type 0 and in every context.
pub fn issued(issue_day: u16, rank: u8, weight: u8) -> Policy {
    Policy {
        issue_day,
        rank,
        ..Policy::new(2, 0, weight, 0, NO_CONTEXT)
    }
}

/// The same of type 1.
pub fn inherited(issue_day: u16, rank: u8, weight: u8) -> Policy {
    Policy {
        inheritable: 1,
        ..issued(issue_day, rank, weight)
    }
}

/// The policy in a context.
pub fn within(context: u8, policy: Policy) -> Policy {
    Policy { context, ..policy }
}

/// A base of three roles, 0 over 1 over 2, with two permissions and these
/// policies. Two users hold every role, and each group passes permission 0's
/// condition. Context 0 holds at minute 600 and not at minute 480; context 1 has
/// no clause.
pub fn with_policies(policies: &[Policy]) -> BaseBuilder {
    let parameter = CODES[..3].iter().product();
    BaseBuilder {
        hierarchy: edges(&[(0, 1), (1, 2)]),
        users: vec![User::always(parameter); 2],
        group_clauses: vec![GroupClause::new(0, &[(0, 2, 1)])],
        context_clauses: vec![ContextClause::new(0, &[(0, 2, 540), (0, 3, 1020)])],
        policies: policies.to_vec(),
        ..BaseBuilder::new(3).with_permissions(2)
    }
}

/// Expects these weights of the roles for permission 0 by a list at a minute, as
/// the decision shows them: one alone is granted if the sum has to be the
/// weight, and isn't if it has to be one more or less.
pub fn expect_weights_at(minute: u32, base: &BaseBuilder, list: &[u8], weights: [u8; 3]) {
    let mut base = base.clone();
    for (role, weight) in (0..).zip(weights) {
        for (sum, answer) in sums_that_tell(weight) {
            base.group_clauses = vec![GroupClause::new(0, &[(1, 4, sum)])];
            let asked = Asked::new(0, at_minute(minute), &[[0, role]]);
            expect_decision_by(&base.bytes(), list, &asked, answer);
        }
    }
}

/// The same at minute 600, of a base with these policies.
pub fn expect_weights(policies: &[Policy], list: &[u8], weights: [u8; 3]) {
    expect_weights_at(600, &with_policies(policies), list, weights);
}

/// Expects this weight of role 2, whose policies are of type 0, by a list.
pub fn expect_own(policies: &[Policy], list: &[u8], weight: u8) {
    expect_weights(policies, list, [0, 0, weight]);
}
