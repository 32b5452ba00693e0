//! The rules of the release decider in plain Rust, to compare the library
//! with. Written from the rules alone: nothing here comes from the library.
//!
//! A [`Base`] exists only for bytes that pass refusals 1 to 9, so whatever
//! works on a `Base` can rely on every record.

mod acting;
mod answer;
mod base;
mod batch;
mod bound;
mod check;
mod choice;
mod conflicts;
mod context;
mod days;
mod decision;
mod fields;
mod group;
mod layout;
mod membership;
mod operator;
mod parameter;
mod reading;
mod records;
mod refusal;
mod register;
mod related;
mod release_list;
mod report;
mod resolution;
mod roles;
#[cfg(test)]
mod samples;
mod seniority;
mod sheet;
mod signings;
mod smallest;
mod smallest_vouched;
mod vouched;
mod vouching;
mod weight;

pub use acting::Acting;
pub use answer::Answer;
pub use base::Base;
pub use batch::{batch, batch_as};
pub use bound::{bound, bound_as, Change};
pub use check::{check, check_as};
pub use choice::{Choice, Choices};
pub use conflicts::{conflict_list, conflicts, conflicts_as, Conflict};
pub use context::Context;
pub use decision::{decide, decide_as, decide_by, Question};
pub use group::{Attributes, Entry};
pub use operator::Comparison;
pub use parameter::{parameter, parameter_as};
pub use reading::Reading;
pub use records::{
    ContextClause, ContextCondition, Edge, Exclusion, GroupClause, GroupCondition, Measure,
    Parameter, Permission, Policy, User,
};
pub use refusal::Refusal;
pub use register::{Register, Statement};
pub use related::{related_by_trial, Relations};
pub use release_list::{lines, render};
pub use report::{report, report_as, report_by};
pub use resolution::{Numbered, Resolution, Rule, LEGAL_LISTS};
pub use roles::{Role, RoleSet};
pub use seniority::Seniority;
pub use sheet::{
    sheet_ask, sheet_ask_as, sheet_holding, sheet_open, sheet_open_as, sheet_sign, sheet_sign_as,
    sheet_withdraw, sheet_withdraw_as, Sheet,
};
pub use signings::{accepted, standing, Event, Signing};
pub use smallest::{smallest_by_reach, smallest_by_trial, smallest_group};
pub use smallest_vouched::{
    smallest_group_for, smallest_vouched_by_reach, smallest_vouched_by_trial,
};
pub use vouched::{decide_vouched, decide_vouched_as, report_vouched, report_vouched_as};
pub use vouching::Vouching;
pub use weight::Situation;
