//! The release decider for shelf labels: a safe wrapper over the proved
//! library.
//!
//! A policy base says who holds which role, from which day to which, which role
//! is senior to which, what each role weighs for a permission, and which groups
//! may release it. A user may act in a role that the user holds, or that is
//! junior to one that the user holds. The library answers these questions about a
//! base, for any bytes whatever, and one about a parameter alone:
//!
//! | function | question |
//! |---|---|
//! | [`check`] | is this a base? |
//! | [`decide`], [`decide_bytes`] | may this group release this permission? |
//! | [`report`], [`report_into`] | which smallest group can release each permission? |
//! | [`decide_by`], [`decide_by_bytes`], [`report_by`], [`report_by_into`] | the same where a [`Resolution`] says which of several policies counts |
//! | [`batch`], [`batch_into`] | may each of these groups release its permission? |
//! | [`decide_vouched`], [`decide_vouched_bytes`], [`report_vouched`], [`report_vouched_into`] | the same of a requester and those who vouch for the requester by a [`Register`] |
//! | [`conflicts`], [`conflicts_into`], [`conflict_count`] | which records of the base conflict? |
//! | [`bound`], [`bound_bytes`] | how far can a policy's new weight shift this group's sum of weights? |
//! | [`check_parameter`] | is this a user's parameter, and how many codes does the check try? |
//! | [`Sheet::open`], [`Sheet::sign`], [`Sheet::withdraw`], [`Sheet::ask`] | may those whose signatures stand release this permission? |
//!
//! The answer is the result, or the first [`Refusal`] that applies. A refused
//! call writes nothing, with one exception: a refused
//! [opening](answers::sheet_open) gives the unsigned sheet for permission 255.
//!
//! ```
//! use release::example::SMALL_SHOP;
//! use release::{decide, Context, Entry, Refusal};
//!
//! let by_day = Context::new(600, 0, 0, 900);
//! let manager = Entry::new(0, 0);
//! let clerk = Entry::new(2, 2);
//! assert_eq!(decide(&SMALL_SHOP, 0, by_day, &[manager, clerk]), Ok(()));
//! assert_eq!(decide(&SMALL_SHOP, 0, by_day, &[manager]), Err(Refusal::Condition));
//! ```
//!
//! Nothing is kept between calls, so any number of threads may call at once.
//! A report, of whichever kind, takes about 30,000 bytes of stack, a batch about
//! 10,500, every other call less than 4,096: a thread with 64 KiB suffices.
//!
//! The static library is built by `tools/build` before this crate.

#![deny(missing_docs)]
#![deny(unsafe_op_in_unsafe_fn)]
#![deny(unsafe_code)]

pub mod answers;
mod batch;
mod bound;
mod conflicts;
mod context;
mod decision;
pub mod example;
#[allow(unsafe_code)]
mod library;
mod parameter;
mod refusal;
mod report;
mod resolution;
mod sheet;
mod vouching;

pub use batch::{batch, batch_into, Answers, Query, MOST_QUERIES, QUERY_BYTES};
pub use bound::{bound, bound_bytes};
pub use conflicts::{conflict_count, conflicts, conflicts_into, Conflict, CONFLICT_BYTES};
pub use context::Context;
pub use decision::{decide, decide_by, decide_by_bytes, decide_bytes, Entry};
pub use parameter::{check_parameter, Tried};
pub use refusal::Refusal;
pub use report::{
    permissions, report, report_by, report_by_into, report_into, Permission, Report,
    LONGEST_REPORT, PERMISSION_BYTES,
};
pub use resolution::{Resolution, Rule, LONGEST_RESOLUTION};
pub use sheet::{Sheet, SHEET_BYTES};
pub use vouching::{
    decide_vouched, decide_vouched_bytes, report_vouched, report_vouched_into, Register, Statement,
    LONGEST_REGISTER, STATEMENT_BYTES,
};

/// The most bytes that a base can have.
pub const LONGEST_BASE: usize = 2_460;

/// Whether these bytes are a policy base: the first of refusals 1 to 9 that
/// applies, if one does. A base from before users had days has other letters and
/// gets [`Refusal::Letters`].
///
/// ```
/// use release::example::SMALL_SHOP;
/// use release::{check, Refusal};
///
/// assert_eq!(check(&SMALL_SHOP), Ok(()));
/// assert_eq!(check(&SMALL_SHOP[..35]), Err(Refusal::Length));
/// ```
pub fn check(base: &[u8]) -> Result<(), Refusal> {
    refusal::result_of(answers::check(base))
}

/// The examples of the README, tried with those of the documentation.
#[cfg(doctest)]
#[doc = include_str!("../../../README.md")]
struct Readme;
