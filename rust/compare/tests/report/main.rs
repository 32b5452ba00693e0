//! Edges of the report. Each number is worked out from the rules, and library,
//! twin and model must give it; the groups that library and twin show must be
//! granted by library and model.

mod acting;
mod buffers;
mod caps;
mod clauses;
mod dates;
mod greatest;
mod groups;
mod multisets;
mod permissions;
mod refusals;
mod role_sets;
mod setups;
mod sharing;
mod shop;
mod sizes;
mod sparse;
mod sums;
mod weights;
