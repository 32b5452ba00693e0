//! Edges of the base check. Each answer is worked out from the rules, and the
//! library and the model must both give it.

mod context_clauses;
mod counts;
mod exclusions;
mod group_clauses;
mod hierarchy;
mod order;
mod policies;
mod shop;
mod trailer;
mod users;
