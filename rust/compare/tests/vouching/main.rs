//! Edges of decisions and reports for a requester. Each answer is worked out from
//! the rules, and library and model must both give it; the groups shown must be
//! granted by both.

mod buffers;
mod days;
mod numbers;
mod order;
mod registers;
mod reports;
mod requesters;
mod setups;
mod statements;
mod trust;
