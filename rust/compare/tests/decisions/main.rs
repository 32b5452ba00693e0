//! Edges of the decision. Each answer is worked out from the rules, and the
//! library and the model must both give it.

mod acting;
mod attributes;
mod clauses;
mod contexts;
mod dates;
mod groups;
mod hierarchy;
mod members;
mod numbers;
mod operators;
mod order;
mod policies;
mod setups;
mod shop;
