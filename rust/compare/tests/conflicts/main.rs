//! Edges of the conflict list. Each answer and each byte is worked out from
//! the rules, and the library and the model must both give it.

mod acting;
mod buffers;
mod dates;
mod exclusive;
mod greatest;
mod members;
mod order;
mod policies;
mod refusals;
mod related;
mod setups;
