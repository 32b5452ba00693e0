//! Edges of batches. Each answer is worked out from the rules, and the library and
//! the model must both give it and leave the same bytes; each query is asked of the
//! decision too, and in a batch of its own.

mod alike;
mod buffers;
mod contexts;
mod counts;
mod entries;
mod noise;
mod order;
mod permissions;
mod setups;
mod tables;
