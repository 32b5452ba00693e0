//! Edges of the bound on what a changed weight can shift. Each answer is worked
//! out from the rules, and the library, the twin and the model must all give it.

mod dates;
mod entries;
mod groups;
mod numbers;
mod order;
mod policies;
mod setups;
mod sums;
