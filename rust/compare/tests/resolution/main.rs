//! Edges of decisions and reports by a resolution list. Each answer is worked
//! out from the rules, and the library, the twin and the model must all give it.

mod contexts;
mod dates;
mod lists;
mod order;
mod reports;
mod rivals;
mod rules;
mod setups;
mod sums;
mod ties;
mod types;
