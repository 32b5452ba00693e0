//! Edges of the sheet. Each answer and each byte is worked out from the rules,
//! and the library and the model must both give it.

mod acting;
mod askings;
mod bases;
mod claims;
mod dates;
mod openings;
mod order;
mod setups;
mod signings;
mod withdrawals;
