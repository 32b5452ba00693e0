//! Edges of the check of one parameter. Each answer is worked out from the
//! rules, and the library, the twin and the model must all give it; of a base of
//! one user they must give the same refusal.

mod numbers;
mod products;
mod refused;
mod roles;
mod setups;
mod tried;
