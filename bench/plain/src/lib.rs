//! A plain router for the same calls as the proved one: no contracts, no proofs, written for speed and clarity. The rules stand in
//! `docs/packet.md`, `wiring.md`, `licence.md` and `calls.md` at the top of the repository.

pub mod c;
mod console;
mod orders;
mod packet;
mod refusal;
mod ring;
mod rules;
mod station;
#[cfg(test)]
mod tests;
mod tree;
mod wiring;

pub use console::Console;
pub use orders::order;
pub use refusal::Refusal;
pub use rules::{RangeRule, Verdict};
pub use station::{Input, Station};
pub use tree::Tree;
pub use wiring::{Side, Wiring};
