//! Numbers with their nouns, and amounts.

pub use ledger::words::{count, money};

/// So many charges.
pub fn charges(number: u64) -> String {
    count(number, "charge", "charges")
}
