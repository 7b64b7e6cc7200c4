//! Journals for a treasurer: judged ([`check`]), shown as tables ([`table`]), and written for a
//! spreadsheet ([`export`]), whose tables are judged when they come back ([`import`]).
//!
//! What is said of a journal is computed by the proved library: whether a frame is good, what the
//! totals come to, and what stands in a frame. So is what is exported, whether a row that comes back
//! is good, and what it says. This crate finds the bytes and chooses the words; of sums it does two,
//! the takings down a table and the cents of the fees and refunds that come back.

#![deny(missing_docs)]
#![forbid(unsafe_code)]

pub mod bad_row;
pub mod bar;
pub mod check;
pub mod export;
pub mod hints;
pub mod import;
pub mod input;
pub mod table;
pub mod words;
