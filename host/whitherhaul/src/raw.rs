//! The C calls as they are: numbers and byte runs in, the refusal's number out, 0 where it is done.
//! All of this crate's `unsafe` is here.
//!
//! A call asks nothing of its caller but that what it is lent is there: wrong lengths and bytes
//! without meaning are refusal 1. So every function here is safe. Owners use [`Replica`],
//! [`Client`], [`Journal`] and [`csv`]; this is for those who keep the memory themselves, and for
//! tests.
//!
//! [`Replica`]: crate::Replica
//! [`Client`]: crate::Client
//! [`Journal`]: crate::Journal
//! [`csv`]: crate::csv

mod csv;
mod journal;
#[cfg(feature = "replica")]
mod replica;

pub use csv::{csv_export, csv_import};
pub use journal::{journal_append, journal_frame, journal_read, journal_takings, journal_write};
#[cfg(feature = "replica")]
pub(crate) use replica::Bytes;
#[cfg(feature = "replica")]
pub use replica::{
    client_create, client_idle, client_reply, client_request, create, on_idle, on_message,
    read_reply, recover, state, takings, Counts, Memory, CLIENT,
};

/// What stands in an answer before a call, which writes to each, refused or not.
const UNWRITTEN: u64 = u64::MAX;
