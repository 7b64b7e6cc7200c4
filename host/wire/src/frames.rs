//! Document 01's frames for messages of vsr-rs.

mod read;
#[cfg(test)]
mod tests;
mod write;

use crate::fees::{Entry, Operation};
use vsr_rs::{LogEntry, Message};

pub use read::read;
pub use write::{entry_bytes, frame, reply_frame, write_frame, write_reply};

/// The names of the kinds that come in, from 1 on.
pub const KINDS: [&str; 11] = [
    "Request",
    "Prepare",
    "PrepareOk",
    "Commit",
    "GetState",
    "NewState",
    "StartViewChange",
    "DoViewChange",
    "StartView",
    "Recovery",
    "RecoveryResponse",
];

/// How long an entry is.
const ENTRY: usize = 32;

/// A message whose operations are whole entries.
pub type Fees = Message<Entry>;

/// Which kind a message is: its number in document 01's table.
pub fn kind<O>(message: &Message<O>) -> usize {
    match message {
        Message::Request { .. } => 1,
        Message::Prepare { .. } => 2,
        Message::PrepareOk { .. } => 3,
        Message::Commit { .. } => 4,
        Message::GetState { .. } => 5,
        Message::NewState { .. } => 6,
        Message::StartViewChange { .. } => 7,
        Message::DoViewChange { .. } => 8,
        Message::StartView { .. } => 9,
        Message::Recovery { .. } => 10,
        Message::RecoveryResponse { .. } => 11,
    }
}

/// The Request of an entry.
pub fn request<O: Operation>(entry: LogEntry<O>) -> Message<O> {
    Message::Request {
        client_id: entry.client_id,
        request_number: entry.request_number,
        op: entry.op,
    }
}

/// The Prepare of an entry.
pub fn prepare<O: Operation>(
    view_number: usize,
    op_number: usize,
    commit_number: usize,
    entry: LogEntry<O>,
) -> Message<O> {
    Message::Prepare {
        view_number,
        op_number,
        client_id: entry.client_id,
        request_number: entry.request_number,
        op: entry.op,
        commit_number,
    }
}
