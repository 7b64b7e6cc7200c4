//! Document 01's refusals 3 to 6 on the frame alone.

use std::collections::HashMap;
use vsr_rs::{LogEntry, Message};
use wire::fees::Entry;
use wire::frames::Fees;

/// Whether for each client the request numbers strictly rise along the log. A short log is looked over by pairs; in a long one
/// each number is held against the client's latest before it, which is the greatest where all before it rise.
pub fn rising(log: &[LogEntry<Entry>]) -> bool {
    if log.len() > 32 {
        let mut latest = HashMap::new();
        return log
            .iter()
            .all(|e| match latest.insert(e.client_id, e.request_number) {
                Some(before) => before < e.request_number,
                None => true,
            });
    }
    (0..log.len()).all(|later| {
        (0..later).all(|earlier| {
            log[earlier].client_id != log[later].client_id
                || log[earlier].request_number < log[later].request_number
        })
    })
}

/// What of a message refusals 3 to 6 look at; 0 or empty where its kind doesn't carry it.
struct Carried<'a> {
    sender: usize,
    op: usize,
    commit: usize,
    log: &'a [LogEntry<Entry>],
}

/// The sender, the carried o (or end), the carried c where refusal 5 bounds it, and a whole carried log.
fn carried(message: &Fees) -> Carried<'_> {
    let carry = |sender, op, commit, log| Carried {
        sender,
        op,
        commit,
        log,
    };
    match message {
        Message::Request { .. } | Message::Commit { .. } => carry(0, 0, 0, &[]),
        Message::Prepare { op_number, .. } => carry(0, *op_number, 0, &[]),
        Message::PrepareOk {
            op_number,
            replica_id,
            ..
        }
        | Message::GetState {
            op_number,
            replica_id,
            ..
        } => carry(*replica_id, *op_number, 0, &[]),
        Message::NewState {
            op_number_end,
            commit_number,
            ..
        } => carry(0, *op_number_end, *commit_number, &[]),
        Message::StartViewChange { replica_id, .. } | Message::Recovery { replica_id, .. } => {
            carry(*replica_id, 0, 0, &[])
        }
        Message::DoViewChange {
            replica_id,
            log,
            commit_number,
            ..
        } => carry(*replica_id, log.len(), *commit_number, log),
        Message::StartView {
            log, commit_number, ..
        } => carry(0, log.len(), *commit_number, log),
        Message::RecoveryResponse {
            replica_id, state, ..
        } => match state {
            None => carry(*replica_id, 0, 0, &[]),
            Some(state) => carry(
                *replica_id,
                state.log.len(),
                state.commit_number,
                &state.log,
            ),
        },
    }
}

/// Refusals 3 to 6 on the frame alone; 0 where there is none. The frames here are never malformed.
pub fn refused(n: usize, id: usize, room: usize, addressee: usize, message: &Fees) -> usize {
    let carried = carried(message);
    if addressee != id || carried.sender >= n {
        return 3;
    }
    if carried.op > room {
        return 4;
    }
    if carried.commit > carried.op {
        return 5;
    }
    if !rising(carried.log) {
        return 6;
    }
    0
}
