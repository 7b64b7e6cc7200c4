use super::*;
use crate::fees::{Charge, Outcome, ASK, FEE};
use std::fmt::Debug;
use vsr_rs::{RecoveryState, Reply};

fn entry<O: Operation>(client: u64, request: u64) -> LogEntry<O> {
    let charge = Charge {
        operation: FEE,
        member: 3,
        cents: 4_500,
    };
    LogEntry {
        client_id: client as usize,
        request_number: request as usize,
        op: O::new(client, request, charge),
    }
}

/// Messages of normal operation and state transfer.
fn early<O: Operation>() -> Vec<Message<O>> {
    vec![
        request(entry(7, 0)),
        prepare(1, 2, 3, entry(u64::MAX, u64::MAX)),
        Message::PrepareOk {
            view_number: 1,
            op_number: 2,
            replica_id: 3,
        },
        Message::Commit {
            view_number: u32::MAX as usize,
            commit_number: 2,
        },
        Message::GetState {
            replica_id: 1,
            view_number: 2,
            op_number: 3,
        },
        Message::NewState {
            view_number: 1,
            log: vec![entry(7, 0), entry(8, 1)],
            op_number_start: 4,
            op_number_end: 6,
            commit_number: 5,
        },
    ]
}

/// Messages of a view change and of recovery.
fn late<O: Operation>() -> Vec<Message<O>> {
    let response = |state| Message::RecoveryResponse {
        view_number: 1,
        nonce: u64::MAX,
        replica_id: 2,
        state,
    };
    let log = vec![entry(7, 0)];
    vec![
        Message::StartViewChange {
            view_number: 1,
            replica_id: 2,
        },
        Message::DoViewChange {
            view_number: 4,
            replica_id: 2,
            last_normal_view: 3,
            log: log.clone(),
            op_number: 1,
            commit_number: 0,
        },
        Message::StartView {
            view_number: 4,
            log: log.clone(),
            op_number: 1,
            commit_number: 1,
        },
        Message::Recovery {
            replica_id: 1,
            nonce: 9,
            view_number: 2,
        },
        response(Some(RecoveryState {
            log,
            commit_number: 1,
        })),
        response(None),
    ]
}

fn same<T: Debug>(one: T, other: T) {
    assert_eq!(format!("{one:?}"), format!("{other:?}"));
}

fn reads_what_is_written<O: Operation>() {
    let mut kinds = Vec::new();
    for message in early::<O>().into_iter().chain(late()) {
        let bytes = frame(5, &message);
        kinds.push(kind(&message));
        assert_eq!(usize::from(bytes[5]), kind(&message));
        assert_eq!(bytes[6], 5);
        same(read::<O>(&bytes), Some(message));
        for end in 0..bytes.len() {
            assert!(read::<O>(&bytes[..end]).is_none());
        }
        let longer = [&bytes[..], &[0]].concat();
        assert!(read::<O>(&longer).is_none());
    }
    assert_eq!(kinds, [1, 2, 3, 4, 5, 6, 7, 8, 9, 10, 11, 11]);
}

#[test]
fn messages_of_charges_are_read_as_they_were_written() {
    reads_what_is_written::<Charge>();
}

#[test]
fn messages_of_entries_are_read_as_they_were_written() {
    reads_what_is_written::<Entry>();
}

#[test]
fn both_operations_give_the_same_bytes() {
    let charges = early::<Charge>().into_iter().chain(late());
    let entries = early::<Entry>().into_iter().chain(late());
    for (charge, entry) in charges.zip(entries) {
        assert_eq!(frame(1, &charge), frame(1, &entry));
    }
}

#[test]
fn an_entry_outside_the_rules_is_not_read() {
    let good = frame(0, &request(entry::<Charge>(7, 0)));
    let with = |at: usize, byte| {
        let mut bytes = good.clone();
        bytes[at] = byte;
        read::<Charge>(&bytes).is_some()
    };
    assert!(with(23, FEE));
    assert!(!with(23, ASK), "cents in an ask");
    assert!(!with(23, 4), "an operation that there isn't");
    assert!(!with(24, 1), "a byte without meaning");
    assert!(!with(36, 200), "too many cents");
    assert!(!with(4, 2), "another version");
    assert!(!with(5, 12), "a kind that doesn't come in");
}

#[test]
fn a_reply_is_written_behind_what_is_there() {
    let reply = Reply {
        view_number: 1,
        client_id: 7,
        request_number: 2,
        result: Outcome {
            code: 1,
            total: 4_500,
        },
    };
    let mut bytes = vec![0xff];
    write_reply(&mut bytes, &reply);
    assert_eq!(bytes[1..], reply_frame(&reply));
    let due = [
        &[0, 0, 0, 32, 1, 12, 0, 0, 0, 0, 1][..],
        &7_u64.to_be_bytes(),
        &2_u64.to_be_bytes(),
        &[1],
        &4_500_u64.to_be_bytes(),
    ];
    assert_eq!(bytes[1..], due.concat());
}
