//! What is shown to people: refusals in words, and all else in a line, however long the log is.

use std::fmt::Debug;
use whitherhaul::csv::{Column, FieldFault};
use whitherhaul::DEFAULT_TIMEOUT;
use whitherhaul::{journal, Client, Fault, Frames, Journal, Operation, Refusal, Replica, Setup};

/// The longest runs that there are.
const SETUP: Setup = Setup {
    replicas: 7,
    id: 0,
    timeout: DEFAULT_TIMEOUT,
    room: 4096,
    members: 4096,
};

/// What `{:?}` gives, which is short.
fn shown(of: impl Debug) -> String {
    let line = format!("{of:?}");
    assert!(line.len() < 200, "{} characters", line.len());
    line
}

/// A replica with one charge that waits for the others.
fn charged() -> Replica {
    let mut client = Client::new(7, 7).unwrap();
    let asked = client.on_request(Operation::Fee, 3, 4500).unwrap();
    let mut replica = Replica::new(&SETUP).unwrap();
    replica.on_message(asked.frame).unwrap();
    replica
}

/// One of each refusal, in the order of their numbers; 2 is two of them.
const REFUSALS: [Refusal; 14] = [
    Refusal::OutsideSizes,
    Refusal::Malformed {
        offset: 14,
        length: 51,
    },
    Refusal::OutsideEntryRules,
    Refusal::WrongReplica,
    Refusal::PastRoom,
    Refusal::CommitPastLog,
    Refusal::NotRising,
    Refusal::CommittedAltered,
    Refusal::PastLastView,
    Refusal::MessagesDontFit,
    Refusal::RepliesDontFit,
    Refusal::NumbersUsedUp,
    BAD,
    BAD_ROW,
];

/// The second frame of a journal with a wrong total.
const BAD: Refusal = Refusal::BadFrame {
    offset: 50,
    fault: Fault::Total,
};

/// The fourth row behind a table's header, with a wrong client.
const BAD_ROW: Refusal = Refusal::BadRow {
    row: 5,
    column: Column::Client,
    fault: FieldFault::Value,
    offset: 97,
};

#[test]
fn refusals_have_numbers_and_words() {
    let numbers = REFUSALS.map(Refusal::number);
    assert_eq!(numbers, [1, 2, 2, 3, 4, 5, 6, 7, 8, 9, 10, 11, 12, 13]);
    let by_number = |refusal: &Refusal| ![2, 12, 13].contains(&refusal.number());
    for refusal in REFUSALS.into_iter().filter(by_number) {
        let number = refusal.number();
        let words = Refusal::words(number).unwrap();
        assert_eq!(refusal.to_string(), format!("refusal {number}: {words}"));
    }
    assert_eq!((Refusal::words(0), Refusal::words(14)), (None, None));
}

/// A bad frame in words: where it is, and each fault.
#[test]
fn refusals_with_number_12() {
    let words = Refusal::words(12).unwrap();
    assert_eq!(
        BAD.to_string(),
        format!("refusal 12: {words} at byte 50 (op 2): the total isn't what the fee rules give")
    );
    let faults: Vec<Fault> = (1..=8).filter_map(Fault::from_number).collect();
    for (number, fault) in (1..).zip(&faults) {
        assert_eq!(fault.number(), number);
        assert_eq!(Some(fault.to_string().as_str()), Fault::words(number));
    }
    assert_eq!(faults.len(), 8);
    for number in [0, 9, 255] {
        assert_eq!(
            (Fault::from_number(number), Fault::words(number)),
            (None, None)
        );
    }
    let past = Refusal::BadFrame {
        offset: 204_800,
        fault: Fault::PastLast,
    };
    assert!(past
        .to_string()
        .contains(" at byte 204800 (op 4097): it is past the last op number"));
}

/// A bad row in words: which it is, its field and where that begins, and each fault.
#[test]
fn refusals_with_number_13() {
    let words = Refusal::words(13).unwrap();
    assert_eq!(
        BAD_ROW.to_string(),
        format!("refusal 13: {words} 5: client (byte 97): it isn't what belongs there")
    );
    for fault in (1..=4).filter_map(FieldFault::from_number) {
        let refusal = Refusal::BadRow {
            row: 1,
            column: Column::Op,
            fault,
            offset: 0,
        };
        let line = format!("refusal 13: bad row 1: op (byte 0): {fault}");
        assert_eq!(refusal.to_string(), line);
    }
}

/// Both refusals with the number 2 in words, and where in the frame.
#[test]
fn refusals_with_number_2() {
    let malformed = |offset, length| Refusal::Malformed { offset, length }.to_string();
    let frame = "refusal 2: malformed frame: ";
    assert_eq!(malformed(14, 51), format!("{frame}byte 14 of 51 is wrong"));
    assert_eq!(malformed(0, 1), format!("{frame}byte 0 of 1 is wrong"));
    let ends = |after| format!("{frame}it ends after {after}, and more are missing");
    assert_eq!(malformed(14, 14), ends("14 bytes"));
    assert_eq!(malformed(1, 1), ends("1 byte"));
    assert_eq!(malformed(0, 0), ends("0 bytes"));
    assert_eq!(
        Refusal::OutsideEntryRules.to_string(),
        "refusal 2: operation or cents outside the entry rules"
    );
}

/// The last arm is for refusals of a later release. Were none allowed for, it could never be
/// reached, and this wouldn't compile.
#[test]
#[deny(unreachable_patterns)]
fn a_later_refusal_breaks_no_caller() {
    let number = |refusal: Refusal| match refusal {
        Refusal::OutsideSizes
        | Refusal::Malformed { .. }
        | Refusal::OutsideEntryRules
        | Refusal::WrongReplica
        | Refusal::PastRoom
        | Refusal::CommitPastLog
        | Refusal::NotRising
        | Refusal::CommittedAltered
        | Refusal::PastLastView
        | Refusal::MessagesDontFit
        | Refusal::RepliesDontFit
        | Refusal::NumbersUsedUp
        | Refusal::BadFrame { .. }
        | Refusal::BadRow { .. } => Some(refusal.number()),
        _ => None,
    };
    assert!(REFUSALS
        .into_iter()
        .all(|refusal| number(refusal).is_some()));
}

#[test]
fn a_replica_in_a_line() {
    let replica = charged();
    assert_eq!(
        shown(&replica),
        "Replica { id: 0, replicas: 7, status: Normal, view: 0, op_number: 1, commit_number: 0, \
            takings: 0, .. }"
    );
    let lengths = "Memory { state: 154 bytes, log: 131072 bytes, results: 36864 bytes, \
        totals: 32768 bytes, acks: 4096 bytes, stored: 917504 bytes, table: 102400 bytes }";
    assert_eq!(shown(replica.parts()), lengths);
}

#[test]
fn a_replica_whose_runs_were_shortened() {
    let mut replica = charged();
    for length in [153, 12, 0] {
        replica.parts_mut().state.truncate(length);
        assert_eq!(
            shown(&replica),
            format!("Replica {{ id: 0, replicas: 7, state: {length} bytes, .. }}")
        );
    }
    *replica.parts_mut() = Default::default();
    assert!(shown(replica.parts()).starts_with("Memory { state: 0 bytes, log: 0 bytes, "));
    assert_eq!(
        shown(replica.sent()),
        "Sent { messages: 6, replies: 0, .. }"
    );
}

#[test]
fn what_was_sent_in_a_line() {
    let replica = charged();
    let sent = replica.sent();
    assert_eq!(shown(sent), "Sent { messages: 6, replies: 0, .. }");
    let mut messages = sent.messages();
    messages.next();
    assert_eq!(shown(messages), "Messages { left: 5, .. }");
    let frames = Frames::new(sent.message_bytes());
    assert_eq!(shown(frames), "Frames { left: 6, .. }");
    assert_eq!(shown(sent.replies()), "Replies { left: 0, .. }");
}

#[test]
fn a_journal_in_a_line() {
    let mut replica = charged();
    replica.parts_mut().state[whitherhaul::raw::state::COMMIT_NUMBER + 3] = 1;
    replica.parts_mut().results[0] = 1;
    replica.parts_mut().results[7..9].copy_from_slice(&[0x11, 0x94]);
    let file = replica.journal_since(0).unwrap();
    assert_eq!(
        shown(Journal::read(4096, &file).unwrap()),
        "Journal { members: 4096, entries: 1, takings: 4500, .. }"
    );
    assert_eq!(
        shown(journal::frames(&file)),
        "JournalFrames { offset: 0, length: 50, .. }"
    );
}

#[test]
fn a_client_in_a_line() {
    let mut client = Client::new(7, u64::MAX).unwrap();
    let asked = client.on_request(Operation::Fee, 3, 4500).unwrap();
    assert_eq!(shown(asked), "Requested { number: 0, to: 0, .. }");
    client.on_reply(1, u32::MAX).unwrap();
    assert_eq!(
        shown(client),
        "Client { id: 18446744073709551615, view: 4294967295, next_number: 1, pending: Some(0), .. }"
    );
}
