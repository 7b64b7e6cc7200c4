//! Short runs written by hand, for what chance seldom meets: ties, acks that outlive a NewState, replies that are lost.

use crate::run::{Call, Run, Setup, Start};
use vsr_rs::{LogEntry, Message, RecoveryState};
use wire::fees::{Entry, FEE, REFUND};
use wire::frames::{self, Fees};

/// How the replica of a directed run is made: new, or recovering in a view, with nonce 1.
pub const NEW: Start = Start::New;
pub const fn back(view: usize) -> Start {
    Start::Back { view, nonce: 1 }
}

/// A fee of a client, with this request number; the member is the client.
pub fn fee(client: u64, request: u64) -> Entry {
    Entry {
        client,
        request,
        operation: FEE,
        member: client as u32,
        cents: 100 + request,
    }
}

pub fn logged(entries: &[Entry]) -> Vec<LogEntry<Entry>> {
    entries.iter().map(|entry| entry.logged()).collect()
}

pub fn request(op: Entry) -> Fees {
    frames::request(op.logged())
}

pub fn prepare(view_number: usize, op_number: usize, commit_number: usize, op: Entry) -> Fees {
    frames::prepare(view_number, op_number, commit_number, op.logged())
}

pub fn prepare_ok(view_number: usize, op_number: usize, replica_id: usize) -> Fees {
    Message::PrepareOk {
        view_number,
        op_number,
        replica_id,
    }
}

pub fn commit(view_number: usize, commit_number: usize) -> Fees {
    Message::Commit {
        view_number,
        commit_number,
    }
}

pub fn new_state(
    view_number: usize,
    start: usize,
    entries: &[Entry],
    commit_number: usize,
) -> Fees {
    Message::NewState {
        view_number,
        log: logged(entries),
        op_number_start: start,
        op_number_end: start + entries.len(),
        commit_number,
    }
}

pub fn start_view_change(view_number: usize, replica_id: usize) -> Fees {
    Message::StartViewChange {
        view_number,
        replica_id,
    }
}

/// A DoViewChange of a sender, with its last normal view, log and commit number.
pub fn do_view_change(
    view: usize,
    sender: usize,
    last: usize,
    log: &[Entry],
    commit: usize,
) -> Fees {
    Message::DoViewChange {
        view_number: view,
        replica_id: sender,
        last_normal_view: last,
        log: logged(log),
        op_number: log.len(),
        commit_number: commit,
    }
}

pub fn start_view(view_number: usize, log: &[Entry], commit_number: usize) -> Fees {
    Message::StartView {
        view_number,
        log: logged(log),
        op_number: log.len(),
        commit_number,
    }
}

/// A RecoveryResponse with nonce 1, and with a log and commit number, if any.
pub fn response(view_number: usize, replica_id: usize, state: Option<(&[Entry], usize)>) -> Fees {
    Message::RecoveryResponse {
        view_number,
        nonce: 1,
        replica_id,
        state: state.map(|(log, commit_number)| RecoveryState {
            log: logged(log),
            commit_number,
        }),
    }
}

/// Replica `id` of `n`, T = 3, L = 8, given these frames, then so many ticks.
fn played(n: usize, id: usize, start: Start, frames: Vec<Fees>, ticks: usize) -> Run {
    let setup = Setup {
        n,
        id,
        timeout: 3,
        room: 8,
        members: 4,
    };
    then(Run::new(setup, start).0, frames, ticks)
}

/// The run goes on with these frames, then so many ticks.
fn then(mut run: Run, frames: Vec<Fees>, ticks: usize) -> Run {
    for message in frames {
        run.frame(message);
    }
    for _ in 0..ticks {
        run.call(Call::Tick);
    }
    run
}

/// What acks that outlive a NewState do, and a primary that has none.
fn acks() -> Vec<Run> {
    let (a, b) = (fee(1, 0), fee(2, 0));
    let past_the_log = |n| {
        vec![
            request(a),
            commit(n, 0),
            new_state(n, 0, &[], 0),
            prepare_ok(n, 1, 1),
            prepare_ok(n, 1, 2),
        ]
    };
    let of_another_entry = vec![
        request(a),
        prepare_ok(0, 1, 1),
        commit(5, 0),
        new_state(5, 0, &[b], 0),
        prepare_ok(5, 1, 2),
    ];
    let none = vec![
        request(a),
        start_view(3, &[a], 0),
        prepare_ok(3, 1, 0),
        prepare_ok(3, 1, 1),
        prepare_ok(3, 1, 2),
    ];
    vec![
        played(3, 0, NEW, past_the_log(3), 0),
        played(5, 0, NEW, past_the_log(5), 0),
        played(5, 0, NEW, of_another_entry, 1),
        played(3, 0, NEW, none, 1),
    ]
}

/// How a log is chosen: the latest normal view, then the length, then the highest id; and what is committed with it.
fn chosen_logs() -> Vec<Run> {
    let (a, b, c) = (fee(1, 0), fee(2, 0), fee(3, 0));
    let started = |reports: Vec<Fees>| played(3, 0, NEW, reports, 1);
    let greatest_commit = vec![
        do_view_change(5, 1, 0, &[a, b], 2),
        do_view_change(5, 2, 1, &[a, b], 1),
        do_view_change(5, 4, 1, &[a, b, c], 0),
    ];
    let replaced = vec![
        do_view_change(5, 3, 0, &[a, b], 0),
        do_view_change(5, 3, 0, &[c], 0),
        do_view_change(5, 0, 0, &[], 0),
        start_view_change(5, 1),
        start_view_change(5, 1),
        start_view_change(5, 2),
    ];
    vec![
        started(vec![
            do_view_change(3, 1, 0, &[a], 0),
            do_view_change(3, 2, 0, &[b], 0),
        ]),
        started(vec![
            do_view_change(3, 2, 0, &[a], 0),
            do_view_change(3, 1, 0, &[b, c], 0),
        ]),
        started(vec![
            do_view_change(3, 2, 1, &[a], 0),
            do_view_change(3, 1, 0, &[b, c], 0),
        ]),
        started(vec![
            request(a),
            do_view_change(3, 1, 0, &[], 0),
            do_view_change(3, 2, 0, &[], 0),
        ]),
        started(vec![
            do_view_change(3, 1, 1, &[], 0),
            do_view_change(3, 2, 0, &[a], 1),
            do_view_change(3, 2, 1, &[a], 1),
        ]),
        played(5, 0, NEW, greatest_commit, 0),
        played(5, 0, NEW, replaced, 2),
    ]
}

/// What an install does to the client table and to committed entries.
fn installs() -> Vec<Run> {
    let (a, b, c) = (fee(1, 5), fee(1, 6), fee(2, 0));
    let refund = Entry {
        operation: REFUND,
        ..a
    };
    let lost_reply = vec![
        prepare(0, 1, 0, a),
        prepare(0, 2, 1, b),
        start_view(1, &[a], 1),
        request(a),
    ];
    let kept_reply = vec![
        prepare(0, 1, 1, a),
        prepare(0, 2, 1, c),
        start_view(1, &[a, c, b], 2),
        request(a),
        request(b),
        request(c),
        do_view_change(1, 0, 0, &[], 0),
    ];
    let altered = vec![
        prepare(0, 1, 1, a),
        start_view(1, &[refund], 0),
        start_view(1, &[], 0),
        do_view_change(1, 0, 0, &[], 0),
        do_view_change(1, 2, 0, &[refund, c], 1),
        start_view_change(1, 2),
        start_view(1, &[a, c], 2),
    ];
    let overlap = vec![
        prepare(0, 1, 0, a),
        prepare(0, 3, 0, c),
        new_state(0, 0, &[a], 1),
        new_state(0, 2, &[c], 1),
        new_state(0, 0, &[refund, b, c], 2),
        new_state(0, 0, &[a], 1),
    ];
    let other_start = vec![
        prepare(0, 1, 1, a),
        prepare(0, 2, 1, c),
        commit(5, 0),
        new_state(5, 0, &[a, b], 2),
        new_state(5, 2, &[b], 0),
        new_state(5, 1, &[b], 2),
    ];
    vec![
        played(3, 1, NEW, lost_reply, 1),
        played(3, 1, NEW, kept_reply, 1),
        played(3, 1, NEW, altered, 1),
        played(3, 1, NEW, overlap, 1),
        played(3, 1, NEW, other_start, 1),
    ]
}

/// Recoveries: an old view, a view that falls, a primary that answers late, a log that isn't committed.
fn recoveries() -> Vec<Run> {
    let a: &[Entry] = &[fee(1, 0)];
    let old_view = vec![
        response(3, 0, Some((a, 1))),
        response(2, 2, None),
        response(6, 2, None),
        response(6, 0, Some((a, 1))),
    ];
    let falling = vec![
        response(5, 2, None),
        response(3, 2, None),
        response(4, 1, Some((a, 1))),
    ];
    let late_primary = vec![
        response(4, 2, None),
        response(3, 0, Some((a, 0))),
        response(4, 1, Some((a, 1))),
    ];
    let uncommitted = vec![response(0, 2, None), response(0, 0, Some((a, 0)))];
    vec![
        played(3, 1, back(5), old_view, 1),
        played(3, 0, back(0), falling, 1),
        played(3, 0, back(0), late_primary, 1),
        played(3, 1, back(0), uncommitted, 2),
    ]
}

/// A replica that waits: its clock from tick to tick, what it sends again, and the last view there is.
fn waits() -> Vec<Run> {
    let last_but_one = start_view(u32::MAX as usize - 1, &[], 0);
    let heard = then(
        played(3, 1, NEW, vec![], 1),
        vec![prepare(0, 2, 0, fee(1, 0))],
        1,
    );
    let catching_up = vec![prepare(0, 1, 0, fee(1, 0)), commit(5, 0)];
    let transfer = vec![prepare(0, 2, 0, fee(1, 0)), prepare(0, 1, 0, fee(1, 0))];
    vec![
        played(3, 1, NEW, vec![], 14),
        played(4, 2, NEW, transfer, 5),
        played(3, 2, NEW, vec![commit(4, 0), commit(4, 0)], 4),
        played(3, 1, NEW, vec![start_view_change(2, 0)], 2),
        played(3, 1, NEW, vec![last_but_one], 7),
        then(heard, vec![new_state(0, 0, &[], 0)], 1),
        played(3, 1, NEW, catching_up, 1),
    ]
}

/// All of them.
pub fn directed() -> Vec<Run> {
    [acks(), chosen_logs(), installs(), recoveries(), waits()]
        .into_iter()
        .flatten()
        .collect()
}
