//! Short plots that an adversary seldom stumbles on, each some calls in a row that look at the replica before each: acks that outlive
//! a NewState, a quorum of DoViewChanges whose logs don't agree, and recovery responses of views around the one that was kept.

use schedules::rust::Rust;
use vsr_rs::{LogEntry, Message, RecoveryState, Status};
use wire::fees::{Entry, FEE};
use wire::frames::{frame, request, Fees};
use wire::random::Random;

/// A plot under way: its moves that are still to come, the last one first.
pub struct Plot(Vec<Move>);

#[derive(Clone, Copy)]
enum Move {
    /// A new Request.
    Request,
    /// A PrepareOk of an op number near the log's end.
    PrepareOk,
    /// A Commit of the next view that this replica leads.
    Commit,
    /// A NewState from the commit number on, with so many new entries.
    NewState(usize),
    /// A StartViewChange of the next view that this replica leads, or of its view where it is changing already.
    Start,
    /// A DoViewChange likewise, from this sender.
    Report(usize),
    /// A RecoveryResponse of this view, or one beside it, from this sender.
    Response(usize, usize),
}

impl Plot {
    /// One of them.
    pub fn any(random: &mut Random, rust: &Rust) -> Plot {
        let mut moves = Vec::new();
        if rust.replica.is_recovering() {
            let view = rust.replica.view_number() + random.below(5);
            let view = view.saturating_sub(2).min(u32::MAX as usize);
            for _ in 0..2 * rust.setup.n {
                let any = random.below(rust.setup.n);
                let sender = random.pick(&[view % rust.setup.n, any, any]);
                moves.push(Move::Response(view, sender));
            }
        } else if random.chance(50) {
            moves.extend(vec![Move::Request; 1 + random.below(3)]);
            moves.extend(vec![Move::PrepareOk; random.below(3)]);
            moves.push(Move::Commit);
            moves.push(Move::NewState(random.pick(&[0, 0, 1, 2])));
            moves.extend(vec![Move::PrepareOk; 2 + random.below(6)]);
        } else {
            moves.push(Move::Start);
            let first = random.below(rust.setup.n);
            for more in 0..rust.setup.n {
                moves.push(Move::Report((first + more) % rust.setup.n));
                if random.chance(20) {
                    moves.push(Move::Start);
                }
            }
        }
        moves.reverse();
        Plot(moves)
    }

    /// Whether no move is to come.
    pub fn is_over(&self) -> bool {
        self.0.is_empty()
    }

    /// The next call, as a frame; none where the plot is over.
    pub fn next(&mut self, random: &mut Random, rust: &Rust, clients: &[u64]) -> Option<Vec<u8>> {
        let message = message(self.0.pop()?, random, rust, clients);
        Some(frame(rust.setup.id, &message))
    }
}

/// The next view that this replica leads; its own where it is changing to one that it leads.
fn led(rust: &Rust) -> usize {
    let view = rust.replica.view_number();
    if rust.replica.status() == Status::ViewChange && rust.replica.is_primary() {
        return view;
    }
    rust.setup.led_after(view).min(u32::MAX as usize)
}

/// A fee of a client's next number after this log.
fn fee(random: &mut Random, log: &[LogEntry<Entry>], clients: &[u64]) -> LogEntry<Entry> {
    let client = random.pick(clients);
    let latest = log.iter().rev().find(|e| e.op.client == client);
    let fee = Entry {
        client,
        request: latest.map_or(0, |e| e.op.request.saturating_add(1)),
        operation: FEE,
        member: 0,
        cents: 1 + random.below(1000) as u64,
    };
    fee.logged()
}

/// So many new fees behind this log.
fn more(
    random: &mut Random,
    log: &[LogEntry<Entry>],
    fees: usize,
    clients: &[u64],
) -> Vec<LogEntry<Entry>> {
    let mut log = log.to_vec();
    for _ in 0..fees {
        let entry = fee(random, &log, clients);
        log.push(entry);
    }
    log
}

fn message(chosen: Move, random: &mut Random, rust: &Rust, clients: &[u64]) -> Fees {
    let replica = &rust.replica;
    let log = replica.log();
    let committed = replica.commit_number();
    let view_number = replica.view_number();
    let replica_id = random.below(rust.setup.n);
    match chosen {
        Move::Request => request(fee(random, log, clients)),
        Move::PrepareOk => Message::PrepareOk {
            view_number,
            op_number: committed + 1 + random.below(3),
            replica_id,
        },
        Move::Commit => Message::Commit {
            view_number: led(rust),
            commit_number: committed,
        },
        Move::NewState(fees) => {
            let log = more(random, &log[..committed], fees, clients);
            Message::NewState {
                view_number,
                op_number_start: committed,
                op_number_end: log.len(),
                log: log[committed..].to_vec(),
                commit_number: committed + random.below(log.len() - committed + 1),
            }
        }
        Move::Start => Message::StartViewChange {
            view_number: led(rust),
            replica_id,
        },
        Move::Report(replica_id) => report(random, rust, clients, replica_id),
        Move::Response(view, replica_id) => response(random, rust, clients, view, replica_id),
    }
}

/// A DoViewChange whose log may be behind ours, or beside it.
fn report(random: &mut Random, rust: &Rust, clients: &[u64], replica_id: usize) -> Fees {
    let own = rust.replica.log();
    let committed = rust.replica.commit_number();
    let kept = random.pick(&[
        committed,
        committed,
        own.len(),
        committed.saturating_sub(1),
        0,
    ]);
    let room = rust.setup.room - kept.min(rust.setup.room);
    let fees = random.below(4).min(room);
    let log = more(random, &own[..kept], fees, clients);
    let op_number = log.len();
    Message::DoViewChange {
        view_number: led(rust),
        replica_id,
        last_normal_view: random.below(3),
        commit_number: random.pick(&[0, committed.min(op_number), op_number]),
        log,
        op_number,
    }
}

/// A RecoveryResponse of this view, or now and then of one beside it; with a log mostly where its sender leads that view.
fn response(
    random: &mut Random,
    rust: &Rust,
    clients: &[u64],
    view: usize,
    replica_id: usize,
) -> Fees {
    let view_number = match random.below(8) {
        0 => view.saturating_sub(1),
        1 => (view + 1).min(u32::MAX as usize),
        _ => view,
    };
    let leads = view_number % rust.setup.n == replica_id;
    let fees = random.below(rust.setup.room.min(4) + 1);
    let state = random.chance(if leads { 80 } else { 10 }).then(|| {
        let log = more(random, &[], fees, clients);
        let commit_number = random.below(log.len() + 1);
        RecoveryState { log, commit_number }
    });
    Message::RecoveryResponse {
        view_number,
        nonce: 1,
        replica_id,
        state,
    }
}
