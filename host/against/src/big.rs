//! Long logs: L of 4,096 with whole logs of nearly, just and more than that, and the many fees that reach the limit of a total.

use crate::case::{Area, Lends, Step};
use crate::counts::Counts;
use crate::pair::Pair;
use crate::play::{end, fault, give, Fault, Found};
use schedules::rust::{Setup, Start};
use vsr_rs::{LogEntry, Message, RecoveryState};
use wire::fees::{Entry, ASK, FEE, MOST_CENTS, REFUND};
use wire::frames::{frame, prepare, request, Fees};
use wire::random::Random;

const ROOM: usize = 4096;

/// Plays one: a replica of three that leads view 3, is a backup in the others.
pub fn play(random: &mut Random, counts: &mut Counts) -> Result<(), Fault> {
    let n = 3 + random.below(5);
    let setup = Setup {
        n,
        id: random.below(n),
        timeout: 2,
        room: ROOM,
        members: random.pick(&[1, 2, 8, 4096]),
    };
    let start = if random.chance(30) {
        Start::Back { view: 0, nonce: 1 }
    } else {
        Start::New
    };
    let (mut pair, _) = Pair::new(setup, start).map_err(|text| Fault {
        text,
        found: Found::Creation,
    })?;
    counts.creations += 1;
    let mut log = Vec::new();
    for _ in 0..8 {
        let length = random.pick(&[1001, 1100, ROOM - 1, ROOM, ROOM, ROOM + 1]);
        grow(random, &mut log, length, setup.members);
        let message = whole(random, &pair, &log);
        let bytes = frame(setup.id, &message);
        give(random, &mut pair, Some(bytes), counts)?;
        for _ in 0..3 {
            let call = small(random, &pair, &log);
            let bytes = call.map(|message| frame(setup.id, &message));
            give(random, &mut pair, bytes, counts)?;
        }
        short_tick(&mut pair, counts)?;
    }
    end(random, &mut pair, counts)
}

/// A tick with areas that are too short, then with just enough.
fn short_tick(pair: &mut Pair, counts: &mut Counts) -> Result<(), Fault> {
    let lends = Lends {
        tries: [
            Some((Area::Less, Area::Just)),
            Some((Area::Nothing, Area::Nothing)),
        ],
        ..Lends::default()
    };
    let step = Step { frame: None, lends };
    pair.step(step, counts).map_err(|text| fault(text, pair))?;
    Ok(())
}

/// The log with more entries, or fewer, so that it has this length: its front stays.
fn grow(random: &mut Random, log: &mut Vec<LogEntry<Entry>>, length: usize, members: usize) {
    log.truncate(length);
    while log.len() < length {
        let operation = random.pick(&[FEE, FEE, FEE, FEE, FEE, FEE, FEE, REFUND, ASK]);
        let op = Entry {
            client: random.below(40) as u64,
            request: log.len() as u64,
            operation,
            member: random.below(members.min(2)) as u32,
            cents: match operation {
                ASK => 0,
                FEE => MOST_CENTS,
                _ => 1 + random.below(1000) as u64,
            },
        };
        log.push(op.logged());
    }
}

/// A message that carries the whole log.
fn whole(random: &mut Random, pair: &Pair, log: &[LogEntry<Entry>]) -> Fees {
    let view = pair.rust.replica.view_number();
    let n = pair.case.setup.n;
    let log = log.to_vec();
    let op_number = log.len();
    let committed = pair.rust.replica.commit_number();
    let commit_number = committed.max(random.below(op_number + 1)).min(op_number);
    if pair.rust.replica.is_recovering() {
        let any = random.below(n);
        return Message::RecoveryResponse {
            view_number: view,
            nonce: 1,
            replica_id: random.pick(&[view % n, (view + 1) % n, any]),
            state: Some(RecoveryState { log, commit_number }),
        };
    }
    match random.below(3) {
        0 => Message::StartView {
            view_number: view + 1,
            log,
            op_number,
            commit_number,
        },
        1 => Message::DoViewChange {
            view_number: pair.case.setup.led_after(view),
            replica_id: random.below(n),
            last_normal_view: view,
            log,
            op_number,
            commit_number,
        },
        _ => {
            let start = committed.min(op_number);
            Message::NewState {
                view_number: view,
                log: log[start..].to_vec(),
                op_number_start: start,
                op_number_end: op_number,
                commit_number,
            }
        }
    }
}

/// A short message, or a tick: what moves a long log on.
fn small(random: &mut Random, pair: &Pair, log: &[LogEntry<Entry>]) -> Option<Fees> {
    let replica = &pair.rust.replica;
    let view_number = replica.view_number();
    let replica_id = random.below(pair.case.setup.n);
    let op_number = replica.op_number();
    Some(match random.below(8) {
        0..=1 => next(random, pair, log.last()?.op),
        2 => Message::PrepareOk {
            view_number,
            op_number,
            replica_id,
        },
        3 => Message::Commit {
            view_number: view_number + random.below(2),
            commit_number: op_number,
        },
        4 => Message::GetState {
            replica_id,
            view_number,
            op_number: op_number / 2,
        },
        5 => Message::StartViewChange {
            view_number: view_number + random.below(2),
            replica_id,
        },
        6 => Message::Recovery {
            replica_id,
            nonce: 5,
            view_number,
        },
        _ => return None,
    })
}

/// A Request, or a Prepare, of a later number than this entry's.
fn next(random: &mut Random, pair: &Pair, latest: Entry) -> Fees {
    let op = Entry {
        request: latest.request + 1 + random.below(2) as u64,
        ..latest
    };
    if random.chance(50) {
        return request(op.logged());
    }
    let replica = &pair.rust.replica;
    let op_number = replica.op_number();
    prepare(replica.view_number(), op_number + 1, op_number, op.logged())
}
