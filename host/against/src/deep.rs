//! What the Rust shows in its Debug text only, compared with the library's bytes: the last normal view, the clock, the votes, every
//! stored report with its numbers and its log, the nonce, the acks of uncommitted ops, and the client table. A row that goes astray
//! shows outside only much later, if at all. Acks of committed ops can't be told from outside, and the votes of a view change have
//! no meaning outside it.

use schedules::inside::{inside, Inside, Row};
use schedules::run::hex;
use schedules::rust::Setup;
use vsr_rs::{Replica, Status};
use whitherhaul::raw::{state, Memory};
use wire::fees::Ledger;

/// The big-endian number of so many bytes at a place of the state.
fn number(memory: &Memory, at: usize, bytes: usize) -> u64 {
    let bytes = memory.state[at..at + bytes].iter();
    bytes.fold(0, |number, byte| number << 8 | u64::from(*byte))
}

/// The replicas of which a report is there, a bit for each.
pub fn reports(memory: &Memory) -> u64 {
    let there = |id: &usize| memory.state[state::REPORTS + state::REPORT * id] == 1;
    (0..7).filter(there).fold(0, |set, id| set | 1 << id)
}

/// What is compared of the stored reports, as the Rust's (`schedules::stored`): of each that is there its id, then the bytes of
/// the state behind the mark, which are whether it has a log, view, op and commit number, then the entries of its log, where they
/// fit the run.
pub fn stored(memory: &Memory) -> Vec<u8> {
    let mut bytes = Vec::new();
    let log = 32 * number(memory, state::ROOM, 4) as usize;
    for id in (0..7).filter(|id| reports(memory) >> id & 1 == 1) {
        let at = state::REPORTS + state::REPORT * id;
        let entries = 32 * number(memory, at + 6, 4) as usize;
        bytes.push(id as u8);
        bytes.extend(&memory.state[at + 1..at + state::REPORT]);
        let place = memory.stored.get(log * id..log * id + entries);
        bytes.extend(place.unwrap_or(&[]));
    }
    bytes
}

/// The nonce of the recovery.
pub fn nonce(memory: &Memory) -> u64 {
    number(memory, state::NONCE, 8)
}

/// Whether both sides are the same inside; how many stored reports there are, and how many entries in their logs.
pub fn same(
    setup: Setup,
    replica: &Replica<Ledger>,
    memory: &Memory,
) -> Result<(u64, u64), String> {
    let rust = inside(replica);
    let timeout = setup.timeout as u64;
    let clock = state::CLOCK;
    let n = |at, bytes| number(memory, at, bytes);
    equal([
        (
            "last normal view",
            n(state::LAST_NORMAL_VIEW, 4),
            rust.last_normal,
        ),
        ("heard", n(clock, 1), rust.heard.into()),
        ("waiting", n(clock + 1, 4), rust.waiting),
        ("stable", n(clock + 5, 2), rust.stable.min(timeout)),
        ("attempts", n(clock + 7, 1), rust.attempts.min(10)),
        (
            "catching up",
            n(state::CATCHING_UP, 1),
            rust.catching_up.into(),
        ),
        ("nonce", nonce(memory), rust.nonce),
    ])?;
    if replica.status() == Status::ViewChange {
        equal([
            ("starts", n(state::STARTS, 1), rust.starts),
            ("sent", n(state::SENT, 1), rust.sent.into()),
        ])?;
    }
    acks(replica, memory, &rust)?;
    rows(memory, &rust)?;
    same_stored(memory, &rust)
}

/// The stored reports.
fn same_stored(memory: &Memory, rust: &Inside) -> Result<(u64, u64), String> {
    let (library, due) = (stored(memory), rust.stored());
    if library != due {
        let (library, due) = (hex(&library), hex(&due));
        return Err(format!(
            "stored reports: the library has {library}, the Rust {due}"
        ));
    }
    let reports = || rust.reports.iter().chain(&rust.responses);
    let entries = reports().map(|report| report.log.len() as u64).sum();
    Ok((reports().count() as u64, entries))
}

/// Whether named numbers are the same on both sides.
fn equal<const K: usize>(shown: [(&str, u64, u64); K]) -> Result<(), String> {
    for (name, library, rust) in shown {
        if library != rust {
            return Err(format!(
                "{name}: the library has {library}, the Rust {rust}"
            ));
        }
    }
    Ok(())
}

/// The acks of ops above the commit number.
fn acks(replica: &Replica<Ledger>, memory: &Memory, rust: &Inside) -> Result<(), String> {
    let mut due = vec![0; memory.acks.len()];
    for (op, set) in &rust.acks {
        due[*op as usize - 1] = *set as u8;
    }
    let committed = replica.commit_number();
    if memory.acks[committed..] != due[committed..] {
        let library = &memory.acks[committed..];
        return Err(format!(
            "acks: the library has {library:?}, the Rust {:?}",
            &due[committed..]
        ));
    }
    Ok(())
}

/// The client table: rows in rising order of client id, unused ones last.
fn rows(memory: &Memory, rust: &Inside) -> Result<(), String> {
    let used = memory.table.chunks_exact(25);
    let used: Vec<&[u8]> = used.take_while(|row| row[16] != 0).collect();
    let unused = &memory.table[25 * used.len()..];
    if unused.chunks_exact(25).any(|row| row[16] != 0) || used.len() != rust.rows.len() {
        return Err(format!(
            "the library's table has {} rows, the Rust's {}",
            used.len(),
            rust.rows.len()
        ));
    }
    for (row, due) in used.iter().zip(&rust.rows) {
        if **row != row_bytes(due)[..] {
            return Err(format!("the row of client {} differs", due.client));
        }
    }
    Ok(())
}

/// A row's bytes: client, request, mark (255 where no reply is kept), total.
fn row_bytes(row: &Row) -> [u8; 25] {
    let mut bytes = [0; 25];
    bytes[..8].copy_from_slice(&row.client.to_be_bytes());
    bytes[8..16].copy_from_slice(&row.request.to_be_bytes());
    bytes[16] = row.reply.map_or(255, |reply| reply.code);
    let total = row.reply.map_or(0, |reply| reply.total);
    bytes[17..].copy_from_slice(&total.to_be_bytes());
    bytes
}
