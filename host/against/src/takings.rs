//! The takings: the sum over all members that the library keeps in its state and answers. The Rust has none, so they are held
//! against its totals. For states that no call produced they are judged here, from document 02's order on them, with no look at the
//! library.

use crate::facts::number;
use schedules::run::hex;
use whitherhaul::raw::{self, state, Memory};
use wire::random::Random;

#[cfg(test)]
mod tests;

/// A greater sum is refused by 1.
pub const MOST: u64 = 4_096_000_000_000;

/// The library's takings are this sum: those that it answers, and the bytes of the state, which asking leaves as they are.
pub fn hold(memory: &Memory, due: u64) -> Result<(), String> {
    let run: [u8; state::LENGTH] = memory.state[..].try_into().expect("a state's length");
    let (number, cents) = raw::takings(&memory.state);
    if (number, cents) != (0, due) {
        return Err(format!("takings: {number} and {cents}, {due} is due"));
    }
    if memory.state != run {
        return Err("takings: asking changed the state".into());
    }
    if run[state::TAKINGS..] != due.to_be_bytes() {
        let kept = &run[state::TAKINGS..];
        return Err(format!("takings: the state keeps {kept:?}, {due} is due"));
    }
    Ok(())
}

/// For a state run with any bytes, of any length, the library answers what it has to; whether that was refusal 1.
pub fn judge(run: &[u8]) -> Result<bool, String> {
    let due = if passes(run) {
        (0, u64_at(run, 146))
    } else {
        (1, 0)
    };
    match raw::takings(run) {
        given if given == due => Ok(due.0 == 1),
        given => Err(format!(
            "takings: {given:?}, due is {due:?}, of {}",
            hex(run)
        )),
    }
}

/// Refusal 1 on a state alone lets it pass.
fn passes(run: &[u8]) -> bool {
    if run.len() != 154 {
        return false;
    }
    let (replicas, room, members) = (run[0], u32_at(run, 4), u32_at(run, 8));
    let sizes = (3..=7).contains(&replicas)
        && run[1] < replicas
        && run[2..4] != [0, 0]
        && (1..=4096).contains(&room)
        && (1..=4096).contains(&members);
    let meaning = run[12] <= 3 && run[21] <= 1 && run[30] <= 1 && run[39] <= 1;
    let reports = run[48..146].chunks_exact(14).zip(0..);
    sizes
        && meaning
        && fits(&run[22..], room)
        && run[38] >> replicas == 0
        && reports
            .into_iter()
            .all(|(report, id)| report_passes(report, id < replicas, room))
        && u64_at(run, 146) <= MOST
}

/// A row of a report: all zero where none is there, and where its id is no replica's.
fn report_passes(report: &[u8], replica: bool, room: u32) -> bool {
    match report[0] {
        0 => report.iter().all(|byte| *byte == 0),
        1 => replica && report[1] <= 1 && fits(&report[6..], room),
        _ => false,
    }
}

/// An op number of at most L and a commit number of at most that stand there.
fn fits(numbers: &[u8], room: u32) -> bool {
    let (op, commit) = (u32_at(numbers, 0), u32_at(numbers, 4));
    op <= room && commit <= op
}

fn u32_at(bytes: &[u8], at: usize) -> u32 {
    u32::from_be_bytes(*bytes[at..].first_chunk().expect("four bytes"))
}

pub fn u64_at(bytes: &[u8], at: usize) -> u64 {
    u64::from_be_bytes(*bytes[at..].first_chunk().expect("eight bytes"))
}

/// Another sum in a state.
pub fn put(memory: &mut Memory, sum: u64) {
    memory.state[state::TAKINGS..].copy_from_slice(&sum.to_be_bytes());
}

/// A sum that passes, often at an edge.
pub fn any(random: &mut Random) -> u64 {
    let edges = [
        0,
        0,
        1,
        50,
        5000,
        MOST / 2,
        MOST - 5000,
        MOST - 1,
        MOST,
        MOST,
    ];
    match random.below(4) {
        0 => random.number() % (MOST + 1),
        _ => random.pick(&edges),
    }
}

/// One that refusal 1 catches, by a random number.
pub fn past(random: u64) -> u64 {
    let more = random >> 8;
    let any = MOST + 1 + more % (u64::MAX - MOST);
    let edges = [MOST + 1, MOST + 2, MOST + 256, 1 << 42, 1 << 63, u64::MAX];
    *edges.get(random as usize % 8).unwrap_or(&any)
}

/// How often a sum was cut, at the most and at 0.
pub type Cuts = [u64; 2];

/// A sum after the entries that a call committed, by the outcomes that stand in the results: a fee adds its cents, a refund takes
/// them away, and what leaves the range is cut.
pub fn moved(sum: u64, before: &Memory, after: &Memory, cuts: &mut Cuts) -> u64 {
    let ops = number(before, state::COMMIT_NUMBER)..number(after, state::COMMIT_NUMBER);
    ops.map(|op| op as usize).fold(sum, |sum, op| {
        let cents = i128::from(u64_at(&after.log, 32 * op + 24));
        let moved = match after.results[9 * op] {
            1 => i128::from(sum) + cents,
            2 => i128::from(sum) - cents,
            _ => i128::from(sum),
        };
        cuts[0] += u64::from(moved > i128::from(MOST));
        cuts[1] += u64::from(moved < 0);
        moved.clamp(0, i128::from(MOST)) as u64
    })
}
