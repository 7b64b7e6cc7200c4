//! Memory that refusal 1 has to catch: runs of other lengths, and states out of range or with a byte without meaning.

use crate::takings;
use schedules::rust::Setup;
use whitherhaul::raw::{state, Memory};

/// What refusal 1 has to catch.
#[derive(Clone, Copy, Debug, PartialEq, Eq)]
pub enum Wrong {
    /// A run a byte longer: state, log, results, totals, acks, stored, table.
    Longer(u8),
    /// A run a byte shorter.
    Shorter(u8),
    /// A run of no bytes.
    Empty(u8),
    /// This byte of the state has this value, which has no meaning there or is out of range: see `state`.
    State(u8, u8),
    /// The state keeps this sum, which is too great.
    Takings(u64),
}

/// How many runs there are.
pub const RUNS: usize = 7;

/// The runs in the order of `Wrong`.
pub fn runs(memory: &mut Memory) -> [&mut Vec<u8>; RUNS] {
    [
        &mut memory.state,
        &mut memory.log,
        &mut memory.results,
        &mut memory.totals,
        &mut memory.acks,
        &mut memory.stored,
        &mut memory.table,
    ]
}

/// Makes memory wrong.
pub fn make_wrong(memory: &mut Memory, wrong: Wrong) {
    match wrong {
        Wrong::Longer(run) => runs(memory)[usize::from(run)].push(0x77),
        Wrong::Shorter(run) => {
            runs(memory)[usize::from(run)].pop();
        }
        Wrong::Empty(run) => runs(memory)[usize::from(run)].clear(),
        Wrong::State(at, value) => memory.state[usize::from(at)] = value,
        Wrong::Takings(sum) => takings::put(memory, sum),
    }
}

/// Puts it right again.
pub fn put_right(memory: &mut Memory, right: &Memory, wrong: Wrong) {
    match wrong {
        Wrong::Longer(run) => {
            runs(memory)[usize::from(run)].pop();
        }
        Wrong::Shorter(0) | Wrong::Empty(0) | Wrong::State(..) | Wrong::Takings(_) => {
            memory.state.clone_from(&right.state);
        }
        Wrong::Shorter(1) | Wrong::Empty(1) => memory.log.clone_from(&right.log),
        Wrong::Shorter(2) | Wrong::Empty(2) => memory.results.clone_from(&right.results),
        Wrong::Shorter(3) | Wrong::Empty(3) => memory.totals.clone_from(&right.totals),
        Wrong::Shorter(4) | Wrong::Empty(4) => memory.acks.clone_from(&right.acks),
        Wrong::Shorter(5) | Wrong::Empty(5) => memory.stored.clone_from(&right.stored),
        Wrong::Shorter(_) | Wrong::Empty(_) => memory.table.clone_from(&right.table),
    }
}

/// A change of the state that refusal 1 has to catch, by a random number: a byte without meaning, a setup outside the sizes or of
/// other lengths, op number above L, commit number above it, of the replica or of a report that is there, takings above the most.
pub fn state(setup: Setup, memory: &Memory, random: u64) -> Wrong {
    let more = 2 + (random >> 32) as u8 % 254;
    let any = (random >> 16) as usize % 24;
    let flags = [state::CATCHING_UP, state::CLOCK, state::SENT];
    let id = (random >> 24) as usize % 7;
    let report = state::REPORTS + state::REPORT * id;
    let there = id < setup.n && memory.state[report] == 1;
    let (at, value) = match random % 14 {
        0 => (state::STATUS, more.max(4)),
        1 => (flags[any % 3], more),
        2 => (report + any % 2, more),
        3 if usize::from(more) != setup.n => (state::SETUP, more),
        4 => (state::SETUP + 1, more.max(setup.n as u8)),
        5 => (state::SETUP + 4 + any % 8, more | 0x40),
        6 if setup.timeout < 256 => (state::SETUP + 3, 0),
        7 => (state::OP_NUMBER, more),
        8 => (state::COMMIT_NUMBER, more),
        9 if there => (report + 6, more),
        10 if there => (report + 10, more),
        11 => (state::TAKINGS + any % 3, more.max(4)),
        12 => return Wrong::Takings(takings::past(random >> 16)),
        _ => (state::OP_NUMBER + 1, more),
    };
    Wrong::State(at as u8, value)
}
