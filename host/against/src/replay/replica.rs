//! A replica of the library with its memory, given the calls of a trace.

use super::instead::SoFar;
use crate::deep;
use crate::facts::{number, Facts};
use crate::forgotten::would_forget;
use crate::offset;
use crate::pair::answered;
use schedules::rust::{Setup, Start};
use whitherhaul::raw::{self, state, Memory};

/// Areas are lent at most so much longer than the longest that a call can need.
pub const SLACK: usize = 64;

pub struct Replica {
    setup: whitherhaul::Setup,
    pub memory: Memory,
    facts: Facts,
    pub so_far: SoFar,
}

/// Number, offset, messages and replies of a call.
type Given = (u8, usize, Vec<u8>, Vec<u8>);

/// A refused call left memory as it was; bytes past a count are as they were.
pub fn kept(code: u8, memory: &Memory, before: &Memory, past: &[u8]) -> Result<(), String> {
    if code != 0 && memory != before {
        return Err(format!("memory changed though refused by {code}"));
    }
    match past.iter().all(|byte| *byte == 0xa5) {
        true => Ok(()),
        false => Err(String::from("bytes past the count changed")),
    }
}

/// The log's bytes.
fn entries(memory: &Memory) -> &[u8] {
    &memory.log[..32 * number(memory, state::OP_NUMBER) as usize]
}

impl Replica {
    /// A new one: made for the first time, or after a crash with this view and nonce.
    pub fn new(setup: whitherhaul::Setup, memory: Memory, back: Option<(u32, u64)>) -> Replica {
        let sizes = Setup {
            n: setup.replicas as usize,
            id: setup.id as usize,
            timeout: setup.timeout as usize,
            room: setup.room as usize,
            members: setup.members as usize,
        };
        let start = back.map_or(Start::New, |(view, nonce)| Start::Back {
            view: view as usize,
            nonce,
        });
        Replica {
            setup,
            memory,
            facts: Facts::new(sizes, back.map_or(0, |(view, _)| view)),
            so_far: SoFar {
                setup: sizes,
                start,
                calls: Vec::new(),
            },
        }
    }

    /// A frame, or a tick, with areas of these lengths.
    pub fn call(&mut self, frame: Option<&[u8]>, areas: (usize, usize)) -> Result<Given, String> {
        let (mut out, mut reps) = self.areas(areas);
        let before = self.memory.clone();
        let (code, counts, offset) = answered(&mut self.memory, frame, &mut out, &mut reps);
        let malformed = frame.filter(|_| code == 2);
        let due = malformed.map_or(0, offset::of_frame);
        if offset != due {
            return Err(format!("{code} with offset {offset}, {due} is due"));
        }
        kept(code, &self.memory, &before, &out[counts.messages..])?;
        kept(code, &self.memory, &before, &reps[counts.replies..])?;
        self.facts.hold(&self.memory)?;
        out.truncate(counts.messages);
        reps.truncate(counts.replies);
        self.so_far.calls.push((frame.map(<[u8]>::to_vec), areas));
        Ok((code, offset, out, reps))
    }

    /// Whether this frame, or a tick, meets one of the exceptions.
    pub fn meets(&self, frame: Option<&[u8]>, areas: (usize, usize)) -> bool {
        let status = self.memory.state[state::STATUS].into();
        let view = number(&self.memory, state::VIEW) as usize;
        self.so_far.joins(frame, status, view) || self.forgets(frame, areas)
    }

    /// Whether by document 01 it would forget a reply.
    fn forgets(&self, frame: Option<&[u8]>, areas: (usize, usize)) -> bool {
        let (mut out, mut reps) = self.areas(areas);
        let mut memory = self.memory.clone();
        answered(&mut memory, frame, &mut out, &mut reps);
        let commit = 32 * number(&self.memory, state::COMMIT_NUMBER) as usize;
        would_forget(entries(&self.memory), commit, entries(&memory))
    }

    /// Two areas of these lengths, or of little more than any call can need.
    fn areas(&self, areas: (usize, usize)) -> (Vec<u8>, Vec<u8>) {
        let most = self.setup.longest_messages() + SLACK;
        (vec![0xa5; areas.0.min(most)], vec![0xa5; areas.1.min(most)])
    }

    /// The takings: as the call answers, as the state keeps them, and all totals added up, each behind the words that say which.
    pub fn takings(&self) -> Result<[(&'static str, u128); 3], String> {
        let memory = &self.memory;
        let (code, answered) = raw::takings(&memory.state);
        if code != 0 {
            return Err(format!("the takings are refused by {code}"));
        }
        let eight = |bytes: &[u8]| u64::from_be_bytes(bytes.try_into().expect("eight bytes"));
        let kept = eight(&memory.state[state::TAKINGS..state::TAKINGS + 8]);
        let totals = memory.totals.chunks_exact(8).map(eight);
        Ok([
            ("the call answers", answered.into()),
            ("the state keeps", kept.into()),
            ("the totals add up to", totals.map(u128::from).sum()),
        ])
    }

    /// The words of the state line.
    pub fn line(&self) -> Vec<String> {
        let numbers = self.numbers().into_iter().map(|number| number.to_string());
        numbers.chain(self.digests()).collect()
    }

    /// Its numbers.
    fn numbers(&self) -> [u64; 14] {
        let memory = &self.memory;
        let byte = |at: usize| u64::from(memory.state[at]);
        let two = |at: usize| byte(at) << 8 | byte(at + 1);
        let recovering = byte(state::STATUS) == 3;
        let reports = deep::reports(memory);
        let clock = state::CLOCK;
        [
            byte(state::STATUS),
            number(memory, state::VIEW).into(),
            number(memory, state::LAST_NORMAL_VIEW).into(),
            number(memory, state::OP_NUMBER).into(),
            number(memory, state::COMMIT_NUMBER).into(),
            byte(clock),
            number(memory, clock + 1).into(),
            two(clock + 5),
            byte(clock + 7),
            byte(state::STARTS),
            byte(state::SENT),
            byte(state::CATCHING_UP),
            if recovering { 0 } else { reports },
            if recovering { reports } else { 0 },
        ]
    }

    /// Its digests: log, rows, totals, acks, applied.
    fn digests(&self) -> [String; 5] {
        let memory = &self.memory;
        let mut rows = memory.table.clone();
        rows.truncate(25 * rows.chunks_exact(25).filter(|row| row[16] != 0).count());
        for row in rows.chunks_exact_mut(25).filter(|row| row[16] == 255) {
            row[16] = 0;
        }
        let runs: [&[u8]; 5] = [
            entries(memory),
            &rows,
            &memory.totals,
            &memory.acks,
            self.facts.applied(),
        ];
        runs.map(|run| format!("{:016x}", schedules::run::fnv(run)))
    }
}
