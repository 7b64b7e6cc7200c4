//! One replica on both sides: the Rust, and the library. Each call is judged on the Rust first (`schedules::rust`), then
//! given to the library, and all that both show is compared.
//!
//! After a call that is done: number, counts, the bytes of messages and replies, the bytes of both areas past the counts, status,
//! view, op and commit number; the whole log, entry by entry; the applied entries; and all totals. The log and the totals are
//! compared whole, not only what changed. The Rust's own totals change only where its ledger applies an entry, so those of the
//! entries that were applied by the call are compared, and the number of applied entries each time.
//!
//! After every call, refused or not, the takings that the library keeps and answers are the sum of the Rust's totals.
//!
//! After a refused call: number, counts of 0, and every byte of the state, of all runs and of both areas is as before. A malformed
//! frame comes back with its offset, as `offset` has it, and every other answer with 0.

use crate::case::{Area, Case, Lends, Step};
use crate::counts::Counts;
use crate::deep;
use crate::facts::{number, Facts};
use crate::offset;
use crate::own_id;
use crate::parse::parse;
use crate::takings;
use crate::wrongs::{self, Wrong};
use schedules::run::hex;
use schedules::rust::{status_number, Answer, Rust, Setup, Start};
use whitherhaul::raw::{self, state, Memory};
use wire::frames::entry_bytes;

mod sums;
#[cfg(test)]
mod tests;

/// So many bytes past the end of a lent area are looked at too.
const GUARD: usize = 16;

/// Both sides, with the calls so far.
pub struct Pair {
    pub case: Case,
    pub rust: Rust,
    lent: whitherhaul::Setup,
    memory: Memory,
    before: Memory,
    right: Memory,
    facts: Facts,
    out: Lent,
    reps: Lent,
}

/// An area that is lent: all one byte, but for what a call wrote until that was compared.
struct Lent {
    bytes: Vec<u8>,
    fill: u8,
    needed: Vec<u8>,
}

/// What a call has to give.
struct Due {
    number: usize,
    offset: usize,
    status: usize,
    kind: usize,
    later: bool,
    own_id: bool,
}

impl Lent {
    fn new(fill: u8) -> Lent {
        Lent {
            bytes: Vec::new(),
            fill,
            needed: Vec::new(),
        }
    }

    /// So many bytes to lend.
    fn lend(&mut self, length: usize) -> &mut [u8] {
        if self.bytes.len() < length {
            self.bytes.resize(length + GUARD, self.fill);
        }
        &mut self.bytes[..length]
    }

    /// Just what was needed was written to the lent bytes, and nothing past it, nor past their end; the area is all one byte again.
    fn hold(&mut self, done: bool, count: usize, length: usize) -> Result<(), String> {
        let due = if done { self.needed.len() } else { 0 };
        let end = self.bytes.len().min(length + GUARD);
        let fill = self.fill;
        let kept = self.bytes[due..end].iter().all(|byte| *byte == fill);
        if count != due || self.bytes[..due] != self.needed[..due] || !kept {
            let given = hex(&self.bytes[..end]);
            let due = hex(&self.needed[..due]);
            return Err(format!(
                "{count} bytes, due is {due}; the area is {given}, {fill:02x} where nothing is written"
            ));
        }
        self.bytes[..due].fill(fill);
        Ok(())
    }
}

impl Due {
    /// The call gave it.
    fn count(&self, frame: Option<&[u8]>, counts: &mut Counts) {
        counts.call(self.status, self.kind, self.number, self.later);
        if let (2, Some(frame)) = (self.number, frame) {
            counts.offset(frame, self.offset);
        }
        if self.own_id && self.number == 0 {
            counts.own_ids += 1;
        }
    }

    /// The number in areas of these lengths, where so many bytes are needed.
    fn number_in(&self, areas: (usize, usize), needed: (usize, usize)) -> usize {
        match self.number {
            0 if areas.0 < needed.0 => 9,
            0 if areas.1 < needed.1 => 10,
            number => number,
        }
    }
}

/// The library is given a frame, or a tick where there is none: number, counts, and the offset, which a tick hasn't.
pub fn answered(
    memory: &mut Memory,
    frame: Option<&[u8]>,
    out: &mut [u8],
    reps: &mut [u8],
) -> (u8, raw::Counts, usize) {
    match frame {
        Some(frame) => raw::on_message(memory, frame, out, reps),
        None => {
            let (number, counts) = raw::on_idle(memory, out, reps);
            (number, counts, 0)
        }
    }
}

/// The library's form of a setup; none where a number doesn't fit the C call.
pub fn lent_setup(setup: Setup) -> Option<whitherhaul::Setup> {
    Some(whitherhaul::Setup {
        replicas: setup.n.try_into().ok()?,
        id: setup.id.try_into().ok()?,
        timeout: setup.timeout.try_into().ok()?,
        room: setup.room.try_into().ok()?,
        members: setup.members.try_into().ok()?,
    })
}

impl Pair {
    /// Makes both. The frames of a recovery are handed back, as bytes.
    pub fn new(setup: Setup, start: Start) -> Result<(Pair, Vec<u8>), String> {
        let (rust, answer) = Rust::new(setup, start);
        let lent = lent_setup(setup).ok_or("a setup that doesn't fit the C call")?;
        let mut memory = Memory::of(&lent);
        for run in wrongs::runs(&mut memory) {
            run.fill(0x5a);
        }
        let needed = answer.message_bytes();
        let mut out = vec![0xa5; needed.len() + 1];
        let (view, (number, count)) = match start {
            Start::New => (0, (raw::create(&lent, &mut memory), 0)),
            Start::Back { view, nonce } => {
                let view = u32::try_from(view).expect("a view of 32 bits");
                (
                    view,
                    raw::recover(&lent, view, nonce, &mut memory, &mut out),
                )
            }
        };
        if number != 0 || count != needed.len() || out[..count] != needed[..] || out[count] != 0xa5
        {
            let text = hex(&out[..count.min(out.len())]);
            return Err(format!("creation gives {number}, and sends {text}"));
        }
        let mut pair = Pair {
            case: Case {
                setup,
                start,
                steps: Vec::new(),
            },
            rust,
            lent,
            before: Memory::default(),
            right: Memory::default(),
            memory,
            facts: Facts::new(setup, view),
            out: Lent::new(0xa5),
            reps: Lent::new(0x3c),
        };
        pair.same()?;
        Ok((pair, needed))
    }

    /// Gives both a call, and compares. What the call sent to replicas can be read until the next one (`sent`).
    pub fn step(&mut self, step: Step, counts: &mut Counts) -> Result<bool, String> {
        self.case.steps.push(step);
        let place = self.case.steps.len() - 1;
        let frame = self.case.steps[place].frame.take();
        let lends = self.case.steps[place].lends;
        let result = self.call(frame.as_deref(), lends, counts);
        self.case.steps[place].frame = frame;
        result
    }

    /// The messages that the last call sent, as bytes.
    pub fn sent(&self) -> &[u8] {
        &self.out.needed
    }

    fn call(
        &mut self,
        frame: Option<&[u8]>,
        lends: Lends,
        counts: &mut Counts,
    ) -> Result<bool, String> {
        let due = self.judged(frame);
        let most = (self.lent.longest_messages(), self.lent.longest_replies());
        if self.out.needed.len() > most.0 || self.reps.needed.len() > most.1 {
            return Err("more is sent than the longest there is".into());
        }
        let tries = lends.wrong.is_some() || lends.tries.iter().any(Option::is_some);
        if due.number != 0 || tries || lends.sum.is_some() {
            self.before.clone_from(&self.memory);
        }
        if let Some(wrong) = lends.wrong {
            self.wrong(frame, wrong, counts)?;
        }
        for areas in lends.tries.into_iter().flatten() {
            self.short(frame, &due, areas, counts)?;
        }
        let lengths = (
            self.out.needed.len() + usize::from(lends.more.0),
            self.reps.needed.len() + usize::from(lends.more.1),
        );
        self.lent_call(frame, (due.number, due.offset), lengths)?;
        due.count(frame, counts);
        if due.number == 0 {
            self.same()?;
            counts.forgotten += u64::from(self.facts.forgets);
            let after = status_number(self.rust.replica.status());
            counts.moves[due.status][after] += 1;
        }
        self.sums(frame, &due, lends.sum, counts)?;
        if lends.deep {
            let stored = deep::same(self.rust.setup, &self.rust.replica, &self.memory)?;
            counts.inside(status_number(self.rust.replica.status()), stored);
        }
        Ok(due.number == 0)
    }

    /// Judges a call on the Rust, and keeps the bytes that it needs.
    fn judged(&mut self, frame: Option<&[u8]>) -> Due {
        let status = status_number(self.rust.replica.status());
        let call = match frame {
            None => Some(schedules::rust::Call::Tick),
            Some(bytes) => parse(bytes),
        };
        let offset = match (&call, frame) {
            (None, Some(bytes)) => offset::of_frame(bytes),
            _ => 0,
        };
        let view = self.rust.replica.view_number();
        let own_id = call
            .as_ref()
            .is_some_and(|call| own_id::would_join(self.rust.setup, status, view, call));
        let (number, later, kind, answer) = match &call {
            None => (2, false, 12, Answer::default()),
            Some(call) => match call.refused_alone(self.rust.setup) {
                0 => {
                    let (number, answer) = self.rust.give(call);
                    (number, true, call.kind(), answer)
                }
                number => (number, false, call.kind(), Answer::default()),
            },
        };
        self.out.needed.clear();
        answer.write_messages(&mut self.out.needed);
        self.reps.needed.clear();
        answer.write_replies(&mut self.reps.needed);
        Due {
            number,
            offset,
            status,
            kind,
            later,
            own_id,
        }
    }

    /// A call with areas of these lengths, but at most a little longer than any call can need. All is compared, also what the Rust
    /// shows only in its Debug text.
    pub fn call_in(&mut self, frame: Option<&[u8]>, areas: (usize, usize)) -> Result<(), String> {
        let most = self.lent.longest_messages() + GUARD;
        let areas = (areas.0.min(most), areas.1.min(most));
        let due = self.judged(frame);
        let number = due.number_in(areas, (self.out.needed.len(), self.reps.needed.len()));
        if number != due.number {
            self.rust.take_back();
        }
        self.before.clone_from(&self.memory);
        self.lent_call(frame, (number, due.offset), areas)?;
        self.same()?;
        self.takings()?;
        deep::same(self.rust.setup, &self.rust.replica, &self.memory).map(|_| ())
    }

    /// The call with areas of these lengths. It has to give this number with this offset, and its messages and replies where the
    /// number is 0; else to leave everything as it was.
    fn lent_call(
        &mut self,
        frame: Option<&[u8]>,
        due: (usize, usize),
        lengths: (usize, usize),
    ) -> Result<(), String> {
        let mut memory = std::mem::take(&mut self.memory);
        let answered = self.answers(&mut memory, frame, due, lengths);
        self.memory = memory;
        answered?;
        match due.0 {
            0 => Ok(()),
            _ if self.memory == self.before => Ok(()),
            due => Err(format!("lent memory changed though refused by {due}")),
        }
    }

    /// The same on any memory, which isn't looked at.
    fn answers(
        &mut self,
        memory: &mut Memory,
        frame: Option<&[u8]>,
        (due, due_offset): (usize, usize),
        (out, reps): (usize, usize),
    ) -> Result<(), String> {
        let areas = (self.out.lend(out), self.reps.lend(reps));
        let (number, counts, offset) = answered(memory, frame, areas.0, areas.1);
        if usize::from(number) != due {
            return Err(format!("the library gives {number}, {due} is due"));
        }
        if offset != due_offset {
            return Err(format!("{due} with offset {offset}, {due_offset} is due"));
        }
        let messages = self.out.hold(due == 0, counts.messages, out);
        messages.map_err(|fault| format!("messages: {fault}"))?;
        let replies = self.reps.hold(due == 0, counts.replies, reps);
        replies.map_err(|fault| format!("replies: {fault}"))
    }

    /// The call with areas that may be too short; nothing where they aren't.
    fn short(
        &mut self,
        frame: Option<&[u8]>,
        due: &Due,
        areas: (Area, Area),
        counts: &mut Counts,
    ) -> Result<(), String> {
        let needed = (self.out.needed.len(), self.reps.needed.len());
        let lengths = (areas.0.length(needed.0), areas.1.length(needed.1));
        let number = due.number_in(lengths, needed);
        if number == 0 {
            return Ok(());
        }
        self.lent_call(frame, (number, due.offset), lengths)
            .map_err(|fault| format!("areas of {} and {} bytes: {fault}", lengths.0, lengths.1))?;
        counts.tried(number);
        Ok(())
    }

    /// The call with memory that refusal 1 catches, which is put right again.
    fn wrong(
        &mut self,
        frame: Option<&[u8]>,
        wrong: Wrong,
        counts: &mut Counts,
    ) -> Result<(), String> {
        wrongs::make_wrong(&mut self.memory, wrong);
        std::mem::swap(&mut self.before, &mut self.right);
        self.before.clone_from(&self.memory);
        let lengths = (self.out.needed.len(), self.reps.needed.len());
        let result = self.lent_call(frame, (1, 0), lengths);
        let result = result.and_then(|()| takings::judge(&self.memory.state));
        std::mem::swap(&mut self.before, &mut self.right);
        wrongs::put_right(&mut self.memory, &self.before, wrong);
        result.map_err(|fault| format!("with {wrong:?}: {fault}"))?;
        counts.tried(1);
        counts.past += u64::from(matches!(wrong, Wrong::Takings(_)));
        Ok(())
    }

    /// Whether both sides are the same, and demand 3's facts hold.
    fn same(&mut self) -> Result<(), String> {
        let replica = &self.rust.replica;
        let memory = &self.memory;
        let shown = [
            (
                "status",
                u32::from(memory.state[state::STATUS]),
                status_number(replica.status()),
            ),
            ("view", number(memory, state::VIEW), replica.view_number()),
            (
                "op number",
                number(memory, state::OP_NUMBER),
                replica.op_number(),
            ),
            (
                "commit number",
                number(memory, state::COMMIT_NUMBER),
                replica.commit_number(),
            ),
        ];
        for (name, library, rust) in shown {
            if library as usize != rust {
                return Err(format!(
                    "{name}: the library has {library}, the Rust {rust}"
                ));
            }
        }
        for (place, entry) in replica.log().iter().enumerate() {
            if entry_bytes(&entry.op) != memory.log[32 * place..32 * place + 32] {
                return Err(format!("the logs differ at op number {}", place + 1));
            }
        }
        let known = self.facts.ledger().applied.len();
        self.facts.hold(memory)?;
        self.applied(known)
    }

    /// Whether the Rust applied the same entries, from this one on, and has the same totals for their members.
    fn applied(&self, known: usize) -> Result<(), String> {
        let rust = self.rust.replica.state_machine();
        let facts = self.facts.ledger();
        if rust.applied.len() != facts.applied.len() {
            return Err("as many entries weren't applied on both sides".into());
        }
        for place in known..facts.applied.len() {
            let entry = facts.applied[place];
            if rust.applied[place] != entry {
                return Err(format!(
                    "another entry was applied as op number {}",
                    place + 1
                ));
            }
            let member = entry.member as usize;
            if rust.totals.get(member) != facts.totals.get(member) {
                return Err(format!("the totals of member {member} differ"));
            }
        }
        Ok(())
    }

    /// What is compared once, at the end: all totals of the Rust; and what entries gave is counted.
    pub fn end(&self, counts: &mut Counts) -> Result<(), String> {
        if self.rust.replica.state_machine().totals != self.facts.ledger().totals {
            return Err("the totals differ".into());
        }
        let applied = self.facts.applied().len() / 32;
        for result in self.memory.results.chunks_exact(9).take(applied) {
            counts.outcomes[usize::from(result[0])] += 1;
        }
        Ok(())
    }

    /// A change of the state that refusal 1 has to catch, by a random number.
    pub fn wrong_state(&self, random: u64) -> Wrong {
        wrongs::state(self.case.setup, &self.memory, random)
    }
}
