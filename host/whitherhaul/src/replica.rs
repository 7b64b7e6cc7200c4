//! A replica with its memory.

use crate::entries::{u32_at, u64_at, Entry, Outcome};
use crate::frames::Sent;
use crate::journal::{FRAME_LENGTH, MOST_FRAMES};
use crate::raw::{self, state, Bytes, Counts, Memory};
use crate::Refusal;
use std::fmt;

/// Document 01's default for [`Setup::timeout`], in ticks.
pub const DEFAULT_TIMEOUT: u32 = 3;

/// What a replica is made with. All replicas of a ledger have the same but for `id`. A number
/// outside the sizes that are named here is refusal 1.
#[derive(Clone, Copy, Debug, PartialEq, Eq, Hash)]
pub struct Setup {
    /// How many replicas there are, n: 3 to 7.
    pub replicas: u32,
    /// Which of them this is: 0 to n-1.
    pub id: u32,
    /// How many ticks it waits for the primary, T: 1 to 65,535. Document 01's default is
    /// [`DEFAULT_TIMEOUT`].
    pub timeout: u32,
    /// How many entries the log can hold, L: 1 to 4,096.
    pub room: u32,
    /// How many members have a total, M: 1 to 4,096.
    pub members: u32,
}

impl Setup {
    /// The longest that the messages of one call can be: those of the primary's tick, a Commit and
    /// up to L Prepares to each other replica. No other call sends more.
    pub fn longest_messages(&self) -> usize {
        let others = self.replicas.clamp(3, 7) as usize - 1;
        others * (15 + 51 * self.room.min(4096) as usize)
    }

    /// The longest that the replies of one call can be.
    pub fn longest_replies(&self) -> usize {
        36 * self.room.min(4096) as usize
    }
}

/// What a replica is doing.
#[derive(Clone, Copy, Debug, PartialEq, Eq, Hash)]
pub enum Status {
    /// Taking part in normal operation.
    Normal,
    /// Waiting for entries that it missed, within its view.
    StateTransfer,
    /// Taking part in a view change, or catching up with a view that has started.
    ViewChange,
    /// Back from a crash, waiting for the others' answers.
    Recovering,
}

/// A replica. It does no input or output: its owner hands it frames and ticks, and delivers what it
/// sends. Between a call and the delivery of what it sent the owner keeps [`Replica::view`] where a
/// crash doesn't reach it.
///
/// Every call either is done or is refused, and a refused one changes nothing. None panics,
/// whatever the bytes.
#[derive(Clone)]
pub struct Replica {
    setup: Setup,
    memory: Memory,
    out: Vec<u8>,
    reps: Vec<u8>,
    counts: Counts,
}

impl Replica {
    /// A replica for the first time: in Normal, in view 0, with an empty log. Refusal 1 where the
    /// setup is outside the sizes.
    pub fn new(setup: &Setup) -> Result<Replica, Refusal> {
        let mut replica = Replica::empty(setup);
        Refusal::check(raw::create(setup, &mut replica.memory))?;
        Ok(replica)
    }

    /// A replica that lost its memory in a crash, with the view that its owner kept and a nonce
    /// that it never used before. Its first frames, to all others, are [`Replica::sent`]. Refusal 1
    /// where the setup is outside the sizes.
    pub fn recover(setup: &Setup, view: u32, nonce: u64) -> Result<Replica, Refusal> {
        let mut replica = Replica::empty(setup);
        let (number, messages) =
            raw::recover(setup, view, nonce, &mut replica.memory, &mut replica.out);
        Refusal::check(number)?;
        replica.counts.messages = messages;
        Ok(replica)
    }

    /// All memory of a replica, zero.
    fn empty(setup: &Setup) -> Replica {
        Replica {
            setup: *setup,
            memory: Memory::of(setup),
            out: vec![0; setup.longest_messages()],
            reps: vec![0; setup.longest_replies()],
            counts: Counts::default(),
        }
    }

    /// A frame has arrived, with its 4-byte length. Where it is malformed, refusal 2 says at which
    /// byte ([`Refusal::Malformed`]). The replica's areas are long enough for what any call sends,
    /// so refusals 9 and 10 don't come.
    pub fn on_message(&mut self, frame: &[u8]) -> Result<Sent<'_>, Refusal> {
        let (number, counts, offset) =
            raw::on_message(&mut self.memory, frame, &mut self.out, &mut self.reps);
        self.counts = counts;
        Refusal::check_frame(number, offset, frame)?;
        Ok(self.sent())
    }

    /// Time has passed: a tick, which the owner gives at a regular interval. Refusals 9 and 10
    /// don't come.
    pub fn on_idle(&mut self) -> Result<Sent<'_>, Refusal> {
        let (number, counts) = raw::on_idle(&mut self.memory, &mut self.out, &mut self.reps);
        self.counts = counts;
        Refusal::check(number)?;
        Ok(self.sent())
    }

    /// As [`Replica::on_message`], with areas for messages and replies that the caller lends; how
    /// many bytes stand in them. Bytes behind these stay as they were. Refusals 9 and 10 where an
    /// area is too short. [`Replica::sent`] is empty after it.
    pub fn on_message_into(
        &mut self,
        frame: &[u8],
        out: &mut [u8],
        reps: &mut [u8],
    ) -> Result<Counts, Refusal> {
        self.counts = Counts::default();
        let (number, counts, offset) = raw::on_message(&mut self.memory, frame, out, reps);
        Refusal::check_frame(number, offset, frame).map(|()| counts)
    }

    /// As [`Replica::on_idle`], with lent areas.
    pub fn on_idle_into(&mut self, out: &mut [u8], reps: &mut [u8]) -> Result<Counts, Refusal> {
        self.counts = Counts::default();
        let (number, counts) = raw::on_idle(&mut self.memory, out, reps);
        Refusal::check(number).map(|()| counts)
    }

    /// What the last call sent; nothing where it was refused.
    pub fn sent(&self) -> Sent<'_> {
        Sent {
            messages: &self.out[..self.counts.messages],
            replies: &self.reps[..self.counts.replies],
        }
    }

    /// What it was made with.
    pub fn setup(&self) -> &Setup {
        &self.setup
    }

    /// What it is doing.
    pub fn status(&self) -> Status {
        match self.memory.state[state::STATUS] {
            0 => Status::Normal,
            1 => Status::StateTransfer,
            2 => Status::ViewChange,
            _ => Status::Recovering,
        }
    }

    /// The view. The owner keeps it before it delivers what a call sent.
    pub fn view(&self) -> u32 {
        self.number(state::VIEW)
    }

    /// The last view in which the status was Normal.
    pub fn last_normal_view(&self) -> u32 {
        self.number(state::LAST_NORMAL_VIEW)
    }

    /// How many entries the log has.
    pub fn op_number(&self) -> u32 {
        self.number(state::OP_NUMBER)
    }

    /// How many of them are committed, and so applied to the totals.
    pub fn commit_number(&self) -> u32 {
        self.number(state::COMMIT_NUMBER)
    }

    /// Which replica leads the view.
    pub fn primary(&self) -> u32 {
        self.view() % self.setup.replicas
    }

    /// Whether it leads the view.
    pub fn is_primary(&self) -> bool {
        self.primary() == self.setup.id
    }

    /// The entry with this op number, from 1 on. Panics where the log has no such entry.
    pub fn entry(&self, op: u32) -> Entry {
        assert!(op >= 1 && op <= self.op_number(), "no such entry");
        Entry::of(&self.memory.log[32 * (op as usize - 1)..])
    }

    /// The entries of the log, in order.
    pub fn log(&self) -> impl Iterator<Item = Entry> + '_ {
        let entries = self.memory.log.chunks_exact(32);
        entries.take(self.op_number() as usize).map(Entry::of)
    }

    /// What the entry with this op number gave, and the member's total after it; none where it
    /// isn't committed.
    pub fn outcome(&self, op: u32) -> Option<(Outcome, u64)> {
        if op == 0 || op > self.commit_number() {
            return None;
        }
        let result = &self.memory.results[9 * (op as usize - 1)..];
        Some((Outcome::from_number(result[0])?, u64_at(result, 1)))
    }

    /// A member's total. Panics where the member isn't below M.
    pub fn total(&self, member: u32) -> u64 {
        assert!(member < self.setup.members, "no such member");
        u64_at(&self.memory.totals, 8 * member as usize)
    }

    /// The takings, in cents: the totals of all members, added up. The sum is kept in the state and
    /// only read here, so that it takes the same time for one member and for 4,096. It is proved
    /// that after every call, refused ones included, it is what the addition gives:
    ///
    /// ```
    /// use whitherhaul::{Client, Operation, Replica, Setup};
    ///
    /// # fn main() -> Result<(), whitherhaul::Refusal> {
    /// let setup = Setup { replicas: 3, id: 0, timeout: 3, room: 8, members: 8 };
    /// let mut replica = Replica::new(&setup)?;
    /// let mut desk = Client::new(3, 7)?;
    /// let mut seen = Vec::new();
    /// for (operation, member, cents, op) in [
    ///     (Operation::Fee, 3, 4_500, 1),
    ///     (Operation::Fee, 5, 1_000, 2),
    ///     (Operation::Refund, 3, 500, 3),
    /// ] {
    ///     replica.on_message(desk.on_request(operation, member, cents)?.frame)?;
    ///     replica.on_message(&[0, 0, 0, 12, 1, 3, 0, 0, 0, 0, 0, 0, 0, 0, op, 1])?; // PrepareOk of 1
    ///     let added: u64 = (0..setup.members).map(|member| replica.total(member)).sum();
    ///     assert_eq!(replica.takings()?, added);
    ///     seen.push(added);
    /// }
    /// assert_eq!(seen, [4_500, 5_500, 5_000]);
    /// # Ok(())
    /// # }
    /// ```
    ///
    /// Refusal 1 where [`Replica::parts_mut`] left a state that no call takes, and never else.
    pub fn takings(&self) -> Result<u64, Refusal> {
        let (number, cents) = raw::takings(&self.memory.state);
        Refusal::check(number).map(|()| cents)
    }

    /// The journal's frames of the entries behind op number `op` that are committed: what an owner
    /// who has those up to `op` on disk appends to them. Refusal 1 where `op` is above the commit
    /// number. [`Journal`](crate::Journal) reads them back.
    pub fn journal_since(&self, op: u32) -> Result<Vec<u8>, Refusal> {
        let ops = self.commit_number().saturating_sub(op) as usize;
        let mut frames = vec![0; FRAME_LENGTH * ops.min(MOST_FRAMES)];
        self.journal_since_into(op, &mut frames)?;
        Ok(frames)
    }

    /// As [`Replica::journal_since`], with an area that the caller lends; how many bytes stand in
    /// it. Bytes behind these stay as they were. Refusal 9 where the area is too short: 50 bytes an
    /// entry are enough.
    pub fn journal_since_into(&self, op: u32, area: &mut [u8]) -> Result<usize, Refusal> {
        let Memory { log, results, .. } = &self.memory;
        let (number, bytes) = raw::journal_append(op, self.commit_number(), log, results, area);
        Refusal::check(number).map(|()| bytes)
    }

    /// The lent runs, for tests: the bytes that the C calls work on.
    pub fn parts(&self) -> &Memory {
        &self.memory
    }

    /// The same to be changed. A run that no call produced may be refused by 1; where it isn't,
    /// only safety and ending are promised. The methods that read panic where a run was shortened,
    /// but for [`Replica::takings`], which is refused.
    pub fn parts_mut(&mut self) -> &mut Memory {
        &mut self.memory
    }

    fn number(&self, at: usize) -> u32 {
        u32_at(&self.memory.state, at)
    }
}

/// Its numbers, not its bytes; of a state run that was shortened only the length.
impl fmt::Debug for Replica {
    fn fmt(&self, f: &mut fmt::Formatter<'_>) -> fmt::Result {
        let mut shown = f.debug_struct("Replica");
        shown
            .field("id", &self.setup.id)
            .field("replicas", &self.setup.replicas);
        if self.memory.state.len() < state::LENGTH {
            shown.field("state", &Bytes(self.memory.state.len()));
        } else {
            shown
                .field("status", &self.status())
                .field("view", &self.view())
                .field("op_number", &self.op_number())
                .field("commit_number", &self.commit_number())
                .field("takings", &u64_at(&self.memory.state, state::TAKINGS));
        }
        shown.finish_non_exhaustive()
    }
}
