//! The calls of `libwhitherhaul.a`: replicas and clients.

use super::UNWRITTEN;
use crate::Setup;
use std::fmt;

/// A replica's lent runs. Their lengths follow from n, L (`room`) and M (`members`) alone: see
/// [`Memory::of`].
#[derive(Default, PartialEq, Eq)]
pub struct Memory {
    /// The state, 154 bytes: see [`state`].
    pub state: Vec<u8>,
    /// Entries of 32 bytes, as on the wire.
    pub log: Vec<u8>,
    /// Outcome (1) and total (8) of each applied entry.
    pub results: Vec<u8>,
    /// A total of 8 bytes a member.
    pub totals: Vec<u8>,
    /// A set of replicas, a byte, for each op number.
    pub acks: Vec<u8>,
    /// The logs of DoViewChanges, or of recovery responses.
    pub stored: Vec<u8>,
    /// Rows of 25 bytes: client, request, mark, total.
    pub table: Vec<u8>,
}

impl Memory {
    /// All zero, of the lengths that the setup asks for. For a setup outside the sizes, those of
    /// the nearest inside.
    pub fn of(setup: &Setup) -> Memory {
        let room = setup.room.clamp(1, 4096) as usize;
        let members = setup.members.clamp(1, 4096) as usize;
        let replicas = setup.replicas.clamp(3, 7) as usize;
        Memory {
            state: vec![0; state::LENGTH],
            log: vec![0; 32 * room],
            results: vec![0; 9 * room],
            totals: vec![0; 8 * members],
            acks: vec![0; room],
            stored: vec![0; 32 * room * replicas],
            table: vec![0; 25 * room],
        }
    }
}

impl Clone for Memory {
    fn clone(&self) -> Memory {
        Memory {
            state: self.state.clone(),
            log: self.log.clone(),
            results: self.results.clone(),
            totals: self.totals.clone(),
            acks: self.acks.clone(),
            stored: self.stored.clone(),
            table: self.table.clone(),
        }
    }

    /// Run by run, so that a copy that is made again and again takes no new memory.
    fn clone_from(&mut self, other: &Memory) {
        self.state.clone_from(&other.state);
        self.log.clone_from(&other.log);
        self.results.clone_from(&other.results);
        self.totals.clone_from(&other.totals);
        self.acks.clone_from(&other.acks);
        self.stored.clone_from(&other.stored);
        self.table.clone_from(&other.table);
    }
}

/// The lengths of the runs, not their bytes.
impl fmt::Debug for Memory {
    fn fmt(&self, f: &mut fmt::Formatter<'_>) -> fmt::Result {
        f.debug_struct("Memory")
            .field("state", &Bytes(self.state.len()))
            .field("log", &Bytes(self.log.len()))
            .field("results", &Bytes(self.results.len()))
            .field("totals", &Bytes(self.totals.len()))
            .field("acks", &Bytes(self.acks.len()))
            .field("stored", &Bytes(self.stored.len()))
            .field("table", &Bytes(self.table.len()))
            .finish()
    }
}

/// A length, to be shown.
pub(crate) struct Bytes(pub(crate) usize);

impl fmt::Debug for Bytes {
    fn fmt(&self, f: &mut fmt::Formatter<'_>) -> fmt::Result {
        write!(f, "{} bytes", self.0)
    }
}

/// Where the parts of the state run stand; all numbers are big-endian.
pub mod state {
    /// How long the run is.
    pub const LENGTH: usize = 154;
    /// n (1), id (1), T (2), L (4), M (4).
    pub const SETUP: usize = 0;
    /// L (4), of the setup.
    pub const ROOM: usize = 4;
    /// 0 Normal, 1 StateTransfer, 2 ViewChange, 3 Recovering (1).
    pub const STATUS: usize = 12;
    /// The view (4).
    pub const VIEW: usize = 13;
    /// The last view in which the status was Normal (4).
    pub const LAST_NORMAL_VIEW: usize = 17;
    /// Whether it catches up with a view that has started (1).
    pub const CATCHING_UP: usize = 21;
    /// The op number (4).
    pub const OP_NUMBER: usize = 22;
    /// The commit number (4).
    pub const COMMIT_NUMBER: usize = 26;
    /// The idle clock: heard (1), waiting (4), stable (2), attempts (1).
    pub const CLOCK: usize = 30;
    /// Which others sent StartViewChange for this view, a bit a replica (1).
    pub const STARTS: usize = 38;
    /// Whether DoViewChange was sent (1).
    pub const SENT: usize = 39;
    /// The nonce of the recovery (8).
    pub const NONCE: usize = 40;
    /// Seven reports: there (1), with a log (1), view (4), op (4), commit (4).
    pub const REPORTS: usize = 48;
    /// How long a report is.
    pub const REPORT: usize = 14;
    /// The takings (8): at most 4,096,000,000,000.
    pub const TAKINGS: usize = 146;
}

/// How long a client's record is: n (1), id (8), view (4), next (8), pending (1), its entry (32).
pub const CLIENT: usize = 54;

/// Bytes written to the two areas.
#[derive(Clone, Copy, Debug, Default, PartialEq, Eq)]
pub struct Counts {
    /// Bytes of messages.
    pub messages: usize,
    /// Bytes of replies.
    pub replies: usize,
}

impl Counts {
    fn of([messages, replies]: [u64; 2]) -> Counts {
        Counts {
            messages: messages as usize,
            replies: replies as usize,
        }
    }
}

extern "C" {
    fn whitherhaul_create(
        n: u32,
        id: u32,
        timeout: u32,
        room: u32,
        members: u32,
        state: *mut u8,
        state_length: usize,
        log: *const u8,
        log_length: usize,
        results: *const u8,
        results_length: usize,
        totals: *mut u8,
        totals_length: usize,
        acks: *mut u8,
        acks_length: usize,
        stored: *const u8,
        stored_length: usize,
        table: *mut u8,
        table_length: usize,
    ) -> u8;
    fn whitherhaul_recover(
        n: u32,
        id: u32,
        timeout: u32,
        room: u32,
        members: u32,
        view: u32,
        nonce: u64,
        state: *mut u8,
        state_length: usize,
        log: *const u8,
        log_length: usize,
        results: *const u8,
        results_length: usize,
        totals: *mut u8,
        totals_length: usize,
        acks: *mut u8,
        acks_length: usize,
        stored: *const u8,
        stored_length: usize,
        table: *mut u8,
        table_length: usize,
        out: *mut u8,
        out_length: usize,
        counts: *mut [u64; 2],
    ) -> u8;
    fn whitherhaul_on_message(
        state: *mut u8,
        state_length: usize,
        frame: *const u8,
        frame_length: usize,
        log: *mut u8,
        log_length: usize,
        results: *mut u8,
        results_length: usize,
        totals: *mut u8,
        totals_length: usize,
        acks: *mut u8,
        acks_length: usize,
        stored: *mut u8,
        stored_length: usize,
        table: *mut u8,
        table_length: usize,
        out: *mut u8,
        out_length: usize,
        reps: *mut u8,
        reps_length: usize,
        counts: *mut [u64; 2],
        offset: *mut u64,
    ) -> u8;
    fn whitherhaul_on_idle(
        state: *mut u8,
        state_length: usize,
        log: *mut u8,
        log_length: usize,
        results: *mut u8,
        results_length: usize,
        totals: *mut u8,
        totals_length: usize,
        acks: *mut u8,
        acks_length: usize,
        stored: *mut u8,
        stored_length: usize,
        table: *mut u8,
        table_length: usize,
        out: *mut u8,
        out_length: usize,
        reps: *mut u8,
        reps_length: usize,
        counts: *mut [u64; 2],
    ) -> u8;
    fn whitherhaul_takings(state: *const u8, state_length: usize, cents: *mut u64) -> u8;
    fn whitherhaul_client_create(n: u32, id: u64, record: *mut u8, record_length: usize) -> u8;
    fn whitherhaul_client_request(
        record: *mut u8,
        record_length: usize,
        operation: u8,
        member: u32,
        cents: u64,
        area: *mut u8,
        area_length: usize,
        answers: *mut [u64; 2],
    ) -> u8;
    fn whitherhaul_client_reply(
        record: *mut u8,
        record_length: usize,
        number: u64,
        view: u32,
        answers: *mut [u64; 1],
    ) -> u8;
    fn whitherhaul_client_idle(
        record: *const u8,
        record_length: usize,
        area: *mut u8,
        area_length: usize,
        answers: *mut [u64; 1],
    ) -> u8;
    fn whitherhaul_read_reply(
        frame: *const u8,
        frame_length: usize,
        answers: *mut [u64; 5],
        offset: *mut u64,
    ) -> u8;
}

/// `new`: a replica's memory for the first time. 0 or 1.
pub fn create(setup: &Setup, memory: &mut Memory) -> u8 {
    let m = memory;
    // Safety: each pointer comes with the length of its own slice, and no two slices share a byte.
    unsafe {
        whitherhaul_create(
            setup.replicas,
            setup.id,
            setup.timeout,
            setup.room,
            setup.members,
            m.state.as_mut_ptr(),
            m.state.len(),
            m.log.as_ptr(),
            m.log.len(),
            m.results.as_ptr(),
            m.results.len(),
            m.totals.as_mut_ptr(),
            m.totals.len(),
            m.acks.as_mut_ptr(),
            m.acks.len(),
            m.stored.as_ptr(),
            m.stored.len(),
            m.table.as_mut_ptr(),
            m.table.len(),
        )
    }
}

/// `recover`: a replica's memory after a crash, with the view that was kept and a nonce that was
/// never used. The number (0, 1 or 9), and how many bytes of Recovery frames stand in `out`.
pub fn recover(
    setup: &Setup,
    view: u32,
    nonce: u64,
    memory: &mut Memory,
    out: &mut [u8],
) -> (u8, usize) {
    let m = memory;
    let mut counts = [UNWRITTEN; 2];
    // Safety: as in `create`; the counts are a place of their own.
    let number = unsafe {
        whitherhaul_recover(
            setup.replicas,
            setup.id,
            setup.timeout,
            setup.room,
            setup.members,
            view,
            nonce,
            m.state.as_mut_ptr(),
            m.state.len(),
            m.log.as_ptr(),
            m.log.len(),
            m.results.as_ptr(),
            m.results.len(),
            m.totals.as_mut_ptr(),
            m.totals.len(),
            m.acks.as_mut_ptr(),
            m.acks.len(),
            m.stored.as_ptr(),
            m.stored.len(),
            m.table.as_mut_ptr(),
            m.table.len(),
            out.as_mut_ptr(),
            out.len(),
            &mut counts,
        )
    };
    (number, counts[0] as usize)
}

/// A frame arrives. The number, how many bytes stand in the two areas, and the offset: with 2 that
/// of the frame's first wrong byte, counted from 0, or its length where only bytes are missing; 0
/// with every other number.
pub fn on_message(
    memory: &mut Memory,
    frame: &[u8],
    out: &mut [u8],
    reps: &mut [u8],
) -> (u8, Counts, usize) {
    let m = memory;
    let mut counts = [UNWRITTEN; 2];
    let mut offset = UNWRITTEN;
    // Safety: as in `recover`.
    let number = unsafe {
        whitherhaul_on_message(
            m.state.as_mut_ptr(),
            m.state.len(),
            frame.as_ptr(),
            frame.len(),
            m.log.as_mut_ptr(),
            m.log.len(),
            m.results.as_mut_ptr(),
            m.results.len(),
            m.totals.as_mut_ptr(),
            m.totals.len(),
            m.acks.as_mut_ptr(),
            m.acks.len(),
            m.stored.as_mut_ptr(),
            m.stored.len(),
            m.table.as_mut_ptr(),
            m.table.len(),
            out.as_mut_ptr(),
            out.len(),
            reps.as_mut_ptr(),
            reps.len(),
            &mut counts,
            &mut offset,
        )
    };
    (number, Counts::of(counts), offset as usize)
}

/// Time has passed: a tick. The number, and how many bytes stand in the two areas.
pub fn on_idle(memory: &mut Memory, out: &mut [u8], reps: &mut [u8]) -> (u8, Counts) {
    let m = memory;
    let mut counts = [UNWRITTEN; 2];
    // Safety: as in `recover`.
    let number = unsafe {
        whitherhaul_on_idle(
            m.state.as_mut_ptr(),
            m.state.len(),
            m.log.as_mut_ptr(),
            m.log.len(),
            m.results.as_mut_ptr(),
            m.results.len(),
            m.totals.as_mut_ptr(),
            m.totals.len(),
            m.acks.as_mut_ptr(),
            m.acks.len(),
            m.stored.as_mut_ptr(),
            m.stored.len(),
            m.table.as_mut_ptr(),
            m.table.len(),
            out.as_mut_ptr(),
            out.len(),
            reps.as_mut_ptr(),
            reps.len(),
            &mut counts,
        )
    };
    (number, Counts::of(counts))
}

/// The takings that a state run holds. 0 or 1, and the sum in cents, 0 where it is refused.
pub fn takings(state: &[u8]) -> (u8, u64) {
    let mut cents = UNWRITTEN;
    // Safety: the pointer comes with the length of its slice, and the sum is a place of its own.
    let number = unsafe { whitherhaul_takings(state.as_ptr(), state.len(), &mut cents) };
    (number, cents)
}

/// A client's record for the first time. 0 or 1.
pub fn client_create(replicas: u32, id: u64, record: &mut [u8]) -> u8 {
    // Safety: the pointer comes with the length of its slice.
    unsafe { whitherhaul_client_create(replicas, id, record.as_mut_ptr(), record.len()) }
}

/// A client's request. The number of document 01 (0, 1, 2, 9 or 11), the request's number, and how
/// many bytes stand in the area.
pub fn client_request(
    record: &mut [u8],
    operation: u8,
    member: u32,
    cents: u64,
    area: &mut [u8],
) -> (u8, u64, usize) {
    let mut answers = [UNWRITTEN; 2];
    // Safety: each pointer comes with the length of its own slice, or is a place of its own.
    let number = unsafe {
        whitherhaul_client_request(
            record.as_mut_ptr(),
            record.len(),
            operation,
            member,
            cents,
            area.as_mut_ptr(),
            area.len(),
            &mut answers,
        )
    };
    let [request, written] = answers;
    (number, request, written as usize)
}

/// A reply came for this request number, of this view. 0 or 1, and whether it answers the pending
/// request.
pub fn client_reply(record: &mut [u8], request: u64, view: u32) -> (u8, bool) {
    let mut answers = [UNWRITTEN];
    // Safety: as in `client_request`.
    let number = unsafe {
        whitherhaul_client_reply(
            record.as_mut_ptr(),
            record.len(),
            request,
            view,
            &mut answers,
        )
    };
    (number, answers[0] != 0)
}

/// No reply came for a while. The number (0, 1 or 9), and how many bytes stand in the area.
pub fn client_idle(record: &[u8], area: &mut [u8]) -> (u8, usize) {
    let mut answers = [UNWRITTEN];
    // Safety: as in `client_request`.
    let number = unsafe {
        whitherhaul_client_idle(
            record.as_ptr(),
            record.len(),
            area.as_mut_ptr(),
            area.len(),
            &mut answers,
        )
    };
    (number, answers[0] as usize)
}

/// What a Reply says. The number (0 or 2), then view, client, request, outcome and total, all 0
/// where it is refused, then the offset, as [`on_message`] gives it.
pub fn read_reply(frame: &[u8]) -> (u8, [u64; 5], usize) {
    let mut answers = [UNWRITTEN; 5];
    let mut offset = UNWRITTEN;
    // Safety: as in `client_request`.
    let number =
        unsafe { whitherhaul_read_reply(frame.as_ptr(), frame.len(), &mut answers, &mut offset) };
    (number, answers, offset as usize)
}
