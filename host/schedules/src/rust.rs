//! The Rust's replica, and how a refusal is told, of which it knows none: where document 01 refuses, it panics, or
//! goes on outside the sizes.
//!
//! 3 to 6 on the frame alone are decided before (`alone::refused`), and such a call isn't given to it. The later causes show in
//! what the Rust does with the call: it panics (5 on a PrepareOk, else 7), its log has more than L entries (4) or no longer
//! rises (6), its committed entries were altered (7), or its view passes 32 bits (8). Such a call is refused by that number, and
//! the replica is made anew from the calls before it. So a number is this program's reading of document 01; that there is a
//! refusal is seen in the Rust.

use crate::alone::{refused, rising};
use std::cell::Cell;
use std::panic::{self, AssertUnwindSafe};
use std::sync::Once;
use vsr_rs::{Message, Replica, Reply, Status};
use wire::fees::{Ledger, Outcome};
use wire::frames::{self, write_frame, write_reply, Fees};

/// What a replica is made with.
#[derive(Clone, Copy, Debug)]
pub struct Setup {
    pub n: usize,
    pub id: usize,
    pub timeout: usize,
    pub room: usize,
    pub members: usize,
}

impl Setup {
    /// The next view behind this one that the replica leads.
    pub fn led_after(&self, view: usize) -> usize {
        let next = view + 1;
        next + (self.id + self.n - next % self.n) % self.n
    }
}

/// How it is made: for the first time, or after a crash.
#[derive(Clone, Copy, Debug)]
pub enum Start {
    New,
    Back { view: usize, nonce: u64 },
}

/// A call.
#[derive(Clone)]
pub enum Call {
    Frame { addressee: usize, message: Fees },
    Tick,
}

/// Messages and replies of a call; none of a refused one.
#[derive(Default)]
pub struct Answer {
    pub messages: Vec<(usize, Fees)>,
    pub replies: Vec<Reply<Outcome>>,
}

/// A replica of the Rust with the calls that it took.
pub struct Rust {
    pub setup: Setup,
    pub replica: Replica<Ledger>,
    start: Start,
    taken: Vec<Call>,
}

impl Rust {
    /// Makes a replica, and hands back what it sends at once.
    pub fn new(setup: Setup, start: Start) -> (Rust, Answer) {
        let mut replica = made(setup, start);
        let answer = drained(&mut replica);
        let rust = Rust {
            setup,
            replica,
            start,
            taken: Vec::new(),
        };
        (rust, answer)
    }

    /// Gives the replica a call unless document 01 refuses it: its number and answer. A refused call leaves the replica as it was.
    pub fn attempt(&mut self, call: &Call) -> (usize, Answer) {
        match call.refused_alone(self.setup) {
            0 => self.give(call),
            code => (code, Answer::default()),
        }
    }

    /// The same for a call that isn't refused on the frame alone.
    pub fn give(&mut self, call: &Call) -> (usize, Answer) {
        let replica = &mut self.replica;
        let code = if quietly(|| given(replica, call)) {
            later_refusal(self.setup, &self.replica)
        } else {
            call.panic_number()
        };
        if code != 0 {
            self.remake();
            return (code, Answer::default());
        }
        self.taken.push(call.clone());
        (0, drained(&mut self.replica))
    }

    /// The replica as it was before the last call that it took.
    pub fn take_back(&mut self) {
        self.taken.pop();
        self.remake();
    }

    /// The replica as it was after the last call that wasn't refused.
    fn remake(&mut self) {
        self.replica = made(self.setup, self.start);
        for call in &self.taken {
            given(&mut self.replica, call);
        }
        drained(&mut self.replica);
    }
}

impl Call {
    /// 0 for a tick, else the frame's kind.
    pub fn kind(&self) -> usize {
        match self {
            Call::Frame { message, .. } => frames::kind(message),
            Call::Tick => 0,
        }
    }

    /// Refusals 3 to 6 on the frame alone.
    pub fn refused_alone(&self, setup: Setup) -> usize {
        match self {
            Call::Frame { addressee, message } => {
                refused(setup.n, setup.id, setup.room, *addressee, message)
            }
            Call::Tick => 0,
        }
    }

    /// The refusal where the Rust panics.
    fn panic_number(&self) -> usize {
        match self {
            Call::Frame {
                message: Message::PrepareOk { .. },
                ..
            } => 5,
            _ => 7,
        }
    }
}

impl Answer {
    /// How many bytes the frames of all messages, and of all replies, have.
    pub fn lengths(&self) -> (usize, usize) {
        (self.message_bytes().len(), self.reply_bytes().len())
    }

    /// The frames of all messages.
    pub fn message_bytes(&self) -> Vec<u8> {
        let mut bytes = Vec::new();
        self.write_messages(&mut bytes);
        bytes
    }

    /// The same, written behind what is there.
    pub fn write_messages(&self, bytes: &mut Vec<u8>) {
        for (to, message) in &self.messages {
            write_frame(bytes, *to, message);
        }
    }

    /// The frames of all replies.
    pub fn reply_bytes(&self) -> Vec<u8> {
        let mut bytes = Vec::new();
        self.write_replies(&mut bytes);
        bytes
    }

    /// The same, written behind what is there.
    pub fn write_replies(&self, bytes: &mut Vec<u8>) {
        for reply in &self.replies {
            write_reply(bytes, reply);
        }
    }
}

/// A new replica of the Rust.
fn made(setup: Setup, start: Start) -> Replica<Ledger> {
    let mut config = wire::config(setup.n);
    config.set_primary_timeout(setup.timeout);
    let ledger = Ledger::new(setup.members);
    match start {
        Start::New => Replica::new(setup.id, config, ledger),
        Start::Back { view, nonce } => Replica::recover(setup.id, config, ledger, view, nonce),
    }
}

/// Gives the Rust a call.
fn given(replica: &mut Replica<Ledger>, call: &Call) {
    match call {
        Call::Frame { message, .. } => replica.on_message(message.clone()),
        Call::Tick => replica.on_idle(),
    }
}

/// What the Rust wants sent.
fn drained(replica: &mut Replica<Ledger>) -> Answer {
    Answer {
        messages: replica.drain_messages().collect(),
        replies: replica.drain_replies().collect(),
    }
}

thread_local! {
    /// Whether a panic of this thread prints nothing.
    static QUIET: Cell<bool> = const { Cell::new(false) };
}

/// Whether this ended without a panic; a panic prints nothing.
fn quietly(work: impl FnOnce()) -> bool {
    static HOOK: Once = Once::new();
    HOOK.call_once(|| {
        let hook = panic::take_hook();
        panic::set_hook(Box::new(move |panic| {
            if !QUIET.get() {
                hook(panic);
            }
        }));
    });
    QUIET.set(true);
    let ended = panic::catch_unwind(AssertUnwindSafe(work)).is_ok();
    QUIET.set(false);
    ended
}

/// The later refusals 4, 6, 7 and 8, from where the call left the Rust; 0 where there is none. The committed entries before the call
/// are the first that the ledger applied.
fn later_refusal(setup: Setup, replica: &Replica<Ledger>) -> usize {
    let applied = &replica.state_machine().applied;
    let log = replica.log();
    if replica.op_number() > setup.room {
        4
    } else if !rising(log) {
        6
    } else if log.len() < applied.len() || log.iter().zip(applied).any(|(e, a)| e.op != *a) {
        7
    } else if u32::try_from(replica.view_number()).is_err() {
        8
    } else {
        0
    }
}

/// The number of a status in FORMAT.md.
pub fn status_number(status: Status) -> usize {
    match status {
        Status::Normal => 0,
        Status::StateTransfer => 1,
        Status::ViewChange => 2,
        Status::Recovering => 3,
    }
}
