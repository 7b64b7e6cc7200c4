//! One replica of the Rust with all calls that it was given, and what it answered to each, as lines of FORMAT.md, with two more
//! lines behind the state (`+` and `$`, host/README.md). How a refusal is told: see `rust`. 9 and 10 are told by what the Rust sent,
//! where a call lends areas of its own lengths (`call_in`); else they are as long as what it sent. 2 is told by hand (`malformed`),
//! 1 doesn't occur.

use crate::inside::{inside, senders, Inside, Row};
use crate::rust::{status_number, Rust};
use std::fmt::Write;
use vsr_rs::{Replica, Status};
use wire::fees::{Ledger, Outcome};
use wire::frames::{self, entry_bytes, frame, Fees};

pub use crate::rust::{Answer, Call, Setup, Start};

/// What kind of thing a call was: by this the calls to keep are chosen and counted. Kind 0 is a tick, 12 a malformed frame.
#[derive(Clone, Copy, PartialEq, Eq, PartialOrd, Ord)]
pub struct Mark {
    pub before: usize,
    pub kind: usize,
    pub after: usize,
    pub code: usize,
    pub sent: usize,
    pub replied: bool,
}

/// The lines of one call with its answer, and its mark.
pub struct Recorded {
    pub lines: String,
    pub mark: Mark,
}

/// A replica with its history.
pub struct Run {
    pub rust: Rust,
    pub creation: String,
    pub calls: Vec<Recorded>,
}

impl Run {
    /// Makes a replica, and hands back what it sends at once.
    pub fn new(setup: Setup, start: Start) -> (Run, Answer) {
        let (rust, answer) = Rust::new(setup, start);
        let Setup {
            n,
            id,
            timeout,
            room,
            members,
        } = setup;
        let sizes = format!("{n} {id} {timeout} {room} {members}");
        let head = match start {
            Start::New => format!("N {sizes}\n"),
            Start::Back { view, nonce } => {
                let area = answer.message_bytes().len();
                format!("R {sizes} {view} {nonce} {area}\n")
            }
        };
        let creation = head + &answer_line(&answer, 0) + &state_lines(setup, &rust.replica);
        let run = Run {
            rust,
            creation,
            calls: Vec::new(),
        };
        (run, answer)
    }

    /// A frame to this replica.
    pub fn frame(&mut self, message: Fees) -> Answer {
        let addressee = self.rust.setup.id;
        self.call(Call::Frame { addressee, message })
    }

    /// Gives the replica a call unless document 01 refuses it, and records both.
    pub fn call(&mut self, call: Call) -> Answer {
        let before = self.rust.replica.status();
        let (code, answer) = self.rust.attempt(&call);
        let line = call_line(&call, answer.lengths());
        self.record(before, &line, call.kind(), code, &answer);
        answer
    }

    /// The same with areas of these lengths, for messages and for replies: refused by 9 or 10 where what the Rust sends is longer.
    pub fn call_in(&mut self, call: Call, areas: (usize, usize)) -> Answer {
        let before = self.rust.replica.status();
        let (mut code, mut answer) = self.rust.attempt(&call);
        let (messages, replies) = answer.lengths();
        if messages > areas.0 || replies > areas.1 {
            code = if messages > areas.0 { 9 } else { 10 };
            answer = Answer::default();
            self.rust.take_back();
        }
        let line = call_line(&call, areas);
        self.record(before, &line, call.kind(), code, &answer);
        answer
    }

    /// Records bytes that are no frame of kinds 1 to 11, as refused by 2. The Rust has no frames, so it isn't asked.
    pub fn malformed(&mut self, bytes: &[u8]) -> Answer {
        let line = format!("M 0 0 {}\n", hex(bytes));
        let before = self.rust.replica.status();
        self.record(before, &line, 12, 2, &Answer::default());
        Answer::default()
    }

    /// Keeps the lines of a call, with its answer and the state after it.
    fn record(&mut self, before: Status, line: &str, kind: usize, code: usize, answer: &Answer) {
        let state = state_lines(self.rust.setup, &self.rust.replica);
        let mark = Mark {
            before: status_number(before),
            kind,
            after: status_number(self.rust.replica.status()),
            code,
            sent: answer.messages.first().map_or(0, |(_, m)| frames::kind(m)),
            replied: !answer.replies.is_empty(),
        };
        let lines = line.to_string() + &answer_line(answer, code) + &state;
        self.calls.push(Recorded { lines, mark });
    }

    /// The three lines of the state after the last call.
    pub fn state(&self) -> &str {
        let last = self.calls.last();
        let lines = last.map_or(&self.creation, |call| &call.lines);
        let start = lines.find(':').expect("a state line");
        &lines[start..]
    }
}

/// A call's line, with the lengths of the two areas.
fn call_line(call: &Call, (messages, replies): (usize, usize)) -> String {
    match call {
        Call::Frame { addressee, message } => {
            let bytes = hex(&frame(*addressee, message));
            format!("M {messages} {replies} {bytes}\n")
        }
        Call::Tick => format!("T {messages} {replies}\n"),
    }
}

/// An answer's line.
fn answer_line(answer: &Answer, code: usize) -> String {
    let messages = hex(&answer.message_bytes());
    format!("= {code} {messages} {}\n", hex(&answer.reply_bytes()))
}

/// FORMAT.md's state line; behind it the nonce with a digest of the stored messages, and the takings, of which the Rust keeps no sum:
/// all totals are added up.
fn state_lines(setup: Setup, replica: &Replica<Ledger>) -> String {
    let i = inside(replica);
    let stored = fnv(&i.stored());
    let takings: u64 = replica.state_machine().totals.iter().sum();
    format!(
        "{}+ {} {stored:016x}\n$ {takings}\n",
        state_line(setup, replica, &i),
        i.nonce
    )
}

/// FORMAT.md's state line.
fn state_line(setup: Setup, replica: &Replica<Ledger>, i: &Inside) -> String {
    let numbers = [
        status_number(replica.status()) as u64,
        replica.view_number() as u64,
        i.last_normal,
        replica.op_number() as u64,
        replica.commit_number() as u64,
        i.heard.into(),
        i.waiting,
        i.stable.min(setup.timeout as u64),
        i.attempts.min(10),
        i.starts,
        i.sent.into(),
        i.catching_up.into(),
        senders(&i.reports),
        senders(&i.responses),
    ];
    let mut line = String::from(":");
    for number in numbers {
        write!(line, " {number}").expect("a string takes all");
    }
    for bytes in digested(setup, replica, i) {
        write!(line, " {:016x}", fnv(&bytes)).expect("a string takes all");
    }
    line + "\n"
}

/// What the five digests are over: log, rows, totals, acks, applied.
fn digested(setup: Setup, replica: &Replica<Ledger>, inside: &Inside) -> [Vec<u8>; 5] {
    let ledger = replica.state_machine();
    let mut acks = vec![0; setup.room];
    for (op, set) in &inside.acks {
        acks[*op as usize - 1] = *set as u8;
    }
    let log = replica.log().iter().flat_map(|e| entry_bytes(&e.op));
    [
        log.collect(),
        inside.rows.iter().flat_map(row_bytes).collect(),
        ledger.totals.iter().flat_map(|t| t.to_be_bytes()).collect(),
        acks,
        ledger.applied.iter().flat_map(entry_bytes).collect(),
    ]
}

/// A row's bytes under its digest.
fn row_bytes(row: &Row) -> Vec<u8> {
    let reply = row.reply.unwrap_or(Outcome { code: 0, total: 0 });
    let mut bytes = row.client.to_be_bytes().to_vec();
    bytes.extend(row.request.to_be_bytes());
    bytes.push(reply.code);
    bytes.extend(reply.total.to_be_bytes());
    bytes
}

/// FNV-1a over 64 bits.
pub fn fnv(bytes: &[u8]) -> u64 {
    bytes.iter().fold(0xcbf2_9ce4_8422_2325, |hash, byte| {
        (hash ^ u64::from(*byte)).wrapping_mul(0x0100_0000_01b3)
    })
}

/// Lower-case hex, `-` when empty.
pub fn hex(bytes: &[u8]) -> String {
    if bytes.is_empty() {
        return String::from("-");
    }
    bytes.iter().map(|byte| format!("{byte:02x}")).collect()
}
