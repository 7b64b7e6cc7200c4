//! What a call of an example has to give, and what of it a call didn't give.

use crate::inside::inside;
use crate::run::hex;
use crate::run::{Answer, Run};
use crate::stored::Report;
use std::fmt::Debug;
use vsr_rs::Reply;
use wire::fees::{Entry, Outcome};
use wire::frames::{frame, reply_frame, Fees};

/// Places of numbers in a state's three lines, FORMAT.md's state line and the two behind it.
pub const LAST_NORMAL: usize = 2;
pub const HEARD: usize = 5;
pub const WAITING: usize = 6;
pub const STABLE: usize = 7;
pub const ATTEMPTS: usize = 8;
pub const STARTS: usize = 9;
pub const SENT: usize = 10;
pub const CATCHING_UP: usize = 11;
pub const REPORTS: usize = 12;
pub const RESPONSES: usize = 13;
pub const NONCE: usize = 20;
pub const TAKINGS: usize = 23;

/// What a call has to give.
pub struct Expect {
    number: usize,
    same: bool,
    numbers: Vec<(usize, u64)>,
    messages: Vec<u8>,
    replies: Vec<u8>,
    log: Option<Vec<Entry>>,
    acks: Option<Vec<(u64, u64)>>,
    stored: Option<Vec<u8>>,
}

fn expect(number: usize, same: bool, numbers: Vec<(usize, u64)>) -> Expect {
    Expect {
        number,
        same,
        numbers,
        messages: Vec::new(),
        replies: Vec::new(),
        log: None,
        acks: None,
        stored: None,
    }
}

/// Done, and this status (FORMAT.md's number), view, op and commit number.
fn after(status: u64, view: usize, op: u64, commit: u64) -> Expect {
    let numbers = vec![(0, status), (1, view as u64), (3, op), (4, commit)];
    expect(0, false, numbers)
}

pub fn normal(view: usize, op: u64, commit: u64) -> Expect {
    after(0, view, op, commit)
}

pub fn transfer(view: usize, op: u64, commit: u64) -> Expect {
    after(1, view, op, commit)
}

pub fn change(view: usize, op: u64, commit: u64) -> Expect {
    after(2, view, op, commit)
}

pub fn recovering(view: usize) -> Expect {
    after(3, view, 0, 0)
}

/// Done, and nothing is sent or changed.
pub fn nothing() -> Expect {
    expect(0, true, Vec::new())
}

/// Refused by this number, and nothing is sent or changed.
pub fn refused(number: usize) -> Expect {
    expect(number, true, Vec::new())
}

impl Expect {
    /// This message to each of these replicas, after what was said before.
    pub fn sends(mut self, to: &[usize], message: Fees) -> Expect {
        let frames = to.iter().flat_map(|id| frame(*id, &message));
        self.messages.extend(frames);
        self
    }

    /// A reply to this entry, in this view, with an outcome and a total.
    pub fn replies(mut self, view_number: usize, to: Entry, code: u8, total: u64) -> Expect {
        self.replies.extend(reply_frame(&Reply {
            view_number,
            client_id: to.client as usize,
            request_number: to.request as usize,
            result: Outcome { code, total },
        }));
        self
    }

    /// This number at that place of the state's lines.
    pub fn has(mut self, place: usize, number: u64) -> Expect {
        self.numbers.push((place, number));
        self
    }

    /// Just this log.
    pub fn log(mut self, log: &[Entry]) -> Expect {
        self.log = Some(log.to_vec());
        self
    }

    /// Just these ops have acks, each a set of replicas with one bit for each.
    pub fn acks(mut self, acks: &[(u64, u64)]) -> Expect {
        self.acks = Some(acks.to_vec());
        self
    }

    /// Just these DoViewChanges or RecoveryResponses are stored, with all that they say but the view of a DoViewChange and the nonce;
    /// in rising order of sender.
    pub fn stores(mut self, messages: &[Fees]) -> Expect {
        let reports = messages.iter().map(Report::of);
        self.stored = Some(reports.flat_map(|report| report.bytes()).collect());
        self
    }

    /// What of it a call didn't give, each behind the words that say which call: the run with it, the state lines before it,
    /// and its answer.
    pub fn faults(self, at: &str, run: &Run, before: &str, answer: &Answer) -> Vec<String> {
        let mut faults = Faults(at, Vec::new());
        let number = run.calls.last().map_or(0, |call| call.mark.code);
        faults.unless("number", number, self.number);
        faults.unless(
            "messages",
            hex(&answer.message_bytes()),
            hex(&self.messages),
        );
        faults.unless("replies", hex(&answer.reply_bytes()), hex(&self.replies));
        if self.same {
            faults.unless("state", run.state(), before);
        }
        for (place, number) in self.numbers {
            let found = run.state().split_whitespace().nth(place + 1);
            let what = format!("number {place} of the state");
            faults.unless(&what, found, Some(number.to_string().as_str()));
        }
        if let Some(log) = self.log {
            let found: Vec<Entry> = run.rust.replica.log().iter().map(|e| e.op).collect();
            faults.unless("log", found, log);
        }
        if let Some(acks) = self.acks {
            faults.unless("acks", inside(&run.rust.replica).acks, acks);
        }
        if let Some(stored) = self.stored {
            let found = inside(&run.rust.replica).stored();
            faults.unless("stored messages", hex(&found), hex(&stored));
        }
        faults.1
    }
}

/// The words that say which call, and what it gave that wasn't wanted.
struct Faults<'a>(&'a str, Vec<String>);

impl Faults<'_> {
    fn unless<T: PartialEq + Debug>(&mut self, what: &str, found: T, wanted: T) {
        if found != wanted {
            let Faults(call, faults) = self;
            faults.push(format!("{call}: {what} {found:?}, wanted {wanted:?}"));
        }
    }
}
