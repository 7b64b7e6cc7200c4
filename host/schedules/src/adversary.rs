//! A single replica fed frames that are well formed and otherwise anything: own id as sender, stale and far views, view
//! 4,294,967,295, logs that break the committed prefix, logs that don't rise, numbers past the room.

use crate::run::{Call, Run, Setup, Start};
use crate::rust::Rust;
use vsr_rs::{LogEntry, Message, RecoveryState};
use wire::fees::{Entry, ASK, FEE, MOST_CENTS, REFUND};
use wire::frames::{prepare, request, Fees};
use wire::random::Random;

const LAST_VIEW: usize = u32::MAX as usize;
const MEMBERS: usize = 4;
const CLIENTS: [u64; 3] = [1, 2, 3];

/// A replica is new, or now and then back from a crash, also in the last views.
pub fn start(random: &mut Random) -> Start {
    if random.chance(25) {
        Start::Back {
            view: random.pick(&[0, 1, 5, LAST_VIEW - 1, LAST_VIEW]),
            nonce: 1,
        }
    } else {
        Start::New
    }
}

/// Some cents that the operation may have.
pub fn cents(random: &mut Random, operation: u8) -> u64 {
    match operation {
        ASK => 0,
        _ => random.pick(&[1, 4_500, MOST_CENTS]),
    }
}

/// Plays so many calls on some replica of `n`.
pub fn adversary(random: &mut Random, n: usize, calls: usize) -> Run {
    let setup = Setup {
        n,
        id: random.below(n),
        timeout: 1 + random.below(3),
        room: random.pick(&[1, 2, 8, 8]),
        members: MEMBERS,
    };
    let start = start(random);
    let mut run = Run::new(setup, start).0;
    for _ in 0..calls {
        let call = Adversary {
            random,
            rust: &run.rust,
            clients: &CLIENTS,
        }
        .call();
        run.call(call);
    }
    run
}

/// Chooses the next call by looking at the replica.
pub struct Adversary<'a> {
    pub random: &'a mut Random,
    pub rust: &'a Rust,
    pub clients: &'a [u64],
}

impl Adversary<'_> {
    /// A tick, or a frame, now and then to another replica.
    pub fn call(&mut self) -> Call {
        if self.random.chance(20) {
            return Call::Tick;
        }
        let message = self.message();
        let mut addressee = self.rust.setup.id;
        if self.random.chance(1) {
            addressee = (addressee + 1) % self.rust.setup.n;
        }
        Call::Frame { addressee, message }
    }

    /// A message of any kind; while recovering, mostly responses.
    fn message(&mut self) -> Fees {
        let recovering = self.rust.replica.is_recovering() && self.random.chance(60);
        let kind = if recovering {
            11
        } else {
            1 + self.random.below(11)
        };
        match kind {
            1..=4 => self.normal(kind),
            5..=6 => self.transfer(kind),
            7..=9 => self.change(kind),
            _ => self.recovery(kind),
        }
    }

    /// Request, Prepare, PrepareOk, Commit.
    fn normal(&mut self, kind: usize) -> Fees {
        let entry = self.entry(self.rust.replica.log()).logged();
        let view_number = self.view();
        let commit_number = self.near(self.rust.replica.commit_number());
        match kind {
            1 => request(entry),
            2 => {
                let op_number = self.near(self.rust.replica.op_number() + 1);
                prepare(view_number, op_number, commit_number, entry)
            }
            3 => Message::PrepareOk {
                view_number,
                op_number: self.near(self.rust.replica.op_number()),
                replica_id: self.sender(),
            },
            _ => Message::Commit {
                view_number,
                commit_number,
            },
        }
    }

    /// GetState, NewState.
    fn transfer(&mut self, kind: usize) -> Fees {
        let view_number = self.view();
        if kind == 5 {
            return Message::GetState {
                replica_id: self.sender(),
                view_number,
                op_number: self.near(self.rust.replica.op_number()),
            };
        }
        let log = self.log();
        let commit_number = self.commit(log.len());
        let start = self.random.pick(&[
            0,
            self.rust.replica.commit_number(),
            self.rust.replica.commit_number(),
            self.rust.replica.op_number(),
        ]);
        let start = start.min(log.len());
        Message::NewState {
            view_number,
            op_number_start: start,
            op_number_end: log.len(),
            log: log[start..].to_vec(),
            commit_number,
        }
    }

    /// StartViewChange, DoViewChange, StartView.
    fn change(&mut self, kind: usize) -> Fees {
        let view_number = self.view();
        let replica_id = self.sender();
        let log = self.log();
        let op_number = log.len();
        let commit_number = self.commit(op_number);
        match kind {
            7 => Message::StartViewChange {
                view_number,
                replica_id,
            },
            8 => Message::DoViewChange {
                view_number,
                replica_id,
                last_normal_view: self.view().min(view_number),
                log,
                op_number,
                commit_number,
            },
            _ => Message::StartView {
                view_number,
                log,
                op_number,
                commit_number,
            },
        }
    }

    /// Recovery, RecoveryResponse.
    fn recovery(&mut self, kind: usize) -> Fees {
        let view_number = self.view();
        let replica_id = self.sender();
        let nonce = self.random.pick(&[1, 1, 1, 1, 2]);
        if kind == 10 {
            return Message::Recovery {
                replica_id,
                nonce,
                view_number,
            };
        }
        let leads = view_number % self.rust.setup.n == replica_id;
        let state = (leads || self.random.chance(30)).then(|| {
            let log = self.log();
            let commit_number = self.commit(log.len());
            RecoveryState { log, commit_number }
        });
        Message::RecoveryResponse {
            view_number,
            nonce,
            replica_id,
            state,
        }
    }

    /// Any replica, ourselves too; now and then one that isn't there.
    fn sender(&mut self) -> usize {
        let n = self.rust.setup.n;
        if self.random.chance(1) {
            return n;
        }
        self.random.below(n)
    }

    /// Our view, one near it, the next one that we lead, a far one, or the last one there is.
    fn view(&mut self) -> usize {
        let view = self.rust.replica.view_number();
        let n = self.rust.setup.n;
        let chosen = match self.random.below(100) {
            0..=67 => view,
            68..=75 => view + 1,
            76..=83 => self.rust.setup.led_after(view),
            84..=87 => view.saturating_sub(1),
            88..=93 => view + self.random.below(2 * n),
            94..=95 => view + 1_000_000,
            96 => LAST_VIEW,
            97 => LAST_VIEW - self.random.below(n),
            _ => 0,
        };
        chosen.min(LAST_VIEW)
    }

    /// A number near this one.
    fn near(&mut self, number: usize) -> usize {
        match self.random.below(10) {
            0..=5 => number,
            6 => number.saturating_sub(1),
            7..=8 => number + 1,
            _ => self.random.below(11),
        }
    }

    /// A commit number for a log of this length; now and then past it.
    fn commit(&mut self, length: usize) -> usize {
        if self.random.chance(3) {
            return length + 1;
        }
        self.random.below(length + 1)
    }

    /// A log: mostly our own up to some entry with more behind it; now and then one changed, or a strange one.
    fn log(&mut self) -> Vec<LogEntry<Entry>> {
        let own = self.rust.replica.log();
        let committed = self.rust.replica.commit_number();
        let kept = match self.random.below(10) {
            0 => self.random.below(own.len() + 1),
            1 => 0,
            _ => own.len() - self.random.below(own.len() - committed + 1),
        };
        let mut log = own[..kept].to_vec();
        for _ in 0..self.random.below(4) {
            if log.len() < self.rust.setup.room || self.random.chance(5) {
                log.push(self.entry(&log).logged());
            }
        }
        if !log.is_empty() && self.random.chance(12) {
            let place = self.random.below(log.len());
            log[place].op.member ^= 1;
        }
        log
    }

    /// An entry: mostly the next request of its client after this log.
    fn entry(&mut self, log: &[LogEntry<Entry>]) -> Entry {
        let client = self.random.pick(self.clients);
        let latest = log.iter().rev().find(|e| e.op.client == client);
        let next = latest.map_or(0, |e| e.op.request.wrapping_add(1));
        let request = match self.random.below(20) {
            0..=14 => next,
            15..=16 => next.saturating_sub(1),
            17 => next.wrapping_add(1),
            18 => u64::MAX,
            _ => 0,
        };
        let operation = self.random.pick(&[FEE, FEE, REFUND, ASK]);
        Entry {
            client,
            request,
            operation,
            cents: cents(self.random, operation),
            member: self.random.below(self.rust.setup.members + 1) as u32,
        }
    }
}
