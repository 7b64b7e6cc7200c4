//! Directed examples: short runs with a title that says which rule of document 01 they show. What each call has to give is
//! written beside it by hand, from document 01, and compared while the Rust is driven: where an example doesn't show what its
//! title says, nothing is written (`trace`).

mod backup;
mod change;
mod expect;
mod installs;
mod normal;
mod own_id;
mod quorum;
mod recovery;
mod refusals;
mod remembered;
mod statuses;
mod takings;
mod views;

use crate::directed::{
    back, commit, do_view_change, fee, logged, new_state, prepare, prepare_ok, request, response,
    start_view, start_view_change, NEW,
};
use crate::run::{Answer, Call, Run, Setup, Start};
use expect::*;
use vsr_rs::{Message, RecoveryState, Reply};
use wire::fees::{Entry, Outcome, FEE};
use wire::frames::{frame, reply_frame, Fees};

pub const LAST_VIEW: usize = u32::MAX as usize;

/// Fees for member 3: document 01's of client 7, and one each of clients 1, 2 and 3, all with request number 0.
pub const F: Entry = paid(7, 4500);
pub const A: Entry = paid(1, 10);
pub const B: Entry = paid(2, 20);
pub const C: Entry = paid(3, 30);

const fn paid(client: u64, cents: u64) -> Entry {
    Entry {
        client,
        request: 0,
        operation: FEE,
        member: 3,
        cents,
    }
}

/// A title with a run, or with the lines of a creation that is refused.
pub struct Example {
    title: String,
    creation: String,
    run: Option<Run>,
    faults: Vec<String>,
}

/// Replica `id` of `n`, T = 3, L = 8, M = 8, with nothing done yet.
pub fn fresh(n: usize, id: usize, title: &str) -> Example {
    sized(n, id, 3, 8, title)
}

/// The same with another T and L.
pub fn sized(n: usize, id: usize, timeout: usize, room: usize, title: &str) -> Example {
    made(n, id, timeout, room, NEW, title)
}

/// The primary of `n` with A as op 1, not committed.
fn with_one(n: usize, title: &str) -> Example {
    let others: Vec<usize> = (1..n).collect();
    let sent = expect::normal(0, 1, 0).sends(&others, prepare(0, 1, 0, A));
    fresh(n, 0, title).frame(request(A), sent)
}

/// Replica `id` of `n`, T = 3, L = 8, M = 8, recovering in a view with nonce 1. It sends a Recovery to each other one.
pub fn recovered(n: usize, id: usize, view: usize, title: &str) -> Example {
    made(n, id, 3, 8, back(view), title)
}

fn made(n: usize, id: usize, timeout: usize, room: usize, start: Start, title: &str) -> Example {
    let setup = Setup {
        n,
        id,
        timeout,
        room,
        members: 8,
    };
    let (run, answer) = Run::new(setup, start);
    let others: Vec<usize> = (0..n).filter(|other| *other != id).collect();
    let wanted = match start {
        Start::New => expect::normal(0, 0, 0),
        Start::Back { view, nonce } => recovering(view).sends(&others, recovery(id, nonce, view)),
    };
    let wanted = wanted.has(TAKINGS, 0);
    let at = format!("{title}: creation");
    let faults = wanted.faults(&at, &run, run.state(), &answer);
    Example {
        title: title.to_string(),
        creation: run.creation.clone(),
        run: Some(run),
        faults,
    }
}

/// A creation that is refused: its line of FORMAT.md, and the number. The Rust isn't asked.
pub fn not_made(line: &str, number: usize, title: &str) -> Example {
    Example {
        title: title.to_string(),
        creation: format!("{line}\n= {number} - -\n"),
        run: None,
        faults: Vec::new(),
    }
}

pub fn get_state(replica_id: usize, view_number: usize, op_number: usize) -> Fees {
    Message::GetState {
        replica_id,
        view_number,
        op_number,
    }
}

pub fn recovery(replica_id: usize, nonce: u64, view_number: usize) -> Fees {
    Message::Recovery {
        replica_id,
        nonce,
        view_number,
    }
}

/// A RecoveryResponse without state.
pub fn answer(view_number: usize, nonce: u64, replica_id: usize) -> Fees {
    Message::RecoveryResponse {
        view_number,
        nonce,
        replica_id,
        state: None,
    }
}

/// A RecoveryResponse with a log and commit number.
pub fn answer_with(view: usize, nonce: u64, sender: usize, log: &[Entry], commit: usize) -> Fees {
    Message::RecoveryResponse {
        view_number: view,
        nonce,
        replica_id: sender,
        state: Some(RecoveryState {
            log: logged(log),
            commit_number: commit,
        }),
    }
}

impl Example {
    /// A frame to this replica.
    pub fn frame(self, message: Fees, wanted: Expect) -> Example {
        self.checked(|run| run.frame(message), wanted)
    }

    /// A frame that names another addressee.
    pub fn frame_to(self, addressee: usize, message: Fees, wanted: Expect) -> Example {
        let call = Call::Frame { addressee, message };
        self.checked(|run| run.call(call), wanted)
    }

    /// A frame, with areas of these lengths for messages and replies.
    pub fn frame_in(self, areas: (usize, usize), message: Fees, wanted: Expect) -> Example {
        let addressee = self.run.as_ref().expect("a run").rust.setup.id;
        let call = Call::Frame { addressee, message };
        self.checked(|run| run.call_in(call, areas), wanted)
    }

    pub fn tick(self, wanted: Expect) -> Example {
        self.checked(|run| run.call(Call::Tick), wanted)
    }

    /// A tick, with areas of these lengths for messages and replies.
    pub fn tick_in(self, areas: (usize, usize), wanted: Expect) -> Example {
        self.checked(|run| run.call_in(Call::Tick, areas), wanted)
    }

    /// So many ticks that give the same.
    pub fn ticks(self, count: usize, wanted: impl Fn() -> Expect) -> Example {
        (0..count).fold(self, |example, _| example.tick(wanted()))
    }

    /// Bytes that are refused by 2.
    pub fn malformed(self, bytes: &[u8]) -> Example {
        self.checked(|run| run.malformed(bytes), refused(2))
    }

    /// The run goes on with a call; where that doesn't give what is wanted, it is kept as a fault.
    fn checked(mut self, call: impl FnOnce(&mut Run) -> Answer, wanted: Expect) -> Example {
        let run = self.run.as_mut().expect("a creation that isn't refused");
        let before = run.state().to_string();
        let answer = call(run);
        let at = format!("{}: call {}", self.title, run.calls.len());
        self.faults
            .extend(wanted.faults(&at, run, &before, &answer));
        self
    }

    fn calls(&self) -> usize {
        self.run.as_ref().map_or(0, |run| run.calls.len())
    }

    /// Its lines: the title, then the run.
    fn text(&self) -> String {
        let calls = self.run.iter().flat_map(|run| &run.calls);
        let lines: String = calls.map(|call| call.lines.as_str()).collect();
        format!("# {}\n{}{lines}", self.title, self.creation)
    }
}

/// The trace of all of them; or what of it isn't as it was to be.
pub fn trace() -> Result<String, String> {
    let parts = [
        normal::all(),
        backup::all(),
        views::all(),
        statuses::all(),
        refusals::all(),
        change::all(),
        own_id::all(),
        quorum::all(),
        installs::all(),
        remembered::all(),
        recovery::all(),
        takings::all(),
    ];
    let all: Vec<Example> = parts.into_iter().flatten().collect();
    let faults: Vec<&str> = all.iter().flat_map(|e| &e.faults).map(|f| &**f).collect();
    if !faults.is_empty() {
        return Err(faults.join("\n"));
    }
    let runs = all.iter().filter(|example| example.run.is_some()).count();
    let calls: usize = all.iter().map(Example::calls).sum();
    let not_made = all.len() - runs;
    let rust = crate::answered_by();
    let head = format!(
        "# Directed examples of document 01's rules, answered by {rust}; written by host/schedules.\n\
        # {runs} runs, {calls} calls; {not_made} refused creations. Refusals 1 and 2 are written by hand.\n"
    );
    Ok(head + &all.iter().map(Example::text).collect::<String>())
}
