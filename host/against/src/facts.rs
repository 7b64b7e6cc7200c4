//! Demand 3's facts, that the own id never joins the set of those who sent StartViewChange, and that the client table is that of log,
//! results and commit number, seen at run time on the library's own bytes after every call that wasn't refused.
//!
//! What is held between calls is compared whole each time, so no change goes unnoticed: the applied entries with their results, the
//! log as it was (one comparison of memory each), and all totals. Only what is new is worked out: entries behind the old log, and
//! entries that were committed since.

use crate::forgotten::would_forget;
use crate::takings;
use schedules::rust::Setup;
use std::collections::BTreeMap;
use vsr_rs::StateMachine;
use whitherhaul::raw::{state, Memory};
use wire::fees::{Entry, Ledger};
use wire::frames::entry_bytes;

/// What is known of a replica from the calls so far.
pub struct Facts {
    /// The applied entries, 32 bytes each: those that stood in the log when the commit number passed them.
    applied: Vec<u8>,
    /// Their results, 9 bytes each.
    results: Vec<u8>,
    /// The log after the last call.
    log: Vec<u8>,
    /// The latest request of each client in it, and its place.
    latest: BTreeMap<u64, (u64, usize)>,
    /// The fee rules, from zero, over the applied entries.
    ledger: Ledger,
    /// Fees taken and refunds paid of each member, from zero.
    fees: Vec<u64>,
    refunds: Vec<u64>,
    /// The totals run that this makes.
    totals: Vec<u8>,
    /// All fees taken less all refunds paid.
    takings: u64,
    view: u32,
    /// The own id's bit in a set of replicas.
    own: u8,
    /// Whether by document 01 the last call would have forgotten a reply.
    pub forgets: bool,
}

/// The number at a place of the state run.
pub fn number(memory: &Memory, at: usize) -> u32 {
    let bytes = memory.state[at..].first_chunk();
    u32::from_be_bytes(*bytes.expect("four bytes of the state"))
}

/// The entry of 32 bytes of the log.
fn entry(bytes: &[u8]) -> Entry {
    let eight = |at: usize| u64::from_be_bytes(*bytes[at..].first_chunk().expect("eight bytes"));
    Entry {
        client: eight(0),
        request: eight(8),
        operation: bytes[16],
        member: u32::from_be_bytes(*bytes[20..].first_chunk().expect("four bytes")),
        cents: eight(24),
    }
}

impl Facts {
    /// Of a replica that was made in this view.
    pub fn new(setup: Setup, view: u32) -> Facts {
        Facts {
            applied: Vec::new(),
            results: Vec::new(),
            log: Vec::new(),
            latest: BTreeMap::new(),
            ledger: Ledger::new(setup.members),
            fees: vec![0; setup.members],
            refunds: vec![0; setup.members],
            totals: vec![0; 8 * setup.members],
            takings: 0,
            view,
            own: 1 << setup.id,
            forgets: false,
        }
    }

    /// The applied entries, 32 bytes each.
    pub fn applied(&self) -> &[u8] {
        &self.applied
    }

    /// All facts, after a call.
    pub fn hold(&mut self, memory: &Memory) -> Result<(), String> {
        let view = number(memory, state::VIEW);
        if view < self.view {
            return Err(format!("the view fell from {} to {view}", self.view));
        }
        self.view = view;
        if memory.state[state::STARTS] & self.own != 0 {
            return Err("the own id is among those who sent StartViewChange".into());
        }
        let op = 32 * number(memory, state::OP_NUMBER) as usize;
        let commit = 32 * number(memory, state::COMMIT_NUMBER) as usize;
        if commit > op || op > memory.log.len() {
            return Err("a commit number above the op number, or that above L".into());
        }
        self.rises(&memory.log[..op])?;
        if commit < self.applied.len() {
            return Err("the commit number fell".into());
        }
        if memory.log[..self.applied.len()] != self.applied[..] {
            return Err("applied entries aren't the front of the log".into());
        }
        if !memory.results.starts_with(&self.results) {
            return Err("results of applied entries changed".into());
        }
        for at in (self.applied.len()..commit).step_by(32) {
            self.apply(&memory.log[at..at + 32], &memory.results[at / 32 * 9..])?;
        }
        if memory.totals != self.totals {
            return Err("totals aren't fees less refunds".into());
        }
        self.remembers(memory)?;
        takings::hold(memory, self.takings)
    }

    /// The table has a row for each client of the log, in the order of their ids, with its last number and, where that entry is committed,
    /// its outcome and total.
    fn remembers(&self, memory: &Memory) -> Result<(), String> {
        let mut rows = memory.table.chunks_exact(25);
        for (client, (request, place)) in &self.latest {
            let mut due = [0; 25];
            due[..8].copy_from_slice(&client.to_be_bytes());
            due[8..16].copy_from_slice(&request.to_be_bytes());
            due[16] = 255;
            if let Some(result) = self.results.get(9 * place..9 * place + 9) {
                due[16..].copy_from_slice(result);
            }
            if rows.next() != Some(&due[..]) {
                return Err(format!("the row of client {client} isn't its last entry's"));
            }
        }
        match rows.next() {
            Some(row) if row[16] != 0 => Err("a row of no client of the log".into()),
            _ => Ok(()),
        }
    }

    /// The request numbers of each client rise along the log, so no client and number stand twice in it.
    fn rises(&mut self, log: &[u8]) -> Result<(), String> {
        self.forgets = false;
        if !log.starts_with(&self.log) {
            self.forgets = would_forget(&self.log, self.applied.len(), log);
            self.log.clear();
            self.latest.clear();
        }
        let first = self.log.len() / 32;
        for (place, bytes) in log.chunks_exact(32).enumerate().skip(first) {
            let entry = entry(bytes);
            if entry_bytes(&entry) != *bytes {
                return Err("an entry of the log without its three zero bytes".into());
            }
            if let Some((before, _)) = self.latest.insert(entry.client, (entry.request, place)) {
                if before >= entry.request {
                    return Err("the log doesn't rise".into());
                }
            }
        }
        self.log.extend_from_slice(&log[self.log.len()..]);
        Ok(())
    }

    /// One more entry is applied, with this result at the front of the rest of the results.
    fn apply(&mut self, bytes: &[u8], results: &[u8]) -> Result<(), String> {
        let entry = entry(bytes);
        let outcome = self.ledger.apply(entry);
        if results[0] != outcome.code || results[1..9] != outcome.total.to_be_bytes() {
            return Err(format!("the result of {entry:?} isn't {outcome:?}"));
        }
        self.applied.extend_from_slice(bytes);
        self.results.extend_from_slice(&results[..9]);
        let member = entry.member as usize;
        match outcome.code {
            1 => {
                self.fees[member] += entry.cents;
                self.takings += entry.cents;
            }
            2 => {
                self.refunds[member] += entry.cents;
                self.takings -= entry.cents;
            }
            _ => return Ok(()),
        }
        let total = self.fees[member] - self.refunds[member];
        self.totals[8 * member..8 * member + 8].copy_from_slice(&total.to_be_bytes());
        Ok(())
    }

    /// The ledger that the applied entries make.
    pub fn ledger(&self) -> &Ledger {
        &self.ledger
    }
}
