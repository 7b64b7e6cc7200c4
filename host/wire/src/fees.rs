//! The state machine that vsr-rs is driven with: document 01's fee rules. Its operation is a `Charge`, or a whole `Entry` where
//! what is applied has to be shown.

use std::fmt::Debug;
use vsr_rs::{LogEntry, StateMachine};

/// What a request asks for.
pub const FEE: u8 = 1;
pub const REFUND: u8 = 2;
pub const ASK: u8 = 3;

/// The most cents of one entry, and of one total.
pub const MOST_CENTS: u64 = 1_000_000;
const MOST_TOTAL: u64 = 1_000_000_000;

/// What an entry asks for; client and request number stand beside it in vsr-rs's messages and log.
#[derive(Clone, Copy, Debug, PartialEq, Eq)]
pub struct Charge {
    pub operation: u8,
    pub member: u32,
    pub cents: u64,
}

/// An entry as on the wire, client and request number too.
#[derive(Clone, Copy, Debug, Default, PartialEq, Eq)]
pub struct Entry {
    pub client: u64,
    pub request: u64,
    pub operation: u8,
    pub member: u32,
    pub cents: u64,
}

/// What vsr-rs is given as its operation.
pub trait Operation: Clone + Debug {
    fn new(client: u64, request: u64, charge: Charge) -> Self;
    fn charge(&self) -> Charge;
}

impl Operation for Charge {
    #[inline]
    fn new(_: u64, _: u64, charge: Charge) -> Charge {
        charge
    }

    #[inline]
    fn charge(&self) -> Charge {
        *self
    }
}

impl Operation for Entry {
    #[inline]
    fn new(client: u64, request: u64, charge: Charge) -> Entry {
        Entry {
            client,
            request,
            operation: charge.operation,
            member: charge.member,
            cents: charge.cents,
        }
    }

    #[inline]
    fn charge(&self) -> Charge {
        Charge {
            operation: self.operation,
            member: self.member,
            cents: self.cents,
        }
    }
}

impl Entry {
    /// The entry as vsr-rs's log holds it.
    pub fn logged(self) -> LogEntry<Entry> {
        LogEntry {
            client_id: self.client as usize,
            request_number: self.request as usize,
            op: self,
        }
    }
}

/// What an entry gave.
#[derive(Clone, Copy, Debug, PartialEq, Eq)]
pub struct Outcome {
    pub code: u8,
    pub total: u64,
}

/// The fee rules: a charge is applied to the members' totals.
#[inline]
fn apply(totals: &mut [u64], charge: Charge) -> Outcome {
    let Some(total) = totals.get_mut(charge.member as usize) else {
        return Outcome { code: 4, total: 0 };
    };
    let code = match charge.operation {
        FEE if *total + charge.cents > MOST_TOTAL => 5,
        FEE => {
            *total += charge.cents;
            1
        }
        REFUND if charge.cents > *total => 6,
        REFUND => {
            *total -= charge.cents;
            2
        }
        _ => 3,
    };
    Outcome {
        code,
        total: *total,
    }
}

/// The members' totals, as lean as an owner would keep them.
#[derive(Debug)]
pub struct Totals(pub Vec<u64>);

impl Totals {
    /// All 0.
    pub fn new(members: usize) -> Totals {
        Totals(vec![0; members])
    }
}

impl StateMachine for Totals {
    type Input = Charge;
    type Output = Outcome;

    #[inline]
    fn apply(&mut self, charge: Charge) -> Outcome {
        apply(&mut self.0, charge)
    }
}

/// The members' totals, and the entries that were applied, in order.
#[derive(Debug)]
pub struct Ledger {
    pub totals: Vec<u64>,
    pub applied: Vec<Entry>,
}

impl Ledger {
    /// All totals 0, nothing applied.
    pub fn new(members: usize) -> Ledger {
        Ledger {
            totals: vec![0; members],
            applied: Vec::new(),
        }
    }
}

impl StateMachine for Ledger {
    type Input = Entry;
    type Output = Outcome;

    #[inline]
    fn apply(&mut self, entry: Entry) -> Outcome {
        self.applied.push(entry);
        apply(&mut self.totals, entry.charge())
    }
}
