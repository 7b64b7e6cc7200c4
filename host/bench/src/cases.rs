//! The cases, and the logs that they are played with.

use vsr_rs::LogEntry;
use wire::fees::{Charge, FEE};

/// One case.
#[derive(Clone, Copy)]
pub enum Case {
    /// A new request, committed and answered: so many clients. `later`: each has sent one before.
    Request { clients: usize, later: bool },
    /// The primary's tick with so many uncommitted entries.
    Tick { uncommitted: usize },
    /// A heartbeat: the primary's tick, and both backups take what it sends.
    Heartbeat,
    /// A StartView of so many entries of so many clients, installed by a fresh backup, all committed.
    StartView { entries: usize, clients: usize },
    /// The same with a log whose last entry breaks the rising rule, refused by 6: what the frame's check alone takes.
    Refused { entries: usize, clients: usize },
    /// The same with a log that breaks the entry rules in the frame's last byte, refused by 2: what finding that byte takes.
    Malformed { entries: usize },
    /// Two DoViewChanges of so many entries: the new primary's view begins.
    Quorum { entries: usize },
    /// A recovery: both others answer, one with a log of so many entries, which is installed.
    Recovery { entries: usize },
    /// The takings asked for; vsr-rs keeps no sum, so its owner adds up.
    Takings,
}

/// All cases, each with its name.
pub const CASES: [(&str, Case); 21] = [
    ("request, 1 client", requests(1, false)),
    ("request, 16 clients", requests(16, false)),
    ("request, 256 clients", requests(256, false)),
    (
        "request, 2,000 clients, a first one",
        requests(2_000, false),
    ),
    ("request, 2,000 clients, a later one", requests(2_000, true)),
    ("tick, a heartbeat", Case::Tick { uncommitted: 0 }),
    ("heartbeat, taken by both backups", Case::Heartbeat),
    ("tick, 100 uncommitted", Case::Tick { uncommitted: 100 }),
    ("StartView, 64 entries", start_view(64, 16)),
    ("StartView, 4,096 entries", start_view(4_096, 16)),
    (
        "StartView, 4,096 of 4,096 clients",
        start_view(4_096, 4_096),
    ),
    (
        "StartView refused, 64 entries of 16 clients",
        refused(64, 16),
    ),
    (
        "StartView refused, 4,096 entries of 16 clients",
        refused(4_096, 16),
    ),
    (
        "StartView refused, 4,096 entries of 4,096 clients",
        refused(4_096, 4_096),
    ),
    (
        "StartView malformed, 64 entries",
        Case::Malformed { entries: 64 },
    ),
    (
        "StartView malformed, 4,096 entries",
        Case::Malformed { entries: 4_096 },
    ),
    (
        "DoViewChange quorum, 64 entries",
        Case::Quorum { entries: 64 },
    ),
    (
        "DoViewChange quorum, 4,096 entries",
        Case::Quorum { entries: 4_096 },
    ),
    ("recovery, 64 entries", Case::Recovery { entries: 64 }),
    ("recovery, 4,096 entries", Case::Recovery { entries: 4_096 }),
    ("takings, 4,096 members", Case::Takings),
];

const fn requests(clients: usize, later: bool) -> Case {
    Case::Request { clients, later }
}

const fn start_view(entries: usize, clients: usize) -> Case {
    Case::StartView { entries, clients }
}

const fn refused(entries: usize, clients: usize) -> Case {
    Case::Refused { entries, clients }
}

/// So many entries of so many clients, in turn. Ids are spread, as names of desks are.
pub fn log(entries: usize, clients: usize) -> Vec<LogEntry<Charge>> {
    (0..entries)
        .map(|place| LogEntry {
            client_id: (place % clients + 1).wrapping_mul(0x9e37_79b9_7f4a_7c15),
            request_number: place / clients,
            op: Charge {
                operation: FEE,
                member: (place * 7 % 4_096) as u32,
                cents: 4_500,
            },
        })
        .collect()
}

/// The same but for the last entry, which repeats client and number of the one before it. Of all pairs only the last one
/// breaks the rising rule, so no look over pairs finds it sooner.
pub fn broken_log(entries: usize, clients: usize) -> Vec<LogEntry<Charge>> {
    let mut log = log(entries, clients);
    if let [.., before, last] = log.as_mut_slice() {
        last.client_id = before.client_id;
        last.request_number = before.request_number;
    }
    log
}

/// The log of 16 clients, with a last fee of 0 cents. The first seven bytes of its cents can still go on to a fee's, so the last
/// byte of all is the first wrong one, and no reader that goes from left to right finds it sooner.
pub fn malformed_log(entries: usize) -> Vec<LogEntry<Charge>> {
    let mut log = log(entries, 16);
    if let Some(last) = log.last_mut() {
        last.op.cents = 0;
    }
    log
}

#[cfg(test)]
mod tests {
    use super::*;

    /// The pairs of places whose entries break the rising rule.
    fn breaking(log: &[LogEntry<Charge>]) -> Vec<(usize, usize)> {
        let pairs = (0..log.len()).flat_map(|i| (i + 1..log.len()).map(move |j| (i, j)));
        let breaks = |&(i, j): &(usize, usize)| {
            log[i].client_id == log[j].client_id && log[i].request_number >= log[j].request_number
        };
        pairs.filter(breaks).collect()
    }

    #[test]
    fn a_log_rises_and_a_broken_one_breaks_in_its_last_pair_only() {
        for clients in [1, 16, 64] {
            assert_eq!(breaking(&log(64, clients)), []);
            assert_eq!(breaking(&broken_log(64, clients)), [(62, 63)]);
        }
    }
}
