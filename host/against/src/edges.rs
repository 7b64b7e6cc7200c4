//! Sums at the edges of their range, all of them and not by chance: each stands in the state while entries are committed, one by one
//! and all at once; and sums above the most are tried before each call.

use crate::case::{Lends, Step};
use crate::counts::Counts;
use crate::pair::Pair;
use crate::play::{fault, Fault, Found};
use crate::takings::MOST;
use crate::wrongs::Wrong;
use schedules::directed::{prepare_ok, request, NEW};
use schedules::rust::Setup;
use wire::fees::{Entry, ASK, FEE, REFUND};
use wire::frames::{frame, Fees};

/// The replica that all are given to.
const SETUP: Setup = Setup {
    n: 3,
    id: 0,
    timeout: 3,
    room: 8,
    members: 2,
};

/// Operation, member and cents of what is committed: a fee, a refund, and what changes no total.
const CHARGES: [(u8, u32, u64); 6] = [
    (FEE, 0, 100),
    (REFUND, 0, 40),
    (ASK, 0, 0),
    (FEE, 2, 100),
    (REFUND, 0, 61),
    (FEE, 1, 7),
];

/// Plays all of it.
pub fn play(counts: &mut Counts) -> Result<(), Fault> {
    for lends in sums().into_iter().chain(pasts()) {
        for calls in [one_by_one(), at_once()] {
            given(calls, lends, counts)?;
        }
    }
    Ok(())
}

/// Each sum that passes: around 0, around the cents, and as far below the most.
fn sums() -> Vec<Lends> {
    let near = [0, 1, 6, 7, 8, 39, 40, 41, 99, 100, 101, 1 << 32, MOST / 2];
    let sums = near.into_iter().flat_map(|cents| [cents, MOST - cents]);
    let lends = sums.map(|sum| Lends {
        sum: Some(sum),
        ..Lends::default()
    });
    lends.collect()
}

/// Sums that are refused.
fn pasts() -> [Lends; 6] {
    let past = [MOST + 1, MOST + 2, MOST + 256, 1 << 42, 1 << 63, u64::MAX];
    past.map(|sum| Lends {
        wrong: Some(Wrong::Takings(sum)),
        ..Lends::default()
    })
}

/// The requests, in order.
fn requests() -> impl Iterator<Item = Fees> {
    CHARGES.into_iter().zip(0..).map(|(charge, number)| {
        let (operation, member, cents) = charge;
        request(Entry {
            client: 7,
            request: number,
            operation,
            member,
            cents,
        })
    })
}

/// Each is committed before the next.
fn one_by_one() -> Vec<Fees> {
    let calls = requests().zip(1..);
    calls
        .flat_map(|(request, op)| [request, prepare_ok(0, op, 1)])
        .collect()
}

/// The last acknowledgement commits all of them.
fn at_once() -> Vec<Fees> {
    let last = prepare_ok(0, CHARGES.len(), 1);
    requests().chain([last]).collect()
}

/// A fresh replica is given these calls, each lent memory so.
fn given(calls: Vec<Fees>, lends: Lends, counts: &mut Counts) -> Result<(), Fault> {
    let (mut pair, _) = Pair::new(SETUP, NEW).map_err(|text| Fault {
        text,
        found: Found::Creation,
    })?;
    counts.creations += 1;
    for message in calls {
        let step = Step {
            frame: Some(frame(SETUP.id, &message)),
            lends,
        };
        pair.step(step, counts).map_err(|text| fault(text, &pair))?;
    }
    pair.end(counts).map_err(|text| fault(text, &pair))
}
