//! The takings of memory that no call produced: which are refused, and where a sum is cut.

mod common;

use common::frames::{commit, prepare, prepare_ok, request, start_view};
use common::model::entry;
use whitherhaul::raw::{self, state, Counts, Memory};
use whitherhaul::{Outcome, Refusal, Replica, Setup};

/// No sum is above this: 4,096 members with 1,000,000,000 each.
const MOST: u64 = 4_096_000_000_000;

const SETUP: Setup = Setup {
    replicas: 3,
    id: 0,
    timeout: 3,
    room: 8,
    members: 4,
};

/// Puts a sum into a state, and leaves the totals.
fn lend(memory: &mut Memory, sum: u64) {
    memory.state[state::TAKINGS..].copy_from_slice(&sum.to_be_bytes());
}

/// A primary with this sum, each of whose members has a total of 500.
fn lent(sum: u64) -> Replica {
    let mut replica = Replica::new(&SETUP).unwrap();
    lend(replica.parts_mut(), sum);
    for total in replica.parts_mut().totals.chunks_exact_mut(8) {
        total.copy_from_slice(&500_u64.to_be_bytes());
    }
    replica
}

/// Frames that are done, refused by 2 and by 3, and ignored.
fn frames() -> [Vec<u8>; 5] {
    [
        request(0, &entry(7, 0, 1, 0, 100)),
        Vec::new(),
        commit(1, 0, 0),
        commit(0, 0, 0),
        start_view(0, 1, 1, &entry(7, 0, 1, 0, 100)),
    ]
}

/// Every call with this memory is refused by 1, and leaves it and both areas.
fn refused(memory: &Memory) {
    let mut now = memory.clone();
    let (mut out, mut reps) = ([0xa5; 900], [0xa5; 300]);
    for frame in frames() {
        let answer = raw::on_message(&mut now, &frame, &mut out, &mut reps);
        assert_eq!(answer, (1, Counts::default(), 0), "{frame:?}");
    }
    let answer = raw::on_idle(&mut now, &mut out, &mut reps);
    assert_eq!(answer, (1, Counts::default()));
    assert_eq!(raw::takings(&now.state), (1, 0));
    assert!(now == *memory, "a refused call changes a byte");
    assert_eq!((out, reps), ([0xa5; 900], [0xa5; 300]));
}

#[test]
fn above_the_most() {
    let fresh = Replica::new(&SETUP).unwrap();
    let recovering = Replica::recover(&SETUP, 4, 9).unwrap();
    for sum in [MOST + 1, MOST + 256, 1 << 42, 1 << 63, u64::MAX] {
        for replica in [&fresh, &recovering] {
            let mut memory = replica.parts().clone();
            lend(&mut memory, sum);
            refused(&memory);
        }
        let mut replica = lent(sum);
        assert_eq!(replica.takings(), Err(Refusal::OutsideSizes));
        assert_eq!(replica.on_idle().unwrap_err(), Refusal::OutsideSizes);
    }
}

#[test]
fn up_to_the_most() {
    for sum in [1, 2_000_000_000, MOST - 1, MOST] {
        let mut replica = lent(sum);
        replica.on_message(&frames()[0]).unwrap();
        replica.on_idle().unwrap();
        assert_eq!(replica.takings(), Ok(sum));
    }
}

/// What one member can't have isn't refused: the bound is the same for every M.
#[test]
fn one_member() {
    let setup = Setup {
        members: 1,
        ..SETUP
    };
    let mut replica = Replica::new(&setup).unwrap();
    lend(replica.parts_mut(), 2_000_000_000);
    assert_eq!(replica.takings(), Ok(2_000_000_000));
    replica
        .on_message(&request(0, &entry(7, 0, 1, 0, 100)))
        .unwrap();
    replica.on_message(&prepare_ok(0, 0, 1, 1)).unwrap();
    assert_eq!(replica.takings(), Ok(2_000_000_100));
}

/// The sum after an entry of this operation and these cents, for member 0, was committed.
fn after(sum: u64, operation: u8, cents: u64) -> (Outcome, u64) {
    let mut replica = lent(sum);
    replica
        .on_message(&request(0, &entry(7, 0, operation, 0, cents)))
        .unwrap();
    assert_eq!(replica.takings(), Ok(sum));
    replica.on_message(&prepare_ok(0, 0, 1, 1)).unwrap();
    (replica.outcome(1).unwrap().0, replica.takings().unwrap())
}

/// A sum that isn't that of the totals moves by the cents, and by nothing else.
#[test]
fn a_sum_that_disagrees() {
    assert_eq!(after(777, 1, 100), (Outcome::Fee, 877));
    assert_eq!(after(0, 1, 1), (Outcome::Fee, 1));
    assert_eq!(after(777, 2, 100), (Outcome::Refund, 677));
    assert_eq!(after(777, 3, 0), (Outcome::Ask, 777));
    assert_eq!(after(777, 2, 501), (Outcome::PastTotal, 777));
}

#[test]
fn cut_at_the_most() {
    assert_eq!(after(MOST, 1, 100), (Outcome::Fee, MOST));
    assert_eq!(after(MOST - 50, 1, 100), (Outcome::Fee, MOST));
    assert_eq!(after(MOST - 100, 1, 100), (Outcome::Fee, MOST));
    assert_eq!(after(MOST - 101, 1, 100), (Outcome::Fee, MOST - 1));
    assert_eq!(after(MOST, 2, 100), (Outcome::Refund, MOST - 100));
}

#[test]
fn cut_at_nothing() {
    assert_eq!(after(50, 2, 100), (Outcome::Refund, 0));
    assert_eq!(after(0, 2, 500), (Outcome::Refund, 0));
    assert_eq!(after(100, 2, 100), (Outcome::Refund, 0));
    assert_eq!(after(101, 2, 100), (Outcome::Refund, 1));
}

/// Each entry is cut by itself: two fees above the most and a refund behind them.
#[test]
fn cut_entry_by_entry() {
    let setup = Setup { id: 2, ..SETUP };
    let mut replica = Replica::new(&setup).unwrap();
    lend(replica.parts_mut(), MOST - 50);
    let entries = [(1, 100), (1, 100), (2, 30)];
    for (op, (operation, cents)) in (1..).zip(entries) {
        let entry = entry(7, op.into(), operation, 0, cents);
        replica.on_message(&prepare(2, 0, op, 0, &entry)).unwrap();
    }
    replica.on_message(&commit(2, 0, 3)).unwrap();
    assert_eq!(replica.takings(), Ok(MOST - 30));
}

#[test]
fn a_run_of_another_length() {
    let mut replica = lent(2000);
    let whole = replica.parts().state.clone();
    let longer = [&whole[..], &[0; 8]].concat();
    for length in [153, 155, 146, 0, 1, 162] {
        assert_eq!(raw::takings(&longer[..length]), (1, 0), "{length} bytes");
    }
    assert_eq!(raw::takings(&whole), (0, 2000));
    for length in [153, 12, 0] {
        replica.parts_mut().state.truncate(length);
        assert_eq!(replica.takings(), Err(Refusal::OutsideSizes));
    }
}

/// What the call answers for this sum and a state with another byte at a place.
fn with(place: usize, byte: u8) -> (u8, u64) {
    let mut replica = lent(2000);
    replica.parts_mut().state[place] = byte;
    raw::takings(&replica.parts().state)
}

/// Numbers of the state that are out of range, and bytes without meaning.
#[test]
fn no_state() {
    let sizes = [(0, 2), (0, 8), (3, 0), (6, 17), (7, 0), (10, 17), (11, 0)];
    let own_id = [(1, 3), (1, 255)];
    let status_and_flags = [(12, 4), (21, 2), (30, 2), (39, 2), (48, 2)];
    let op_and_commit = [(25, 9), (29, 1)];
    let votes_and_reports = [(38, 8), (49, 1), (53, 1), (90, 1), (145, 1)];
    let wrongs = [
        &sizes[..],
        &own_id,
        &status_and_flags,
        &op_and_commit,
        &votes_and_reports,
    ];
    for (place, byte) in wrongs.concat() {
        assert_eq!(with(place, byte), (1, 0), "byte {byte} at {place}");
    }
}

/// The lengths of the other runs play no part, nor does the status.
#[test]
fn the_state_alone() {
    let others = [(0, 7), (1, 2), (7, 1), (10, 15), (11, 1), (25, 8)];
    let statuses = [(12, 0), (12, 1), (12, 2), (12, 3)];
    for (place, byte) in [&others[..], &statuses].concat() {
        assert_eq!(with(place, byte), (0, 2000), "byte {byte} at {place}");
    }
}
