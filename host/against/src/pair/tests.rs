//! What the comparisons have to notice.

use super::*;
use crate::takings::MOST;
use schedules::directed::{
    back, commit, do_view_change, fee, prepare, prepare_ok, response, start_view,
    start_view_change, NEW,
};
use vsr_rs::Message;
use wire::fees::{Entry, FEE};
use wire::frames::{frame, Fees};

/// A primary of three with a committed fee, and one that isn't.
fn pair() -> Pair {
    let setup = Setup {
        n: 3,
        id: 0,
        timeout: 3,
        room: 4,
        members: 2,
    };
    let request = |client: u64| Message::Request {
        client_id: client as usize,
        request_number: 0,
        op: Entry {
            client,
            request: 0,
            operation: FEE,
            member: 1,
            cents: 4500,
        },
    };
    let prepare_ok = Message::PrepareOk {
        view_number: 0,
        op_number: 1,
        replica_id: 2,
    };
    given(setup, NEW, vec![request(7), prepare_ok, request(8)])
}

/// A replica that was given these frames.
fn given(setup: Setup, start: Start, frames: Vec<Fees>) -> Pair {
    let mut pair = Pair::new(setup, start).expect("a pair").0;
    for message in frames {
        let step = Step {
            frame: Some(frame(setup.id, &message)),
            lends: Lends::default(),
        };
        let done = pair.step(step, &mut Counts::default());
        assert_eq!(done, Ok(true));
    }
    pair
}

/// Replica 0 of five with two stored reports, of replicas 1 and 3: DoViewChanges, or RecoveryResponses of which the second has no
/// log.
fn with_reports(recovering: bool) -> Pair {
    let setup = Setup {
        n: 5,
        id: 0,
        timeout: 3,
        room: 2,
        members: 2,
    };
    let log = [fee(1, 0), fee(2, 0)];
    if recovering {
        let frames = vec![response(6, 1, Some((&log, 1))), response(6, 3, None)];
        return given(setup, back(5), frames);
    }
    let frames = vec![
        do_view_change(5, 1, 3, &log, 1),
        do_view_change(5, 3, 4, &log[..1], 0),
    ];
    given(setup, NEW, frames)
}

/// Whether the comparisons after a call notice what was done to the library's memory.
fn noticed(change: impl FnOnce(&mut Memory)) -> bool {
    noticed_in(pair(), change)
}

fn noticed_in(mut pair: Pair, change: impl FnOnce(&mut Memory)) -> bool {
    change(&mut pair.memory);
    let inside = deep::same(pair.rust.setup, &pair.rust.replica, &pair.memory);
    pair.same().and(inside.map(|_| ())).is_err()
}

#[test]
fn every_changed_byte_is_noticed() {
    assert!(!noticed(|_| {}));
    let marks = (0..7).map(|id| state::REPORTS + state::REPORT * id);
    let places = (state::STATUS..state::STARTS).chain(state::NONCE..state::REPORTS);
    let takings = state::TAKINGS..state::LENGTH;
    for place in places.chain(marks).chain(takings) {
        assert!(
            noticed(|m| m.state[place] ^= 1),
            "byte {place} of the state"
        );
    }
    for place in 0..64 {
        assert!(noticed(|m| m.log[place] ^= 1), "byte {place} of the log");
    }
    for place in 0..9 {
        assert!(
            noticed(|m| m.results[place] ^= 1),
            "byte {place} of the results"
        );
    }
    for place in 0..16 {
        assert!(
            noticed(|m| m.totals[place] ^= 1),
            "byte {place} of the totals"
        );
    }
    for place in 1..4 {
        assert!(noticed(|m| m.acks[place] ^= 1), "byte {place} of the acks");
    }
    for place in (0..50).chain([66, 91]) {
        assert!(
            noticed(|m| m.table[place] ^= 1),
            "byte {place} of the table"
        );
    }
}

#[test]
fn every_changed_byte_of_a_report_is_noticed() {
    for recovering in [false, true] {
        assert!(!noticed_in(with_reports(recovering), |_| {}));
        let marks = (0..7).map(|id| state::REPORTS + state::REPORT * id);
        let whole = [1, 3].map(|id| state::REPORTS + state::REPORT * id);
        let whole = whole.into_iter().flat_map(|at| at..at + state::REPORT);
        for place in marks.chain(whole) {
            let change = |m: &mut Memory| m.state[place] ^= 1;
            assert!(
                noticed_in(with_reports(recovering), change),
                "byte {place} of the state"
            );
        }
        let last = if recovering { 0 } else { 32 };
        for place in (64..128).chain(192..192 + last) {
            let change = |m: &mut Memory| m.stored[place] ^= 1;
            assert!(
                noticed_in(with_reports(recovering), change),
                "byte {place} of the stored logs"
            );
        }
    }
}

/// The call that commits the second fee, with this sum in the state, in areas that are just long enough.
fn committed_with(sum: u64, counts: &mut Counts) -> Pair {
    let mut pair = pair();
    let lends = Lends {
        sum: Some(sum),
        ..Lends::default()
    };
    let second = Some(frame(0, &prepare_ok(0, 2, 1)));
    let step = Step {
        frame: second,
        lends,
    };
    assert_eq!(pair.step(step, counts), Ok(true));
    pair
}

#[test]
fn a_call_with_another_sum() {
    let mut counts = Counts::default();
    for (sum, cuts) in [(0, 0), (MOST - 4500, 0), (MOST - 4499, 1), (MOST, 2)] {
        committed_with(sum, &mut counts);
        assert_eq!(counts.cuts, [cuts, 0], "{sum}");
    }
    assert_eq!(counts.sums, 4);
    let mut pair = committed_with(0, &mut counts);
    let second = frame(0, &prepare_ok(0, 2, 1));
    let due = Due {
        number: 0,
        offset: 0,
        status: 0,
        kind: 3,
        later: false,
        own_id: false,
    };
    let mut given = |pair: &mut Pair| pair.sums(Some(&second), &due, Some(7), &mut counts);
    assert_eq!(given(&mut pair), Ok(()));
    pair.memory.acks[3] ^= 1;
    assert!(given(&mut pair).is_err());
}

#[test]
fn another_offset_is_noticed() {
    let mut pair = pair();
    pair.before.clone_from(&pair.memory);
    let for_another = frame(1, &commit(0, 0));
    for (bytes, number, offset) in [(&[0, 0, 0, 10, 1][..], 2, 3), (&for_another[..], 3, 0)] {
        for due in 0..6 {
            let held = pair.lent_call(Some(bytes), (number, due), (0, 0));
            assert_eq!(held.is_ok(), due == offset, "{number} with {due}");
        }
    }
}

/// Replica 1 of three that begins the view change to view 2 on its own StartViewChange, with the DoViewChange not sent.
fn looped() -> Pair {
    let setup = Setup {
        n: 3,
        id: 1,
        timeout: 3,
        room: 2,
        members: 2,
    };
    given(setup, NEW, vec![start_view_change(2, 1)])
}

#[test]
fn the_own_id_in_the_set_is_noticed() {
    assert!(!noticed_in(looped(), |_| {}));
    assert!(noticed_in(looped(), |m| m.state[state::STARTS] |= 2));
    let mut pair = looped();
    assert_eq!(pair.call_in(None, (24, 0)), Ok(()));
    pair.memory.state[state::STARTS] |= 2;
    assert!(pair.call_in(None, (24, 0)).is_err());
}

#[test]
fn a_call_in_a_short_area_leaves_both_as_they_were() {
    let mut pair = looped();
    let asked = frame(1, &start_view_change(2, 0));
    for (area, sent) in [(23, 0), (23, 0), (24, 1)] {
        assert_eq!(pair.call_in(Some(&asked), (area, 0)), Ok(()));
        assert_eq!(pair.memory.state[state::SENT], sent, "{area}");
    }
}

/// By document 01 the own id joins the set by a StartViewChange of a later view, and of the own view in ViewChange; not while
/// recovering.
#[test]
fn calls_that_meet_the_exception_are_counted() {
    let counted = |mut pair: Pair, frames: &[(Fees, u64)]| {
        let mut counts = Counts::default();
        for (message, met) in frames {
            let step = Step {
                frame: Some(frame(pair.case.setup.id, message)),
                lends: Lends::default(),
            };
            pair.step(step, &mut counts).expect("both the same");
            assert_eq!(counts.own_ids, *met, "{message:?}");
        }
    };
    let ask = start_view_change;
    let setup = looped().case.setup;
    let looping = [
        (ask(2, 1), 1),
        (ask(2, 0), 1),
        (ask(1, 1), 1),
        (ask(5, 1), 2),
    ];
    counted(looped(), &looping);
    let normal = [
        (ask(0, 1), 0),
        (ask(1, 3), 0),
        (ask(1, 2), 0),
        (ask(2, 1), 1),
    ];
    counted(given(setup, NEW, vec![]), &normal);
    counted(given(setup, back(1), vec![]), &[(ask(2, 1), 0)]);
}

/// By the log, the results and the commit number alone, after any call: the first row has its reply, the second none.
#[test]
fn a_row_of_another_entry_is_noticed() {
    let Pair { facts, memory, .. } = &mut pair();
    assert_eq!(facts.hold(memory), Ok(()));
    for place in (0..50).chain([50 + 16]) {
        memory.table[place] ^= 1;
        let held = facts.hold(memory);
        assert!(held.is_err(), "byte {place} of the table");
        memory.table[place] ^= 1;
    }
    assert_eq!(facts.hold(memory), Ok(()));
}

/// By document 01 an install forgets a reply where it drops a later entry of a client whose last one is committed then.
#[test]
fn installs_that_would_forget_are_counted() {
    let setup = looped().case.setup;
    let (five, six) = (fee(1, 5), fee(1, 6));
    let frames = vec![prepare(0, 1, 0, five), prepare(0, 2, 1, six)];
    let mut pair = given(setup, NEW, frames);
    let mut counts = Counts::default();
    for (view, log, met) in [(1, &[five, six][..], 0), (2, &[five], 1), (3, &[five], 1)] {
        let step = Step {
            frame: Some(frame(setup.id, &start_view(view, log, 1))),
            lends: Lends::default(),
        };
        assert_eq!(pair.step(step, &mut counts), Ok(true));
        assert_eq!(counts.forgotten, met, "view {view}");
    }
}

#[test]
fn written_areas_are_noticed() {
    let mut area = Lent::new(0xa5);
    area.needed = vec![1, 2];
    area.lend(4).copy_from_slice(&[1, 2, 0xa5, 0xa5]);
    assert!(area.hold(true, 2, 4).is_ok());
    for (bytes, count) in [
        ([1, 2, 0xa5, 0], 2),
        ([1, 3, 0xa5, 0xa5], 2),
        ([1, 2, 0xa5, 0xa5], 3),
    ] {
        let mut area = Lent::new(0xa5);
        area.needed = vec![1, 2];
        area.lend(4).copy_from_slice(&bytes);
        assert!(area.hold(true, count, 4).is_err());
    }
    area.lend(4)[0] = 1;
    assert!(area.hold(false, 0, 4).is_err());
}
