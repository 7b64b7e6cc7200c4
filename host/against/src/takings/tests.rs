//! The judgement of states, and that it notices.

use super::*;
use whitherhaul::Setup;

/// A fresh replica's memory, with a commit of a fee and of a refund that are there in log and results alone.
fn memory() -> Memory {
    let setup = Setup {
        replicas: 3,
        id: 0,
        timeout: 3,
        room: 4,
        members: 2,
    };
    let mut memory = Memory::of(&setup);
    assert_eq!(raw::create(&setup, &mut memory), 0);
    for (op, (outcome, cents)) in [(1, 100), (2, 70), (5, 9), (6, 9)].into_iter().enumerate() {
        memory.results[9 * op] = outcome;
        memory.log[32 * op + 31] = cents;
    }
    memory
}

/// This sum after the first so many entries, and the cuts.
fn after(sum: u64, commit: u8) -> (u64, Cuts) {
    let (before, mut after) = (memory(), memory());
    after.state[state::COMMIT_NUMBER + 3] = commit;
    let mut cuts = [0, 0];
    (moved(sum, &before, &after, &mut cuts), cuts)
}

#[test]
fn sums_that_move() {
    assert_eq!(after(5, 0), (5, [0, 0]));
    assert_eq!(after(5, 1), (105, [0, 0]));
    assert_eq!(after(5, 4), (35, [0, 0]));
    assert_eq!(after(MOST - 100, 1), (MOST, [0, 0]));
    assert_eq!(after(MOST - 99, 1), (MOST, [1, 0]));
    assert_eq!(after(MOST, 2), (MOST - 70, [1, 0]));
}

#[test]
fn a_sum_below_nothing() {
    let (mut before, mut after) = (memory(), memory());
    before.state[state::COMMIT_NUMBER + 3] = 1;
    after.state[state::COMMIT_NUMBER + 3] = 2;
    let mut cuts = [0, 0];
    assert_eq!(moved(70, &before, &after, &mut cuts), 0);
    assert_eq!(cuts, [0, 0]);
    assert_eq!(moved(69, &before, &after, &mut cuts), 0);
    assert_eq!(cuts, [0, 1]);
}

#[test]
fn sums_for_a_state() {
    let mut random = Random::new(1);
    for _ in 0..1000 {
        assert!(any(&mut random) <= MOST);
        assert!(past(random.number()) > MOST);
    }
}

/// Each byte of a fresh state with some values: the library and the judgement agree, and the judgement refuses some of them.
#[test]
fn states_with_another_byte() {
    let state = memory().state;
    let mut refused = 0;
    for place in 0..state.len() {
        for value in [0, 1, 2, 3, 4, 8, 0x40, 0xff] {
            let mut run = state.clone();
            run[place] = value;
            refused += usize::from(judge(&run).expect("both judge the same"));
        }
    }
    assert!(refused > 500 && refused < 8 * state.len(), "{refused}");
}

#[test]
fn another_sum_is_noticed() {
    let mut memory = memory();
    assert_eq!(hold(&memory, 0), Ok(()));
    assert!(hold(&memory, 1).is_err());
    put(&mut memory, 7);
    assert_eq!(hold(&memory, 7), Ok(()));
    assert!(hold(&memory, 0).is_err());
    put(&mut memory, MOST + 1);
    assert!(hold(&memory, MOST + 1).is_err());
    assert!(hold(&memory, 0).is_err());
}
