//! Catching up with a later view, and acks that outlive it.

use super::*;

/// Replica 1 of 3 with A as op 1, uncommitted, that learns of view 2 by a Commit.
fn behind(title: &str) -> Example {
    fresh(3, 1, title)
        .frame(
            prepare(0, 1, 0, A),
            normal(0, 1, 0).sends(&[0], prepare_ok(0, 1, 1)),
        )
        .frame(commit(2, 0), catching(2, 1, 0))
}

/// Catching up with a view that replica 2 leads: GetState after what is committed.
fn catching(view: usize, op: u64, commit: usize) -> Expect {
    change(view, op, commit as u64)
        .sends(&[2], get_state(1, view, commit))
        .has(CATCHING_UP, 1)
}

fn catching_up() -> Vec<Example> {
    vec![
        behind("Catching up, NewState must start exactly at our commit number; it replaces what isn't committed. An older view's Commit is \
            ignored then")
            .frame(new_state(2, 1, &[C], 0), change(2, 1, 0).has(HEARD, 1).log(&[A]))
            .frame(new_state(2, 0, &[B], 1), normal(2, 1, 1).sends(&[2], prepare_ok(2, 1, 1)).log(&[B]).has(LAST_NORMAL, 2).has(CATCHING_UP, 0))
            .frame(commit(1, 1), nothing()),
        behind("Catching up, a NewState that starts elsewhere counts as heard, one of another view doesn't; both leave the log")
            .frame(new_state(3, 0, &[B], 1), nothing())
            .frame(new_state(1, 0, &[B], 1), nothing())
            .frame(new_state(2, 1, &[B], 1), change(2, 1, 0).log(&[A])),
        behind("Catching up, a second Commit or a Prepare of that view asks nothing more; a tick asks again")
            .frame(commit(2, 5), change(2, 1, 0).has(HEARD, 1))
            .frame(prepare(2, 2, 0, B), change(2, 1, 0).log(&[A]))
            .tick(catching(2, 1, 0).has(WAITING, 1)),
        behind("Catching up may shorten the log: an empty NewState from our commit number 0")
            .frame(new_state(2, 0, &[], 0), normal(2, 0, 0).sends(&[2], prepare_ok(2, 0, 1)).log(&[])),
        fresh(3, 1, "Catching up keeps what is committed: NewState starts at 1, and B takes C's place behind A; the log must rise, else 6")
            .frame(prepare(0, 1, 0, A), normal(0, 1, 0).sends(&[0], prepare_ok(0, 1, 1)))
            .frame(prepare(0, 2, 1, C), normal(0, 2, 1).sends(&[0], prepare_ok(0, 2, 1)))
            .frame(prepare(5, 3, 2, F), catching(5, 2, 1))
            .frame(new_state(5, 0, &[A, B], 2), change(5, 2, 1).log(&[A, C]))
            .frame(new_state(5, 2, &[B], 2), change(5, 2, 1).log(&[A, C]))
            .frame(new_state(5, 1, &[A], 2), refused(6))
            .frame(new_state(5, 1, &[B, B], 2), refused(6))
            .frame(new_state(5, 1, &[B], 2), normal(5, 2, 2).sends(&[2], prepare_ok(5, 2, 1)).log(&[A, B])),
    ]
}

/// The same: what is heard, and from where a later view is caught up with.
fn later_views() -> Vec<Example> {
    vec![
        fresh(3, 1, "A refused NewState leaves heard as it was, catching up too: it was false before, by a tick")
            .tick(normal(0, 0, 0).has(HEARD, 0))
            .frame(commit(2, 0), catching(2, 0, 0).has(HEARD, 0))
            .frame(new_state(2, 0, &[A, A], 0), refused(6))
            .frame(new_state(2, 1, &[A, A], 0), change(2, 0, 0).has(HEARD, 1)),
        fresh(3, 1, "A Prepare of a later view is caught up with, and nothing of it is appended, though op 1 would follow")
            .frame(prepare(2, 1, 1, A), catching(2, 0, 0).log(&[])),
        fresh(3, 1, "A Prepare of an older view is ignored and isn't heard")
            .frame(start_view(2, &[], 0), normal(2, 0, 0).sends(&[2], prepare_ok(2, 0, 1)))
            .tick(normal(2, 0, 0).has(HEARD, 0))
            .frame(prepare(1, 1, 0, A), nothing())
            .frame(commit(1, 0), nothing()),
        fresh(3, 2, "Within a StateTransfer a later view is caught up with all the same")
            .frame(commit(0, 2), transfer(0, 0, 0).sends(&[0], get_state(2, 0, 0)))
            .frame(commit(4, 1), change(4, 0, 0).sends(&[1], get_state(2, 4, 0)).has(CATCHING_UP, 1)),
        fresh(3, 0, "A later view that we ourselves lead is caught up with too: GetState goes to ourselves, and is ignored in ViewChange")
            .frame(commit(3, 0), change(3, 0, 0).sends(&[0], get_state(0, 3, 0)))
            .frame(get_state(0, 3, 0), nothing())
            .frame(new_state(3, 0, &[A], 1), normal(3, 1, 1).sends(&[0], prepare_ok(3, 1, 0))),
    ]
}

/// Replica 0 of `n` with A as op 1, that catches up with view n by an empty NewState: A is gone, its ack is still there.
fn emptied(n: usize, title: &str) -> Example {
    with_one(n, title)
        .frame(
            commit(n, 0),
            change(n, 1, 0).sends(&[0], get_state(0, n, 0)),
        )
        .frame(
            new_state(n, 0, &[], 0),
            normal(n, 0, 0)
                .sends(&[0], prepare_ok(n, 0, 0))
                .acks(&[(1, 1)]),
        )
}

fn old_acks() -> Vec<Example> {
    let all = &[1, 2, 3, 4];
    vec![
        emptied(3, "Acks aren't cleared by a NewState: a PrepareOk that would commit past the log is 5, and isn't stored, so the next one is 5 \
            too")
            .frame(prepare_ok(3, 1, 1), refused(5))
            .frame(prepare_ok(3, 1, 2), refused(5)),
        emptied(5, "Below the quorum an ack past the log is kept, and with it the next is 5; a Request clears them, a NewState doesn't: C is \
            committed by B's ack")
            .frame(prepare_ok(5, 1, 1), normal(5, 0, 0).acks(&[(1, 3)]))
            .frame(prepare_ok(5, 1, 2), refused(5))
            .frame(request(B), normal(5, 1, 0).sends(all, prepare(5, 1, 0, B)).acks(&[(1, 1)]))
            .frame(commit(10, 0), change(10, 1, 0).sends(&[0], get_state(0, 10, 0)))
            .frame(new_state(10, 0, &[C], 0), normal(10, 1, 0).sends(&[0], prepare_ok(10, 1, 0)).acks(&[(1, 1)]))
            .frame(prepare_ok(10, 1, 3), normal(10, 1, 0).acks(&[(1, 9)]))
            .frame(prepare_ok(10, 1, 4), normal(10, 1, 1).replies(10, C, 1, 30))
            .frame(request(C), normal(10, 1, 1).replies(10, C, 1, 30)),
        fresh(5, 0, "Surprise: B is committed though two of its three acks were for A")
            .frame(request(A), normal(0, 1, 0).sends(all, prepare(0, 1, 0, A)))
            .frame(prepare_ok(0, 1, 1), normal(0, 1, 0).acks(&[(1, 3)]))
            .frame(commit(5, 0), change(5, 1, 0).sends(&[0], get_state(0, 5, 0)))
            .frame(new_state(5, 0, &[B], 0), normal(5, 1, 0).sends(&[0], prepare_ok(5, 1, 0)).acks(&[(1, 3)]))
            .frame(prepare_ok(5, 1, 2), normal(5, 1, 1).replies(5, B, 1, 20)),
        fresh(3, 0, "Surprise: a primary that came by StartView has no acks, so PrepareOks from all three commit nothing; a new Request does")
            .frame(start_view(3, &[A], 0), normal(3, 1, 0).sends(&[0], prepare_ok(3, 1, 0)).acks(&[]))
            .frame(prepare_ok(3, 1, 0), nothing())
            .frame(prepare_ok(3, 1, 1), nothing())
            .frame(prepare_ok(3, 1, 2), nothing())
            .frame(request(B), normal(3, 2, 0).sends(&[1, 2], prepare(3, 2, 0, B)))
            .frame(prepare_ok(3, 2, 1), normal(3, 2, 2).replies(3, A, 1, 10).replies(3, B, 1, 30)),
        fresh(3, 0, "A primary that came by NewState has no acks either")
            .frame(commit(3, 0), change(3, 0, 0).sends(&[0], get_state(0, 3, 0)))
            .frame(new_state(3, 0, &[A], 0), normal(3, 1, 0).sends(&[0], prepare_ok(3, 1, 0)).acks(&[]))
            .frame(prepare_ok(3, 1, 1), nothing())
            .frame(prepare_ok(3, 1, 2), nothing()),
    ]
}

pub fn all() -> Vec<Example> {
    [catching_up(), later_views(), old_acks()]
        .into_iter()
        .flatten()
        .collect()
}
