//! The takings, the sum over all members: they change where an entry is committed whose Fee or Refund takes effect, and nowhere else.

use super::*;
use wire::fees::{ASK, REFUND};

/// A Refund of client 4, for member 3 as A, B and C are.
const REFUNDED: Entry = entry(4, REFUND, 3, 4);

/// An entry of a client, with request number 0.
const fn entry(client: u64, operation: u8, member: u32, cents: u64) -> Entry {
    Entry {
        client,
        request: 0,
        operation,
        member,
        cents,
    }
}

/// A primary of three takes each entry as a Request and commits it: outcome and total go out, and the takings are the last number.
fn committed(title: &str, entries: &[(Entry, u8, u64, u64)]) -> Example {
    let mut run = fresh(3, 0, title);
    let mut before = 0;
    for (place, (entry, code, total, takings)) in entries.iter().enumerate() {
        let (op, at) = (place + 1, place as u64);
        let sent = normal(0, at + 1, at).sends(&[1, 2], prepare(0, op, place, *entry));
        let done = normal(0, at + 1, at + 1).replies(0, *entry, *code, *total);
        run = run
            .frame(request(*entry), sent.has(TAKINGS, before))
            .frame(prepare_ok(0, op, 1), done.has(TAKINGS, *takings));
        before = *takings;
    }
    run
}

/// What each outcome does to them.
fn outcomes() -> Vec<Example> {
    vec![
        committed(
            "Takings rise by a fee and fall by a refund, whichever member's",
            &[
                (F, 1, 4500, 4500),
                (entry(1, FEE, 5, 200), 1, 200, 4700),
                (entry(2, REFUND, 3, 4000), 2, 500, 700),
                (entry(3, REFUND, 5, 200), 2, 0, 500),
                (entry(4, FEE, 0, 1), 1, 1, 501),
                (entry(5, REFUND, 3, 500), 2, 0, 1),
            ],
        ),
        committed(
            "Takings stay at outcomes 4 and 6 and at an Ask: a refund of more than the member's total is 6, though the takings would bear it",
            &[
                (F, 1, 4500, 4500),
                (entry(1, FEE, 8, 200), 4, 0, 4500),
                (entry(2, REFUND, 8, 200), 4, 0, 4500),
                (entry(3, REFUND, 5, 1), 6, 0, 4500),
                (entry(4, REFUND, 3, 4501), 6, 4500, 4500),
                (entry(5, ASK, 3, 0), 3, 4500, 4500),
            ],
        ),
    ]
}

/// Replica 1 is Normal with so many entries, and acknowledges the last to the view's primary.
fn acked(view: usize, op: usize, commit: u64, to: usize) -> Expect {
    normal(view, op as u64, commit).sends(&[to], prepare_ok(view, op, 1))
}

/// A log that is taken over leaves them; what is committed of it changes them.
fn installs() -> Vec<Example> {
    let chosen = [A, REFUNDED, B];
    vec![
        fresh(3, 1, "Takings stay while entries wait, and at a StartView that commits nothing; what it takes out of the log never counts")
            .frame(prepare(0, 1, 0, A), acked(0, 1, 0, 0).has(TAKINGS, 0))
            .frame(prepare(0, 2, 1, B), acked(0, 2, 1, 0).has(TAKINGS, 10))
            .frame(start_view(2, &[A, REFUNDED, C], 0), acked(2, 3, 1, 2).has(TAKINGS, 10))
            .frame(commit(2, 2), normal(2, 3, 2).has(TAKINGS, 6))
            .frame(commit(2, 3), normal(2, 3, 3).has(TAKINGS, 36)),
        fresh(3, 1, "Takings stay while a replica catches up, and change by all that its NewState commits")
            .frame(prepare(0, 1, 1, A), acked(0, 1, 1, 0).has(TAKINGS, 10))
            .frame(commit(2, 4), change(2, 1, 1).sends(&[2], get_state(1, 2, 1)).has(TAKINGS, 10))
            .frame(new_state(2, 1, &[REFUNDED, B, C], 3), acked(2, 4, 3, 2).has(TAKINGS, 26))
            .frame(commit(2, 4), normal(2, 4, 4).has(TAKINGS, 56)),
        fresh(3, 1, "Takings after a quorum of DoViewChanges: the chosen log leaves them, and what the new primary commits of it counts once")
            .frame(prepare(0, 1, 1, A), acked(0, 1, 1, 0).has(TAKINGS, 10))
            .frame(do_view_change(1, 2, 0, &chosen, 2), change(1, 1, 1).sends(&[0, 2], start_view_change(1, 1)).has(TAKINGS, 10))
            .frame(start_view_change(1, 0), normal(1, 3, 2).sends(&[0, 2], start_view(1, &chosen, 2)).replies(1, REFUNDED, 2, 6).has(TAKINGS, 6))
            .frame(prepare_ok(1, 3, 0), normal(1, 3, 3).replies(1, B, 1, 26).has(TAKINGS, 26))
            .frame(prepare_ok(1, 3, 2), nothing())
            .frame(request(REFUNDED), normal(1, 3, 3).replies(1, REFUNDED, 2, 6).has(TAKINGS, 26)),
    ]
}

/// A replica that recovers, and calls that are refused.
fn recovered_and_refused() -> Vec<Example> {
    let both = [A, REFUNDED];
    vec![
        recovered(3, 1, 0, "A recovering replica has takings of 0, and gets them by its commits: of A, a refund and B the first two, B's later")
            .frame(response(0, 2, None), recovering(0).has(TAKINGS, 0))
            .frame(response(0, 0, Some((&[A, REFUNDED, B], 2))), normal(0, 3, 2).has(TAKINGS, 6))
            .frame(commit(0, 3), normal(0, 3, 3).has(TAKINGS, 26)),
        fresh(3, 0, "A refused call leaves the takings, also one that would have raised or lowered them")
            .frame(request(A), normal(0, 1, 0).sends(&[1, 2], prepare(0, 1, 0, A)))
            .frame_in((0, 35), prepare_ok(0, 1, 1), refused(10))
            .frame_in((0, 36), prepare_ok(0, 1, 1), normal(0, 1, 1).replies(0, A, 1, 10).has(TAKINGS, 10))
            .frame(request(REFUNDED), normal(0, 2, 1).sends(&[1, 2], prepare(0, 2, 1, REFUNDED)).has(TAKINGS, 10))
            .frame_in((0, 35), prepare_ok(0, 2, 2), refused(10))
            .frame(start_view(3, &[REFUNDED, A], 2), refused(7))
            .frame_in((15, 0), start_view(3, &both, 2), refused(9))
            .frame_in((16, 0), start_view(3, &both, 2), normal(3, 2, 2).sends(&[0], prepare_ok(3, 2, 0)).has(TAKINGS, 6)),
    ]
}

pub fn all() -> Vec<Example> {
    let parts = [outcomes(), installs(), recovered_and_refused()];
    parts.into_iter().flatten().collect()
}
