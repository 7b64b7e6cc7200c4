//! Requests, Prepares, acks, replies, heartbeats.

use super::*;
use wire::fees::{ASK, REFUND};

/// The tick of a primary of three that has nothing to send again: a Commit to 1 and to 2.
fn heartbeat(commit_number: usize) -> Expect {
    let op = commit_number as u64;
    normal(0, op, op).sends(&[1, 2], commit(0, commit_number))
}

/// Document 01's marked examples.
fn marked() -> Vec<Example> {
    vec![
        fresh(3, 0, "Marked examples: tick, Request, PrepareOk from 1 (the reply), from 2 (nothing), the Request again (the reply again)")
            .tick(heartbeat(0))
            .frame(request(F), normal(0, 1, 0).sends(&[1, 2], prepare(0, 1, 0, F)))
            .frame(prepare_ok(0, 1, 1), normal(0, 1, 1).replies(0, F, 1, 4500))
            .frame(prepare_ok(0, 1, 2), nothing())
            .frame(request(F), normal(0, 1, 1).replies(0, F, 1, 4500).log(&[F])),
        sized(3, 0, 3, 1, "Marked example: L = 1 and a log of one entry. A new Request is 4; the old one gives nothing, and once committed its \
            reply")
            .frame(request(F), normal(0, 1, 0).sends(&[1, 2], prepare(0, 1, 0, F)))
            .frame(request(Entry { request: 1, ..F }), refused(4))
            .frame(request(F), nothing())
            .frame(prepare_ok(0, 1, 1), normal(0, 1, 1).replies(0, F, 1, 4500))
            .frame(request(Entry { request: 1, ..F }), refused(4))
            .frame(request(Entry { client: 8, ..F }), refused(4))
            .frame(request(F), normal(0, 1, 1).replies(0, F, 1, 4500)),
        fresh(3, 1, "Marked example: Prepare op 1, then Prepare op 2 with the same client and number: 6")
            .frame(prepare(0, 1, 0, F), normal(0, 1, 0).sends(&[0], prepare_ok(0, 1, 1)))
            .frame(prepare(0, 2, 0, F), refused(6)),
    ]
}

/// A primary of `n` with A as op 1, then B as op 2; nothing is committed.
fn with_two(n: usize, title: &str) -> Example {
    let others: Vec<usize> = (1..n).collect();
    with_one(n, title).frame(
        request(B),
        normal(0, 2, 0).sends(&others, prepare(0, 2, 0, B)),
    )
}

/// How many acks commit, and what they commit.
fn quorums() -> Vec<Example> {
    let others = |n| (1..n).collect::<Vec<usize>>();
    let mut runs = vec![
        with_two(3, "An ack commits all up to its op, with a reply for each; our own id counts once; what is committed needs no more acks")
            .frame(prepare_ok(0, 2, 0), nothing())
            .frame(prepare_ok(0, 2, 2), normal(0, 2, 2).replies(0, A, 1, 10).replies(0, B, 1, 30).acks(&[]))
            .frame(prepare_ok(0, 1, 2), nothing()),
        with_two(5, "A PrepareOk counts for its own op alone: of five, op 2 has two acks and op 1 has two, then op 1 has three")
            .frame(prepare_ok(0, 2, 1), normal(0, 2, 0).acks(&[(1, 1), (2, 3)]))
            .frame(prepare_ok(0, 1, 2), normal(0, 2, 0).acks(&[(1, 5), (2, 3)]))
            .frame(prepare_ok(0, 1, 3), normal(0, 2, 1).replies(0, A, 1, 10).acks(&[(2, 3)]))
            .frame(prepare_ok(0, 2, 4), normal(0, 2, 2).replies(0, B, 1, 30).acks(&[])),
    ];
    for n in 3..8 {
        let quorum = n / 2 + 1;
        let title = format!("Quorum n/2+1 of {n}: with our own ack {quorum} commit, the same sender counts once, a later ack changes nothing");
        let mut run = fresh(n, 0, &title).frame(
            request(A),
            normal(0, 1, 0).sends(&others(n), prepare(0, 1, 0, A)),
        );
        for sender in 1..quorum - 1 {
            let held = (1 << (sender + 1)) - 1;
            run = run
                .frame(prepare_ok(0, 1, sender), normal(0, 1, 0).acks(&[(1, held)]))
                .frame(prepare_ok(0, 1, sender), nothing());
        }
        let last = normal(0, 1, 1).replies(0, A, 1, 10).acks(&[]);
        run = run.frame(prepare_ok(0, 1, quorum - 1), last);
        runs.push(run.frame(prepare_ok(0, 1, n - 1), nothing()));
    }
    runs
}

/// Which acks count for nothing.
fn idle_acks() -> Vec<Example> {
    vec![
        with_two(
            3,
            "A PrepareOk of another view, of op 0 or of an op that isn't there changes nothing",
        )
        .frame(prepare_ok(1, 1, 1), nothing())
        .frame(prepare_ok(0, 0, 1), nothing())
        .frame(prepare_ok(0, 3, 1), nothing())
        .frame(prepare_ok(0, 8, 1), nothing())
        .frame(prepare_ok(0, 9, 1), refused(4)),
        fresh(
            3,
            1,
            "A backup takes no PrepareOk; one with o above L it refuses by 4 all the same",
        )
        .frame(
            prepare(0, 1, 0, A),
            normal(0, 1, 0).sends(&[0], prepare_ok(0, 1, 1)),
        )
        .frame(prepare_ok(0, 1, 0), nothing())
        .frame(prepare_ok(0, 1, 2), nothing())
        .frame(prepare_ok(0, 9, 2), refused(4)),
    ]
}

/// What the client table does with a Request.
fn requests() -> Vec<Example> {
    let later = Entry { request: 2, ..A };
    vec![
        fresh(3, 0, "An older request gives nothing; the latest one gives nothing before it is committed, and its reply afterwards")
            .frame(request(later), normal(0, 1, 0).sends(&[1, 2], prepare(0, 1, 0, later)))
            .frame(request(A), nothing())
            .frame(request(later), nothing())
            .frame(prepare_ok(0, 1, 2), normal(0, 1, 1).replies(0, later, 1, 10))
            .frame(request(A), nothing())
            .frame(request(later), normal(0, 1, 1).replies(0, later, 1, 10)),
        fresh(3, 0, "The kept reply is the client's, whatever else is committed meanwhile; a re-sent request isn't compared with the entry")
            .frame(request(A), normal(0, 1, 0).sends(&[1, 2], prepare(0, 1, 0, A)))
            .frame(prepare_ok(0, 1, 1), normal(0, 1, 1).replies(0, A, 1, 10))
            .frame(request(B), normal(0, 2, 1).sends(&[1, 2], prepare(0, 2, 1, B)))
            .frame(prepare_ok(0, 2, 1), normal(0, 2, 2).replies(0, B, 1, 30))
            .frame(request(A), normal(0, 2, 2).replies(0, A, 1, 10))
            .frame(request(Entry { cents: 77, ..A }), normal(0, 2, 2).replies(0, A, 1, 10)),
        fresh(3, 0, "A new request of a client: the reply to its older one is gone, though that is committed")
            .frame(request(A), normal(0, 1, 0).sends(&[1, 2], prepare(0, 1, 0, A)))
            .frame(prepare_ok(0, 1, 1), normal(0, 1, 1).replies(0, A, 1, 10))
            .frame(request(later), normal(0, 2, 1).sends(&[1, 2], prepare(0, 2, 1, later)))
            .frame(request(A), nothing())
            .frame(request(later), nothing()),
    ]
}

/// The same: more than one request, the last number there is, and a backup.
fn more_requests() -> Vec<Example> {
    let later = Entry { request: 2, ..A };
    let last = Entry {
        request: u64::MAX,
        ..A
    };
    vec![
        fresh(3, 0, "Two uncommitted requests of one client: both are replied to, and only the later reply is kept")
            .frame(request(A), normal(0, 1, 0).sends(&[1, 2], prepare(0, 1, 0, A)))
            .frame(request(later), normal(0, 2, 0).sends(&[1, 2], prepare(0, 2, 0, later)))
            .frame(prepare_ok(0, 2, 1), normal(0, 2, 2).replies(0, A, 1, 10).replies(0, later, 1, 20))
            .frame(request(A), nothing())
            .frame(request(later), normal(0, 2, 2).replies(0, later, 1, 20)),
        fresh(3, 0, "A request number of 2^64-1 is taken from the wire; no number of that client comes after it")
            .frame(request(last), normal(0, 1, 0).sends(&[1, 2], prepare(0, 1, 0, last)))
            .frame(request(A), nothing())
            .frame(prepare_ok(0, 1, 1), normal(0, 1, 1).replies(0, last, 1, 10))
            .frame(request(last), normal(0, 1, 1).replies(0, last, 1, 10)),
        fresh(3, 1, "A backup ignores a Request, also one that it has the reply to")
            .frame(request(A), nothing())
            .frame(prepare(0, 1, 1, A), normal(0, 1, 1).sends(&[0], prepare_ok(0, 1, 1)))
            .frame(request(A), nothing()),
    ]
}

/// The fee rules' outcomes, all but 5, for which a thousand fees are needed.
fn outcomes() -> Vec<Example> {
    let entry = |client, operation, member, cents| Entry {
        client,
        request: 0,
        operation,
        member,
        cents,
    };
    let fee = entry(1, FEE, 7, 1_000_000);
    let refund = entry(2, REFUND, 7, 1);
    let too_much = entry(3, REFUND, 7, 1_000_000);
    let ask = entry(4, ASK, 7, 0);
    let nobody = entry(5, FEE, 8, 1);
    let rest = entry(6, REFUND, 7, 999_999);
    let sent = |op: usize, e| {
        let commit = op - 1;
        normal(0, op as u64, commit as u64).sends(&[1, 2], prepare(0, op, commit, e))
    };
    let mut run = fresh(3, 0, "The fee rules: outcomes 1 to 4 and 6. Every committed entry is applied, whatever its outcome; member 8 of M = 8 \
        is 4, total 0");
    let all = [
        (fee, 1, 1_000_000),
        (refund, 2, 999_999),
        (too_much, 6, 999_999),
        (ask, 3, 999_999),
        (nobody, 4, 0),
        (rest, 2, 0),
    ];
    for (place, (entry, code, total)) in all.into_iter().enumerate() {
        let op = place + 1;
        let done = normal(0, op as u64, op as u64).replies(0, entry, code, total);
        run = run
            .frame(request(entry), sent(op, entry))
            .frame(prepare_ok(0, op, 1), done);
    }
    vec![run]
}

/// What a primary sends on a tick.
fn heartbeats() -> Vec<Example> {
    vec![
        with_two(3, "A primary's tick: Commit to all others, then each op that isn't committed is prepared again, op by op")
            .tick(normal(0, 2, 0).sends(&[1, 2], commit(0, 0)).sends(&[1, 2], prepare(0, 1, 0, A)).sends(&[1, 2], prepare(0, 2, 0, B)))
            .frame(prepare_ok(0, 1, 1), normal(0, 2, 1).replies(0, A, 1, 10))
            .tick(normal(0, 2, 1).sends(&[1, 2], commit(0, 1)).sends(&[1, 2], prepare(0, 2, 1, B)))
            .frame(prepare_ok(0, 2, 1), normal(0, 2, 2).replies(0, B, 1, 30))
            .tick(heartbeat(2)),
        fresh(3, 0, "A primary's tick is always a stable one, counted to T; it never waits")
            .tick(heartbeat(0).has(STABLE, 1).has(WAITING, 0))
            .tick(heartbeat(0).has(STABLE, 2))
            .tick(heartbeat(0).has(STABLE, 3))
            .tick(heartbeat(0).has(STABLE, 3)),
        fresh(3, 0, "A primary takes no Prepare and no Commit of its own view")
            .frame(prepare(0, 1, 0, A), nothing())
            .frame(commit(0, 0), nothing())
            .frame(commit(0, 5), nothing()),
    ]
}

pub fn all() -> Vec<Example> {
    [
        marked(),
        quorums(),
        idle_acks(),
        requests(),
        more_requests(),
        outcomes(),
        heartbeats(),
    ]
    .into_iter()
    .flatten()
    .collect()
}
