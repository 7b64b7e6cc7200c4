//! A quorum of DoViewChanges: which log is chosen, what is committed, what is refused by 7, and what the new primary sends.

use super::*;

/// Replica 0 of 3 begins view 3, which it leads, on a first DoViewChange.
fn begins() -> Expect {
    change(3, 0, 0).sends(&[1, 2], start_view_change(3, 0))
}

/// View 3 starts with this log, none of it committed.
fn starts(log: &[Entry]) -> Expect {
    let started = normal(3, log.len() as u64, 0).sends(&[1, 2], start_view(3, log, 0));
    started.log(log)
}

fn chosen() -> Vec<Example> {
    let from = |sender, last, log: &[Entry]| do_view_change(3, sender, last, log, 0);
    let two = |title: &str, first: Fees, second: Fees, log: &[Entry]| {
        fresh(3, 0, title)
            .frame(first, begins())
            .frame(second, starts(log))
    };
    vec![
        two("Chosen log: two logs of equal view and length, the highest id's is taken", from(1, 0, &[A]), from(2, 0, &[B]), &[B]),
        two("Chosen log: the same tie when the highest id reports first", from(2, 0, &[B]), from(1, 0, &[A]), &[B]),
        two("Chosen log: within one last normal view the longer one, though of a lower id", from(2, 0, &[A]), from(1, 0, &[B, C]), &[B, C]),
        two("Chosen log: a later last normal view with a shorter log comes before a longer log", from(2, 1, &[A]), from(1, 0, &[B, C]), &[A]),
        two("Chosen log: a later last normal view with a shorter log, of the lower id, reported last", from(2, 0, &[B, C]), from(1, 1, &[A]), &[A]),
        two("Chosen log: a later last normal view with an empty log", from(2, 0, &[B, C]), from(1, 2, &[]), &[]),
        fresh(3, 0, "Surprise: the quorum needn't hold our own report, so view 3 starts empty though our log has A")
            .frame(request(A), normal(0, 1, 0).sends(&[1, 2], prepare(0, 1, 0, A)))
            .frame(from(1, 0, &[]), change(3, 1, 0).sends(&[1, 2], start_view_change(3, 0)).has(REPORTS, 2))
            .frame(from(2, 0, &[]), starts(&[]).acks(&[])),
        fresh(3, 0, "Our own report ties with a higher id's: the other log is taken, and ours goes")
            .frame(request(A), normal(0, 1, 0).sends(&[1, 2], prepare(0, 1, 0, A)))
            .frame(start_view_change(3, 2), change(3, 1, 0).sends(&[1, 2], start_view_change(3, 0)).has(REPORTS, 1))
            .frame(from(1, 0, &[B]), starts(&[B]).acks(&[(1, 1)])),
        fresh(3, 2, "Our own report ties with a lower id's: ours is taken")
            .frame(prepare(0, 1, 0, A), normal(0, 1, 0).sends(&[0], prepare_ok(0, 1, 2)))
            .frame(start_view_change(2, 0), change(2, 1, 0).sends(&[0, 1], start_view_change(2, 2)).has(REPORTS, 4))
            .frame(do_view_change(2, 0, 0, &[B], 0), normal(2, 1, 0).sends(&[0, 1], start_view(2, &[A], 0)).log(&[A])),
        fresh(3, 0, "A later report of a sender replaces its earlier one, and doesn't count twice; our own id counts")
            .frame(from(2, 0, &[A, B]), begins().stores(&[from(2, 0, &[A, B])]))
            .frame(from(2, 1, &[C]), change(3, 0, 0).stores(&[from(2, 1, &[C])]))
            .frame(from(0, 0, &[]), starts(&[C])),
    ]
}

/// A quorum that our own report completes.
fn completed() -> Example {
    let begun = change(1, 0, 0).sends(&[0, 2], start_view_change(1, 1));
    let started = normal(1, 1, 0).sends(&[0, 2], start_view(1, &[A], 0));
    fresh(
        3,
        1,
        "A DoViewChange quorum completed by our own report, which a StartViewChange brings about",
    )
    .frame(do_view_change(1, 2, 0, &[A], 0), begun.has(REPORTS, 4))
    .frame(
        start_view_change(1, 0),
        started.acks(&[(1, 2)]).has(LAST_NORMAL, 1),
    )
}

/// How many reports it takes of `n` replicas.
fn quorum_of(n: usize) -> Example {
    let quorum = n / 2 + 1;
    let others: Vec<usize> = (0..n).filter(|id| *id != 1).collect();
    let mut run = fresh(n, 1, &format!("Of {n} replicas {quorum} DoViewChanges start the view, whose uncommitted ops have the primary's own ack"));
    let mut held = 0;
    for (count, sender) in others.iter().enumerate().take(quorum) {
        held |= 1 << sender;
        let begun = change(1, 0, 0).has(REPORTS, held);
        let wanted = match count + 1 {
            1 => begun.sends(&others, start_view_change(1, 1)),
            count if count < quorum => begun,
            _ => normal(1, 2, 0)
                .sends(&others, start_view(1, &[A, B], 0))
                .acks(&[(1, 2), (2, 2)]),
        };
        run = run.frame(do_view_change(1, *sender, 0, &[A, B], 0), wanted);
    }
    run
}

/// Both.
fn quorums() -> Vec<Example> {
    let sizes = (3..8).map(quorum_of);
    std::iter::once(completed()).chain(sizes).collect()
}

/// The commit number, and the replies.
fn committed() -> Vec<Example> {
    let all = &[1, 2, 3, 4];
    vec![
        fresh(5, 0, "The commit number is the greatest of all reports, not the chosen one's; the commits are replied to, with the new view")
            .frame(do_view_change(5, 1, 0, &[A, B], 2), change(5, 0, 0).sends(all, start_view_change(5, 0)))
            .frame(do_view_change(5, 2, 1, &[A, B], 1), change(5, 0, 0).stores(&[do_view_change(5, 1, 0, &[A, B], 2),
                do_view_change(5, 2, 1, &[A, B], 1)]))
            .frame(do_view_change(5, 4, 1, &[A, B, C], 0), normal(5, 3, 2).sends(all, start_view(5, &[A, B, C], 2)).replies(5, A, 1, 10)
                .replies(5, B, 1, 30).acks(&[(3, 1)]))
            .frame(prepare_ok(5, 3, 1), normal(5, 3, 2).acks(&[(3, 3)]))
            .frame(prepare_ok(5, 3, 4), normal(5, 3, 3).replies(5, C, 1, 60)),
        fresh(3, 1, "Our commit number doesn't fall, though the reports say 0; what was committed before isn't replied to again")
            .frame(prepare(0, 1, 1, A), normal(0, 1, 1).sends(&[0], prepare_ok(0, 1, 1)))
            .frame(do_view_change(1, 0, 0, &[A, B], 0), change(1, 1, 1).sends(&[0, 2], start_view_change(1, 1)))
            .frame(do_view_change(1, 2, 0, &[A], 0), normal(1, 2, 1).sends(&[0, 2], start_view(1, &[A, B], 1)).acks(&[(2, 2)])),
        fresh(3, 1, "Entries that a quorum commits are replied to by the new primary, and the reply is kept for a re-sent request")
            .frame(prepare(0, 1, 0, A), normal(0, 1, 0).sends(&[0], prepare_ok(0, 1, 1)))
            .frame(do_view_change(1, 0, 0, &[A], 1), change(1, 1, 0).sends(&[0, 2], start_view_change(1, 1)))
            .frame(start_view_change(1, 2), normal(1, 1, 1).sends(&[0, 2], start_view(1, &[A], 1)).replies(1, A, 1, 10).acks(&[]))
            .frame(request(A), normal(1, 1, 1).replies(1, A, 1, 10)),
    ]
}

/// Replica 1 of 3 with A committed begins view 1, which it leads, on this DoViewChange of 0.
fn with_a(title: &str, log: &[Entry], last: usize) -> Example {
    fresh(3, 1, title)
        .frame(
            prepare(0, 1, 1, A),
            normal(0, 1, 1).sends(&[0], prepare_ok(0, 1, 1)),
        )
        .frame(
            do_view_change(1, 0, last, log, 0),
            change(1, 1, 1)
                .sends(&[0, 2], start_view_change(1, 1))
                .has(REPORTS, 1),
        )
}

/// Refusal 7 at a quorum, by each of its causes; the whole call is undone, and another report completes the same quorum.
fn refused_by_7() -> Vec<Example> {
    let other_cents = Entry { cents: 11, ..A };
    let other_member = Entry { member: 4, ..A };
    let starts = |log: &[Entry], commit| {
        normal(1, log.len() as u64, commit as u64)
            .sends(&[0, 2], start_view(1, log, commit))
            .log(log)
    };
    vec![
        with_a("7: the chosen log would shorten the committed entries; the report isn't stored, another one completes the quorum", &[], 0)
            .frame(do_view_change(1, 2, 0, &[], 0), refused(7))
            .frame(do_view_change(1, 2, 0, &[], 0), refused(7))
            .frame(do_view_change(1, 2, 0, &[A], 0), starts(&[A], 1)),
        with_a("7: the chosen log would alter a committed entry: another client's, then other cents, another member; [A, B] is good", &[], 0)
            .frame(do_view_change(1, 2, 0, &[B], 0), refused(7))
            .frame(do_view_change(1, 2, 0, &[other_cents, B], 1), refused(7))
            .frame(do_view_change(1, 2, 0, &[other_member], 1), refused(7))
            .frame(do_view_change(1, 2, 0, &[A, B], 1), starts(&[A, B], 1)),
        with_a("7 is about the chosen log alone: a report that alters is harmless while a longer one is chosen", &[B], 0)
            .frame(do_view_change(1, 2, 0, &[A, B], 1), starts(&[A, B], 1)),
        fresh(3, 0, "7: the greatest commit number passes the chosen log; with a report whose log reaches that far view 3 starts")
            .frame(do_view_change(3, 1, 1, &[], 0), begins())
            .frame(do_view_change(3, 2, 0, &[A], 1), refused(7))
            .frame(do_view_change(3, 2, 1, &[A], 1), normal(3, 1, 1).sends(&[1, 2], start_view(3, &[A], 1)).replies(3, A, 1, 10)),
        fresh(3, 0, "7: the stored report has the greatest commit number, the one that comes is chosen and shorter; a longer one of that view \
            is taken")
            .frame(do_view_change(3, 2, 0, &[A, B], 2), begins())
            .frame(do_view_change(3, 1, 1, &[A], 0), refused(7))
            .frame(do_view_change(3, 1, 1, &[A, C], 0), normal(3, 2, 2).sends(&[1, 2], start_view(3, &[A, C], 2)).replies(3, A, 1, 10)
                .replies(3, C, 1, 40)),
        with_a("7 on a StartViewChange: our own report would complete a quorum that shortens; it isn't counted, and is 7 again until the other \
            report is replaced", &[], 1)
            .frame(start_view_change(1, 2), refused(7))
            .frame(start_view_change(1, 0), refused(7))
            .frame(do_view_change(1, 0, 0, &[A], 0), change(1, 1, 1).has(REPORTS, 1).has(STARTS, 0))
            .frame(start_view_change(1, 2), starts(&[A], 1)),
    ]
}

/// A view that has started: its primary sends StartView again to whoever asks.
fn sent_again() -> Vec<Example> {
    let again = |to: usize| normal(3, 1, 0).sends(&[to], start_view(3, &[A], 0));
    vec![
        fresh(3, 0, "StartView is sent again to a StartViewChange or DoViewChange of a started view, by its primary, also to ourselves")
            .frame(do_view_change(3, 1, 0, &[A], 0), begins())
            .frame(do_view_change(3, 2, 0, &[], 0), starts(&[A]))
            .frame(start_view_change(3, 1), again(1))
            .frame(do_view_change(3, 2, 0, &[B, C], 2), again(2))
            .frame(start_view_change(3, 0), again(0))
            .frame(start_view_change(2, 1), nothing()),
        fresh(3, 0, "A fresh primary too: view 0 has started, with an empty log")
            .frame(start_view_change(0, 2), normal(0, 0, 0).sends(&[2], start_view(0, &[], 0)))
            .frame(do_view_change(0, 1, 0, &[], 0), normal(0, 0, 0).sends(&[1], start_view(0, &[], 0))),
        fresh(3, 2, "A backup of a started view sends nothing to either")
            .frame(start_view(3, &[A], 0), normal(3, 1, 0).sends(&[0], prepare_ok(3, 1, 2)))
            .frame(start_view_change(3, 1), nothing())
            .frame(do_view_change(3, 1, 0, &[], 0), nothing()),
    ]
}

/// Replica 0 of 5 with A as op 1 changes to view 5; its own report is stored, then replaced by an empty one in its name.
fn replaced(title: &str) -> Example {
    let all = &[1, 2, 3, 4];
    let own = |log: &[Entry]| do_view_change(5, 0, 0, log, 0);
    fresh(5, 0, title)
        .frame(request(A), normal(0, 1, 0).sends(all, prepare(0, 1, 0, A)))
        .frame(
            start_view_change(5, 1),
            change(5, 1, 0)
                .sends(all, start_view_change(5, 0))
                .has(SENT, 0)
                .has(REPORTS, 0),
        )
        .frame(
            start_view_change(5, 2),
            change(5, 1, 0).has(SENT, 1).stores(&[own(&[A])]),
        )
        .frame(own(&[]), change(5, 1, 0).stores(&[own(&[])]))
}

fn own_report() -> Vec<Example> {
    let all = &[1, 2, 3, 4];
    let starts = |log: &[Entry]| {
        normal(5, log.len() as u64, 0)
            .sends(all, start_view(5, log, 0))
            .log(log)
    };
    vec![
        replaced(
            "A primary-to-be stores its own DoViewChange again on each tick: our A counts again",
        )
        .tick(
            change(5, 1, 0)
                .sends(all, start_view_change(5, 0))
                .stores(&[do_view_change(5, 0, 0, &[A], 0)]),
        )
        .frame(
            do_view_change(5, 1, 0, &[], 0),
            change(5, 1, 0).has(REPORTS, 3),
        )
        .frame(do_view_change(5, 2, 0, &[], 0), starts(&[A]).stores(&[])),
        replaced(
            "A primary-to-be without a tick between: the report in our name stands, and A is gone",
        )
        .frame(
            do_view_change(5, 1, 0, &[], 0),
            change(5, 1, 0).has(REPORTS, 3),
        )
        .frame(do_view_change(5, 2, 0, &[], 0), starts(&[])),
    ]
}

pub fn all() -> Vec<Example> {
    let parts = [
        chosen(),
        quorums(),
        committed(),
        refused_by_7(),
        sent_again(),
        own_report(),
    ];
    parts.into_iter().flatten().collect()
}
