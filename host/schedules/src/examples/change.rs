//! How a view change starts, who is counted, and how long it waits.

use super::*;

/// Replica 1 of 3 with an empty log begins the view change to this view.
fn begins(view: usize) -> Expect {
    change(view, 0, 0).sends(&[0, 2], start_view_change(view, 1))
}

/// The same, and a StartViewChange was counted: its DoViewChange goes to the view's primary.
fn begins_and_reports(view: usize, to: usize) -> Expect {
    begins(view).sends(&[to], do_view_change(view, 1, 0, &[], 0))
}

fn timeouts() -> Vec<Example> {
    let silent = || normal(0, 0, 0);
    vec![
        fresh(
            3,
            1,
            "Marked example: T = 3, ticks only: views 1, 2, 3, 4 begin at ticks 4, 7, 13, 25",
        )
        .tick(silent().has(HEARD, 0).has(STABLE, 1))
        .ticks(2, silent)
        .tick(begins(1).has(ATTEMPTS, 0).has(WAITING, 0))
        .ticks(2, || begins(1))
        .tick(begins(2).has(ATTEMPTS, 1))
        .ticks(5, || begins(2))
        .tick(begins(3).has(ATTEMPTS, 2))
        .ticks(11, || begins(3))
        .tick(begins(4).has(ATTEMPTS, 3)),
        sized(3, 1, 1, 8, "T = 1: views 1 to 4 begin at ticks 2, 3, 5, 9")
            .tick(silent())
            .tick(begins(1))
            .tick(begins(2))
            .tick(begins(2))
            .tick(begins(3))
            .ticks(3, || begins(3))
            .tick(begins(4)),
        sized(7, 6, 65535, 8, "T = 65,535: a silent backup only waits")
            .tick(silent().has(WAITING, 0))
            .tick(silent().has(WAITING, 1))
            .tick(silent().has(WAITING, 2)),
    ]
}

/// The count of attempts, and of stable ticks.
fn attempts() -> Vec<Example> {
    vec![
        sized(3, 1, 2, 8, "Attempts rise only when a view change starts from ViewChange; the doubled wait holds in Normal too: 4 ticks with T = 2")
            .frame(start_view_change(2, 0), begins_and_reports(2, 2).has(ATTEMPTS, 0))
            .frame(start_view_change(3, 0), begins_and_reports(3, 0).has(ATTEMPTS, 1))
            .frame(start_view(3, &[], 0), normal(3, 0, 0).sends(&[0], prepare_ok(3, 0, 1)).has(ATTEMPTS, 1).has(STABLE, 0))
            .tick(normal(3, 0, 0).has(STABLE, 1).has(ATTEMPTS, 1))
            .tick(normal(3, 0, 0).has(STABLE, 0).has(WAITING, 1))
            .ticks(2, || normal(3, 0, 0))
            .tick(change(4, 0, 0).sends(&[0, 2], start_view_change(4, 1)).has(ATTEMPTS, 1)),
        sized(3, 1, 2, 8, "Attempts fall to 0 after T stable ticks in a row, here T = 2; a waiting tick between them begins the count anew")
            .frame(start_view_change(2, 0), begins_and_reports(2, 2))
            .frame(start_view_change(3, 0), begins_and_reports(3, 0).has(ATTEMPTS, 1))
            .frame(start_view(3, &[], 0), normal(3, 0, 0).sends(&[0], prepare_ok(3, 0, 1)))
            .tick(normal(3, 0, 0).has(STABLE, 1))
            .tick(normal(3, 0, 0).has(STABLE, 0).has(WAITING, 1))
            .frame(commit(3, 0), normal(3, 0, 0))
            .tick(normal(3, 0, 0).has(STABLE, 1).has(ATTEMPTS, 1).has(WAITING, 0))
            .frame(commit(3, 0), normal(3, 0, 0))
            .tick(normal(3, 0, 0).has(STABLE, 2).has(ATTEMPTS, 0)),
        fresh(3, 2, "Catching up is ViewChange: a view change that starts from it, by tick 3, raises the attempts; catching up itself doesn't")
            .frame(commit(1, 0), change(1, 0, 0).sends(&[1], get_state(2, 1, 0)).has(ATTEMPTS, 0))
            .frame(commit(4, 0), change(4, 0, 0).sends(&[1], get_state(2, 4, 0)).has(ATTEMPTS, 0))
            .ticks(2, || change(4, 0, 0).sends(&[1], get_state(2, 4, 0)))
            .tick(change(5, 0, 0).sends(&[0, 1], start_view_change(5, 2)).has(ATTEMPTS, 1).has(CATCHING_UP, 0)),
        fresh(3, 1, "Stable ticks stay as they are when a view change starts, and fall to 0 on coming to Normal from it")
            .tick(normal(0, 0, 0).has(STABLE, 1))
            .frame(start_view_change(2, 0), begins_and_reports(2, 2).has(STABLE, 1))
            .tick(begins_and_reports(2, 2).has(STABLE, 1))
            .frame(start_view(2, &[], 0), normal(2, 0, 0).sends(&[2], prepare_ok(2, 0, 1)).has(STABLE, 0)),
        ten_attempts(),
    ]
}

/// View changes that never end, each started by another one's StartViewChange.
fn ten_attempts() -> Example {
    let mut run = sized(5, 1, 1, 8, "Attempts are counted to 10");
    for view in 1..14 {
        let attempts = (view as u64 - 1).min(10);
        let began = change(view, 0, 0).sends(&[0, 2, 3, 4], start_view_change(view, 1));
        run = run.frame(start_view_change(view, 0), began.has(ATTEMPTS, attempts));
    }
    run
}

/// StartViewChange to replica n-1: n/2 distinct ids, and then the DoViewChange.
fn counted_of(n: usize) -> Example {
    let (id, need) = (n - 1, n / 2);
    let others: Vec<usize> = (0..id).collect();
    let report = || do_view_change(1, id, 0, &[], 0);
    let mut run = fresh(n, id, &format!("DoViewChange goes out once StartViewChange is held from n/2 = {need} of {n}; one sender counts once"));
    let (mut held, senders) = (0, [0, 2, 3]);
    for count in 1..=need {
        held |= 1 << senders[count - 1];
        let mut wanted = change(1, 0, 0).has(STARTS, held);
        if count == 1 {
            wanted = wanted.sends(&others, start_view_change(1, id));
        }
        if count == need {
            wanted = wanted.sends(&[1], report()).has(SENT, 1);
        }
        run = run.frame(start_view_change(1, senders[count - 1]), wanted);
        run = run.frame(start_view_change(1, senders[count - 1]), nothing());
    }
    let one_more = change(1, 0, 0).has(STARTS, held | 2);
    let again = change(1, 0, 0).sends(&others, start_view_change(1, id));
    run.frame(start_view_change(1, 1), one_more)
        .tick(again.sends(&[1], report()))
}

/// What is of no use to a view change.
fn dropped() -> Vec<Example> {
    vec![
        fresh(3, 1, "A DoViewChange of a later view is dropped unless we lead it: views 2 and 3 no, view 4 yes")
            .frame(do_view_change(2, 0, 0, &[], 0), nothing())
            .frame(do_view_change(3, 2, 0, &[], 0), nothing())
            .frame(do_view_change(4, 0, 0, &[], 0), begins(4).has(REPORTS, 1)),
        fresh(3, 1, "StartViewChange, DoViewChange and StartView of an older view are ignored, in ViewChange and in Normal")
            .frame(start_view_change(5, 0), begins_and_reports(5, 2))
            .frame(start_view_change(4, 0), nothing())
            .frame(do_view_change(4, 0, 0, &[A], 0), nothing())
            .frame(start_view(4, &[A], 0), nothing())
            .frame(start_view(5, &[], 0), normal(5, 0, 0).sends(&[2], prepare_ok(5, 0, 1)))
            .frame(start_view_change(4, 0), nothing())
            .frame(do_view_change(4, 0, 0, &[A], 0), nothing())
            .frame(start_view(4, &[A], 0), nothing()),
        fresh(3, 1, "A StartView of our own view in Normal is ignored: it must not replace a log that has grown")
            .frame(start_view(2, &[A], 0), normal(2, 1, 0).sends(&[2], prepare_ok(2, 1, 1)))
            .frame(prepare(2, 2, 0, B), normal(2, 2, 0).sends(&[2], prepare_ok(2, 2, 1)))
            .frame(start_view(2, &[A], 1), nothing()),
        fresh(3, 1, "Catching up, a StartViewChange of that view is counted, and no DoViewChange goes out; votes from before are forgotten")
            .frame(start_view_change(2, 0), begins_and_reports(2, 2).has(STARTS, 1).has(SENT, 1))
            .frame(commit(2, 0), change(2, 0, 0).sends(&[2], get_state(1, 2, 0)).has(STARTS, 0).has(SENT, 0))
            .frame(start_view_change(2, 2), change(2, 0, 0).has(STARTS, 4).has(SENT, 0))
            .tick(change(2, 0, 0).sends(&[2], get_state(1, 2, 0))),
        fresh(3, 1, "Catching up with a view that we lead, a quorum of DoViewChanges starts it all the same")
            .frame(commit(1, 0), change(1, 0, 0).sends(&[1], get_state(1, 1, 0)))
            .frame(do_view_change(1, 0, 0, &[A], 0), change(1, 0, 0).has(REPORTS, 1).has(CATCHING_UP, 1))
            .frame(do_view_change(1, 2, 0, &[], 0), normal(1, 1, 0).sends(&[0, 2], start_view(1, &[A], 0)).has(CATCHING_UP, 0)),
        fresh(3, 1, "The DoViewChange says in which view we were normal last, our log and our commit number")
            .frame(start_view(2, &[A, B], 1), normal(2, 2, 1).sends(&[2], prepare_ok(2, 2, 1)).has(LAST_NORMAL, 2))
            .frame(start_view_change(3, 2), change(3, 2, 1).sends(&[0, 2], start_view_change(3, 1))
                .sends(&[0], do_view_change(3, 1, 2, &[A, B], 1)))
            .frame(start_view_change(5, 0), change(5, 2, 1).sends(&[0, 2], start_view_change(5, 1))
                .sends(&[2], do_view_change(5, 1, 2, &[A, B], 1)).has(LAST_NORMAL, 2)),
    ]
}

/// Views 4,294,967,294 and 4,294,967,295, which replicas 2 and 0 of three lead.
fn last_views() -> Vec<Example> {
    let waits = |title: &str| sized(3, 1, 2, 8, title);
    let asks = || change(LAST_VIEW, 0, 0).sends(&[0], get_state(1, LAST_VIEW, 0));
    let started = |title: &str| {
        waits(title).frame(
            start_view(LAST_VIEW, &[], 0),
            normal(LAST_VIEW, 0, 0).sends(&[0], prepare_ok(LAST_VIEW, 0, 1)),
        )
    };
    vec![
        started("View 4,294,967,295 by StartView is accepted; the tick that would leave it is 8, and each one after it, until the primary is \
            heard")
            .tick(normal(LAST_VIEW, 0, 0).has(HEARD, 0))
            .tick(normal(LAST_VIEW, 0, 0).has(WAITING, 1))
            .tick(refused(8))
            .tick(refused(8))
            .frame(commit(LAST_VIEW, 0), normal(LAST_VIEW, 0, 0).has(WAITING, 1))
            .tick(normal(LAST_VIEW, 0, 0).has(WAITING, 0)),
        waits("View 4,294,967,295 by StartViewChange: its messages go out again on the tick before, none on the one that is 8")
            .frame(start_view_change(LAST_VIEW, 2), begins_and_reports(LAST_VIEW, 0))
            .tick(begins_and_reports(LAST_VIEW, 0).has(WAITING, 1))
            .tick(refused(8))
            .tick(refused(8)),
        waits("View 4,294,967,295 by Commit, caught up with: 8 in the same way")
            .frame(commit(LAST_VIEW, 0), asks())
            .tick(asks())
            .tick(refused(8))
            .frame(new_state(LAST_VIEW, 0, &[A], 1), normal(LAST_VIEW, 1, 1).sends(&[0], prepare_ok(LAST_VIEW, 1, 1))),
        waits("View 4,294,967,295 by Prepare").frame(prepare(LAST_VIEW, 1, 0, A), asks()),
        waits("View 4,294,967,295 by Recovery").frame(recovery(0, 1, LAST_VIEW), begins(LAST_VIEW)).tick(begins(LAST_VIEW)).tick(refused(8)),
    ]
}

/// The same: led, in StateTransfer, and from the view before it.
fn leaving() -> Vec<Example> {
    let waits = |title: &str| sized(3, 1, 2, 8, title);
    let asks = || transfer(LAST_VIEW, 0, 0).sends(&[0], get_state(1, LAST_VIEW, 0));
    vec![
        sized(
            3,
            0,
            1,
            8,
            "View 4,294,967,295 led: a primary's ticks don't leave it",
        )
        .frame(
            do_view_change(LAST_VIEW, 1, 0, &[], 0),
            change(LAST_VIEW, 0, 0).sends(&[1, 2], start_view_change(LAST_VIEW, 0)),
        )
        .tick(refused(8))
        .frame(
            do_view_change(LAST_VIEW, 2, 0, &[], 0),
            normal(LAST_VIEW, 0, 0).sends(&[1, 2], start_view(LAST_VIEW, &[], 0)),
        )
        .ticks(3, || {
            normal(LAST_VIEW, 0, 0).sends(&[1, 2], commit(LAST_VIEW, 0))
        }),
        waits("8 in StateTransfer: the tick's GetState isn't sent either")
            .frame(
                start_view(LAST_VIEW, &[], 0),
                normal(LAST_VIEW, 0, 0).sends(&[0], prepare_ok(LAST_VIEW, 0, 1)),
            )
            .frame(prepare(LAST_VIEW, 2, 0, A), asks())
            .tick(asks().has(HEARD, 0))
            .tick(asks().has(WAITING, 1))
            .tick(refused(8)),
        waits("From view 4,294,967,294 a tick still moves on, once")
            .frame(
                start_view(LAST_VIEW - 1, &[], 0),
                normal(LAST_VIEW - 1, 0, 0).sends(&[2], prepare_ok(LAST_VIEW - 1, 0, 1)),
            )
            .ticks(2, || normal(LAST_VIEW - 1, 0, 0))
            .tick(begins(LAST_VIEW))
            .tick(begins(LAST_VIEW))
            .tick(refused(8)),
    ]
}

pub fn all() -> Vec<Example> {
    let counted = (3..8).map(counted_of).collect();
    let votes = [counted, dropped()];
    let clock = [timeouts(), attempts()];
    let last = [last_views(), leaving()];
    clock
        .into_iter()
        .chain(votes)
        .chain(last)
        .flatten()
        .collect()
}
