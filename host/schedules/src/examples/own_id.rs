//! A StartViewChange from our own id, which a loop in the network can send back to us: it never joins the set of those who ask for a
//! view. All else of the call is as for another sender.

use super::*;

/// Replica 1 of 3 with an empty log begins the view change to this view, with nobody in the set and nothing reported.
fn begins(view: usize) -> Expect {
    let begun = change(view, 0, 0).sends(&[0, 2], start_view_change(view, 1));
    begun.has(STARTS, 0).has(SENT, 0).has(REPORTS, 0)
}

/// The DoViewChange of replica 1 with an empty log.
fn report(view: usize) -> Fees {
    do_view_change(view, 1, 0, &[], 0)
}

/// Who is counted.
fn never_counted() -> Vec<Example> {
    let looped = || change(1, 0, 0).sends(&[0, 1], start_view_change(1, 2));
    vec![
        fresh(3, 1, "A StartViewChange from our own id never joins the set: of a later view it starts the view change, and the DoViewChange waits \
            for another's")
            .frame(start_view_change(2, 1), begins(2))
            .frame(start_view_change(2, 0), change(2, 0, 0).sends(&[2], report(2)).has(STARTS, 1).has(SENT, 1)),
        fresh(3, 2, "A loop gives us back our own StartViewChange: it changes nothing, however often, and a tick sends no DoViewChange")
            .frame(start_view_change(1, 2), looped().has(STARTS, 0))
            .frame(start_view_change(1, 2), nothing())
            .tick(looped().has(STARTS, 0).has(SENT, 0))
            .frame(start_view_change(1, 2), nothing())
            .frame(start_view_change(1, 0), change(1, 0, 0).sends(&[1], do_view_change(1, 2, 0, &[], 0)).has(STARTS, 1))
            .frame(start_view_change(1, 2), nothing()),
        fresh(3, 0, "A primary of a started view sends StartView to itself on a StartViewChange from its own id, and ignores it")
            .frame(start_view_change(0, 0), normal(0, 0, 0).sends(&[0], start_view(0, &[], 0)))
            .frame(start_view(0, &[], 0), nothing()),
        fresh(3, 1, "A backup, in Normal or in StateTransfer: of its view a StartViewChange from its own id changes nothing, a later one starts \
            the view change")
            .frame(start_view_change(0, 1), nothing())
            .frame(prepare(0, 2, 0, B), transfer(0, 0, 0).sends(&[0], get_state(1, 0, 0)))
            .frame(start_view_change(0, 1), nothing())
            .frame(start_view_change(2, 1), begins(2))
            .frame(start_view_change(1, 1), nothing()),
    ]
}

/// Replica 1 of `n`: it and fewer than n/2 others are too few, at even n too.
fn needed_of(n: usize) -> Example {
    let others: Vec<usize> = (0..n).filter(|id| *id != 1).collect();
    let begun = change(2, 0, 0).sends(&others, start_view_change(2, 1));
    let need = n / 2;
    let title = format!(
        "Of {n} replicas StartViewChange is needed from {need} others; our own id is none of them"
    );
    let mut run = fresh(n, 1, &title).frame(start_view_change(2, 1), begun.has(STARTS, 0));
    let mut held = 0;
    for (before, sender) in others.iter().enumerate().take(need) {
        held |= 1 << sender;
        let mut wanted = change(2, 0, 0).has(STARTS, held);
        if before + 1 == need {
            wanted = wanted.sends(&[2], report(2)).has(SENT, 1);
        }
        run = run.frame(start_view_change(2, *sender), wanted);
        run = run.frame(start_view_change(2, 1), nothing());
    }
    run
}

/// The view is one that we lead, so that our report is stored with us.
fn primary_to_be() -> Vec<Example> {
    vec![
        sized(3, 1, 1, 8, "A view change that we started ourselves doesn't count us, nor does a StartViewChange from our own id: our report is \
            stored once another asks")
            .tick(normal(0, 0, 0))
            .tick(begins(1))
            .frame(start_view_change(1, 1), nothing())
            .frame(start_view_change(1, 0), change(1, 0, 0).has(STARTS, 1).has(SENT, 1).stores(&[report(1)])),
        fresh(3, 1, "A StartViewChange from our own id doesn't complete a quorum of DoViewChanges; another's does, by our report")
            .frame(do_view_change(1, 2, 0, &[A], 0), change(1, 0, 0).sends(&[0, 2], start_view_change(1, 1)).has(REPORTS, 4))
            .frame(start_view_change(1, 1), nothing())
            .frame(start_view_change(1, 0), normal(1, 1, 0).sends(&[0, 2], start_view(1, &[A], 0)).log(&[A])),
        fresh(3, 1, "Where another's StartViewChange is 7, one from our own id is done: our report isn't looked at")
            .frame(prepare(0, 1, 1, A), normal(0, 1, 1).sends(&[0], prepare_ok(0, 1, 1)))
            .frame(do_view_change(1, 0, 1, &[], 0), change(1, 1, 1).sends(&[0, 2], start_view_change(1, 1)))
            .frame(start_view_change(1, 2), refused(7))
            .frame(start_view_change(1, 1), nothing()),
    ]
}

/// A later view, and catching up.
fn moves_on() -> Vec<Example> {
    let asks = || change(2, 0, 0).sends(&[2], get_state(1, 2, 0));
    vec![
        fresh(3, 1, "A later view from our own id raises the attempts in ViewChange, and the set begins anew, empty")
            .frame(start_view_change(2, 0), change(2, 0, 0).sends(&[0, 2], start_view_change(2, 1)).sends(&[2], report(2)).has(STARTS, 1)
                .has(ATTEMPTS, 0))
            .frame(start_view_change(3, 1), begins(3).has(ATTEMPTS, 1))
            .frame(start_view_change(5, 1), begins(5).has(ATTEMPTS, 2))
            .frame(start_view_change(5, 2), change(5, 0, 0).sends(&[2], report(5)).has(STARTS, 4)),
        fresh(3, 1, "Catching up, a StartViewChange of that view from our own id changes nothing; a later one ends it and starts the view change")
            .frame(commit(2, 0), asks().has(CATCHING_UP, 1))
            .frame(start_view_change(2, 1), nothing())
            .frame(start_view_change(2, 0), change(2, 0, 0).has(STARTS, 1).has(SENT, 0))
            .frame(start_view_change(3, 1), begins(3).has(CATCHING_UP, 0).has(ATTEMPTS, 1))
            .frame(start_view_change(3, 2), change(3, 0, 0).sends(&[0], report(3)).has(STARTS, 4)),
    ]
}

pub fn all() -> Vec<Example> {
    let needed = (4..8).map(needed_of).collect();
    let parts = [never_counted(), needed, primary_to_be(), moves_on()];
    parts.into_iter().flatten().collect()
}
