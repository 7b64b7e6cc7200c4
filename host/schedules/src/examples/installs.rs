//! StartView: what is installed, what is refused, and what becomes of the client table.

use super::*;

/// Normal with this log in a view that replica `to` leads, acknowledged to it by replica 1.
fn installed(view: usize, log: &[Entry], commit: u64, to: usize) -> Expect {
    let done = normal(view, log.len() as u64, commit).sends(&[to], prepare_ok(view, log.len(), 1));
    done.log(log)
}

fn sizes() -> Vec<Example> {
    let clients = |count| {
        (0..count)
            .map(|client| fee(client, 0))
            .collect::<Vec<Entry>>()
    };
    let one_client = |count| {
        (0..count)
            .map(|request| fee(1, request))
            .collect::<Vec<Entry>>()
    };
    vec![
        fresh(3, 1, "Marked example: a rising log of L = 8 entries in a StartView of view 1 is installed; L+1 is 4")
            .frame(start_view(1, &clients(9), 0), refused(4))
            .frame(start_view(1, &clients(8), 0), installed(1, &clients(8), 0, 1)),
        fresh(3, 1, "A StartView of L = 8 requests of one client, all committed, is installed; then a Request is 4, and the last one's reply is \
            there")
            .frame(start_view(1, &one_client(9), 9), refused(4))
            .frame(start_view(1, &one_client(8), 8), installed(1, &one_client(8), 8, 1))
            .frame(request(fee(2, 0)), refused(4))
            .frame(request(fee(1, 7)), normal(1, 8, 8).replies(1, fee(1, 7), 1, 828)),
        sized(3, 1, 3, 1, "L = 1: a log of one entry is installed, two are 4")
            .frame(start_view(1, &[A, B], 0), refused(4))
            .frame(start_view(1, &[A], 1), installed(1, &[A], 1, 1)),
    ]
}

fn steps() -> Vec<Example> {
    vec![
        fresh(3, 1, "After StartView the PrepareOk goes out always, also with nothing uncommitted, and with an empty log; commits send no reply")
            .frame(start_view(2, &[], 0), installed(2, &[], 0, 2))
            .frame(start_view(5, &[A, B], 2), installed(5, &[A, B], 2, 2).has(LAST_NORMAL, 5)),
        fresh(3, 1, "StartView replaces what isn't committed, whatever it is; a commit number below ours takes nothing back")
            .frame(prepare(0, 1, 0, A), normal(0, 1, 0).sends(&[0], prepare_ok(0, 1, 1)))
            .frame(prepare(0, 2, 1, B), normal(0, 2, 1).sends(&[0], prepare_ok(0, 2, 1)))
            .frame(start_view(2, &[A, C], 0), installed(2, &[A, C], 1, 2)),
        fresh(3, 1, "StartView ends a view change of its view or an older one: votes, reports and the count of waiting ticks go")
            .frame(start_view_change(1, 0), change(1, 0, 0).sends(&[0, 2], start_view_change(1, 1)).has(STARTS, 1).has(SENT, 1).has(REPORTS, 2))
            .tick(change(1, 0, 0).sends(&[0, 2], start_view_change(1, 1)).has(WAITING, 1))
            .frame(start_view(2, &[A], 0), installed(2, &[A], 0, 2).has(STARTS, 0).has(SENT, 0).has(REPORTS, 0).has(WAITING, 0).has(HEARD, 1)),
        fresh(3, 1, "StartView ends catching up and a state transfer")
            .frame(commit(2, 0), change(2, 0, 0).sends(&[2], get_state(1, 2, 0)))
            .frame(start_view(2, &[A], 1), installed(2, &[A], 1, 2).has(CATCHING_UP, 0))
            .frame(commit(2, 2), transfer(2, 1, 1).sends(&[2], get_state(1, 2, 1)))
            .frame(start_view(2, &[A, B], 2), nothing())
            .frame(start_view(3, &[A, B], 2), installed(3, &[A, B], 2, 0)),
        fresh(3, 1, "A StartView of a view that we lead ourselves: PrepareOk goes to ourselves, acks are cleared, and we lead")
            .frame(start_view(1, &[A], 0), installed(1, &[A], 0, 1).acks(&[]))
            .frame(prepare_ok(1, 1, 1), nothing())
            .tick(normal(1, 1, 0).sends(&[0, 2], commit(1, 0)).sends(&[0, 2], prepare(1, 1, 0, A))),
        fresh(3, 0, "StartView clears a primary's acks")
            .frame(request(A), normal(0, 1, 0).sends(&[1, 2], prepare(0, 1, 0, A)).acks(&[(1, 1)]))
            .frame(start_view(3, &[A], 0), normal(3, 1, 0).sends(&[0], prepare_ok(3, 1, 0)).acks(&[]))
            .frame(prepare_ok(3, 1, 1), nothing()),
    ]
}

fn refused_by_7() -> Vec<Example> {
    let committed = |title| {
        fresh(3, 1, title)
            .frame(
                prepare(0, 1, 1, A),
                normal(0, 1, 1).sends(&[0], prepare_ok(0, 1, 1)),
            )
            .frame(
                prepare(0, 2, 1, B),
                normal(0, 2, 1).sends(&[0], prepare_ok(0, 2, 1)),
            )
    };
    let other = |cents, member| Entry { cents, member, ..A };
    vec![
        committed("7 on StartView: shortened or altered, in one byte too; the view isn't taken, and a good one is installed afterwards")
            .frame(start_view(1, &[], 0), refused(7))
            .frame(start_view(1, &[B, A], 2), refused(7))
            .frame(start_view(1, &[other(11, 3), B], 2), refused(7))
            .frame(start_view(1, &[other(10, 4), B], 2), refused(7))
            .frame(start_view(1, &[A], 0), installed(1, &[A], 1, 1)),
        committed("7 comes after the Rust's early returns: a StartView of an older view or of our own in Normal may alter, and is ignored")
            .frame(start_view(2, &[A], 1), installed(2, &[A], 1, 2))
            .frame(start_view(1, &[B], 0), nothing())
            .frame(start_view(2, &[B], 0), nothing())
            .frame(start_view(3, &[B], 0), refused(7)),
        committed("7 in StateTransfer and in ViewChange")
            .frame(commit(0, 3), transfer(0, 2, 1).sends(&[0], get_state(1, 0, 2)))
            .frame(start_view(1, &[B], 0), refused(7))
            .frame(start_view_change(2, 0), change(2, 2, 1).sends(&[0, 2], start_view_change(2, 1))
                .sends(&[2], do_view_change(2, 1, 0, &[A, B], 1)))
            .frame(start_view(2, &[B], 0), refused(7)),
    ]
}

/// Which replies `install_log` keeps. Replica 1 leads view 1.
fn tables() -> Vec<Example> {
    let (a, b, c) = (fee(1, 5), fee(1, 6), fee(2, 0));
    let held = |title| {
        fresh(3, 1, title).frame(
            prepare(0, 1, 1, a),
            normal(0, 1, 1).sends(&[0], prepare_ok(0, 1, 1)),
        )
    };
    vec![
        held("install_log leaves the reply to a committed entry that is its client's last one; what isn't committed has none")
            .frame(start_view(1, &[a, c], 1), installed(1, &[a, c], 1, 1))
            .frame(request(a), normal(1, 2, 1).replies(1, a, 1, 105))
            .frame(request(c), nothing()),
        held("install_log: a later entry of that client overwrites the row, and the reply is gone though its entry is committed")
            .frame(start_view(1, &[a, b], 1), installed(1, &[a, b], 1, 1))
            .frame(request(a), nothing())
            .frame(request(b), nothing()),
        held("Entries that the StartView commits have their replies kept")
            .frame(start_view(1, &[a, c, b], 3), installed(1, &[a, c, b], 3, 1))
            .frame(request(a), nothing())
            .frame(request(b), normal(1, 3, 3).replies(1, b, 1, 211))
            .frame(request(c), normal(1, 3, 3).replies(1, c, 1, 100)),
        held("A client whose entry the new log hasn't may ask again: its row went with it")
            .frame(prepare(0, 2, 1, c), normal(0, 2, 1).sends(&[0], prepare_ok(0, 2, 1)))
            .frame(start_view(1, &[a], 1), installed(1, &[a], 1, 1))
            .frame(request(c), normal(1, 2, 1).sends(&[0, 2], prepare(1, 2, 1, c))),
    ]
}

pub fn all() -> Vec<Example> {
    [sizes(), steps(), refused_by_7(), tables()]
        .into_iter()
        .flatten()
        .collect()
}
