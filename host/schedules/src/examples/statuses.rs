//! Which kinds are looked at: one call of each of the eleven kinds in each of the four statuses. An ignored one would do
//! something in Normal, wherever that can be.

use super::*;
use wire::frames::KINDS;

/// The title of a cell of the table.
fn cell(status: &str, kind: usize, what: &str) -> String {
    format!(
        "Which kinds are looked at: {status}, {}: {what}",
        KINDS[kind - 1]
    )
}

/// A primary, 0 of 3, with A as op 1.
fn primary(kind: usize, what: &str) -> Example {
    let sent = normal(0, 1, 0).sends(&[1, 2], prepare(0, 1, 0, A));
    fresh(3, 0, &cell("Normal", kind, what)).frame(request(A), sent)
}

/// A backup, 1 of 3, that hasn't heard of its primary since a tick.
fn backup(kind: usize, what: &str) -> Example {
    fresh(3, 1, &cell("Normal", kind, what)).tick(normal(0, 0, 0).has(HEARD, 0))
}

/// Normal in this view with one op, acknowledged to replica `to` by replica 1.
fn acked(view: usize, to: usize) -> Expect {
    normal(view, 1, 0).sends(&[to], prepare_ok(view, 1, 1))
}

/// Replica 1 of 3 begins the view change to this view.
fn begins(view: usize) -> Expect {
    change(view, 0, 0).sends(&[0, 2], start_view_change(view, 1))
}

/// Kinds 1 to 10 are looked at.
fn in_normal() -> Vec<Example> {
    let prepared = normal(0, 2, 0).sends(&[1, 2], prepare(0, 2, 0, B));
    let told = normal(0, 1, 0).sends(&[1], new_state(0, 0, &[A], 0));
    vec![
        primary(1, "appended and prepared").frame(request(B), prepared),
        backup(2, "appended").frame(prepare(0, 1, 0, A), acked(0, 0).has(HEARD, 1)),
        primary(3, "commits").frame(prepare_ok(0, 1, 1), normal(0, 1, 1).replies(0, A, 1, 10)),
        backup(4, "heard").frame(commit(0, 0), normal(0, 0, 0).has(HEARD, 1)),
        primary(5, "answered").frame(get_state(1, 0, 0), told),
        backup(6, "only heard").frame(new_state(0, 0, &[A], 0), normal(0, 0, 0).has(HEARD, 1)),
    ]
}

fn in_normal_of_views() -> Vec<Example> {
    let reported = begins(2).sends(&[2], do_view_change(2, 1, 0, &[], 0));
    let told = normal(0, 1, 0).sends(&[2], answer_with(0, 5, 0, &[A], 0));
    let back = normal(0, 1, 0).has(RESPONSES, 0);
    vec![
        backup(7, "a view change starts, and the sender counts")
            .frame(start_view_change(2, 0), reported.has(STARTS, 1)),
        backup(
            8,
            "a view change to a view that we lead starts, and it is stored",
        )
        .frame(do_view_change(1, 0, 0, &[], 0), begins(1).has(REPORTS, 1)),
        backup(9, "installed and acknowledged").frame(start_view(2, &[A], 0), acked(2, 2)),
        primary(10, "answered").frame(recovery(2, 5, 0), told),
        recovered(3, 1, 0, &cell("Normal", 11, "ignored, also with our nonce"))
            .frame(response(0, 2, None), recovering(0).has(RESPONSES, 4))
            .frame(response(0, 0, Some((&[A], 0))), back)
            .frame(response(0, 0, Some((&[B, C], 2))), nothing())
            .frame(response(3, 0, Some((&[B, C], 2))), nothing()),
    ]
}

/// Kinds 2, 4, 6, 7, 8, 9, 10 are looked at. Replica 1 of 3; in StateTransfer a replica never leads its view.
fn in_transfer() -> Vec<Example> {
    let asks = || transfer(0, 0, 0).sends(&[0], get_state(1, 0, 0));
    let start = |kind, what| {
        fresh(3, 1, &cell("StateTransfer", kind, what))
            .frame(prepare(0, 2, 0, B), asks())
            .tick(asks().has(HEARD, 0))
    };
    let heard = || transfer(0, 0, 0).has(HEARD, 1);
    let reported = begins(2).sends(&[2], do_view_change(2, 1, 0, &[], 0));
    vec![
        start(1, "ignored").frame(request(A), nothing()),
        start(2, "only heard").frame(prepare(0, 1, 0, A), heard()),
        start(3, "ignored").frame(prepare_ok(0, 1, 2), nothing()),
        start(4, "only heard").frame(commit(0, 0), heard()),
        start(5, "ignored, though of our view").frame(get_state(2, 0, 0), nothing()),
        start(6, "used").frame(new_state(0, 0, &[A], 0), acked(0, 0)),
        start(
            7,
            "of our view ignored, of a later one a view change starts",
        )
        .frame(start_view_change(0, 2), nothing())
        .frame(start_view_change(2, 0), reported.has(STARTS, 1)),
        start(8, "of a later view that we lead a view change starts")
            .frame(do_view_change(1, 0, 0, &[], 0), begins(1).has(REPORTS, 1)),
        start(9, "of our view ignored, of a later one installed")
            .frame(start_view(0, &[A], 0), nothing())
            .frame(start_view(1, &[A], 0), acked(1, 1)),
        start(
            10,
            "of our view not answered, of a later one a view change starts",
        )
        .frame(recovery(2, 5, 0), nothing())
        .frame(recovery(2, 5, 2), begins(2).has(STARTS, 0)),
        start(11, "ignored").frame(answer_with(0, 0, 0, &[A], 0), nothing()),
    ]
}

/// Kinds 2, 4, 6, 7, 8, 9, 10 are looked at. Replica 1 of 5 changes to view 1, which it leads; a Recovery made it start, so
/// nobody is counted.
fn in_change() -> Vec<Example> {
    let begins = |view| change(view, 0, 0).sends(&[0, 2, 3, 4], start_view_change(view, 1));
    let start = |kind, what| {
        fresh(5, 1, &cell("ViewChange", kind, what))
            .tick(normal(0, 0, 0).has(HEARD, 0))
            .frame(recovery(2, 5, 1), begins(1))
    };
    let asks = || change(1, 0, 0).sends(&[1], get_state(1, 1, 0));
    let caught = || asks().has(CATCHING_UP, 1).has(HEARD, 1);
    let stored = change(1, 0, 0).has(REPORTS, 8);
    vec![
        start(1, "ignored, though we lead the view").frame(request(A), nothing()),
        start(2, "of our view it is caught up with").frame(prepare(1, 1, 0, A), caught()),
        start(3, "ignored, though we lead the view").frame(prepare_ok(1, 1, 2), nothing()),
        start(4, "of our view it is caught up with").frame(commit(1, 0), caught()),
        start(5, "ignored").frame(get_state(2, 1, 0), nothing()),
        start(6, "only heard before we catch up, then used")
            .frame(new_state(1, 0, &[A], 0), change(1, 0, 0).has(HEARD, 1))
            .frame(commit(1, 0), caught())
            .frame(new_state(1, 0, &[A], 0), acked(1, 1)),
        start(7, "counted").frame(start_view_change(1, 3), change(1, 0, 0).has(STARTS, 8)),
        start(8, "stored").frame(do_view_change(1, 3, 0, &[A], 0), stored),
        start(9, "of our view installed").frame(start_view(1, &[A], 0), acked(1, 1)),
        start(
            10,
            "of our view not answered, of a later one the next view change starts",
        )
        .frame(recovery(2, 5, 1), nothing())
        .frame(recovery(2, 5, 2), begins(2).has(ATTEMPTS, 1)),
        start(11, "ignored").frame(answer_with(1, 0, 1, &[A], 0), nothing()),
    ]
}

/// Kind 11 only. Replica 0 of 3, which leads view 0.
fn in_recovering() -> Vec<Example> {
    let start = |kind, what| recovered(3, 0, 0, &cell("Recovering", kind, what));
    let ignored = |kind, message| start(kind, "ignored").frame(message, nothing());
    vec![
        ignored(1, request(A)),
        ignored(2, prepare(1, 1, 0, A)),
        ignored(3, prepare_ok(0, 1, 1)),
        ignored(4, commit(1, 0)),
        ignored(5, get_state(1, 0, 0)),
        ignored(6, new_state(0, 0, &[A], 0)),
        ignored(7, start_view_change(3, 1)),
        ignored(8, do_view_change(3, 1, 0, &[A], 0)),
        ignored(9, start_view(3, &[A], 0)),
        ignored(10, recovery(1, 5, 3)),
        start(11, "stored").frame(response(0, 1, None), recovering(0).has(RESPONSES, 2)),
    ]
}

pub fn all() -> Vec<Example> {
    [
        in_normal(),
        in_normal_of_views(),
        in_transfer(),
        in_change(),
        in_recovering(),
    ]
    .into_iter()
    .flatten()
    .collect()
}
