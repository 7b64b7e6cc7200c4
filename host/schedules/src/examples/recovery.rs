//! Recovery: of this replica, and of others that ask it; and creations.

use super::*;

/// Replica 1 of 3 is back: Normal with this log, and nothing is sent.
fn back_with(view: usize, log: &[Entry], commit: u64) -> Expect {
    let done = normal(view, log.len() as u64, commit).log(log);
    done.has(RESPONSES, 0).has(LAST_NORMAL, view as u64)
}

fn own_ticks() -> Vec<Example> {
    let asks = |view| recovering(view).sends(&[0, 2], recovery(1, 1, view));
    vec![
        recovered(3, 1, 5, "A recovering replica's tick asks again, as its creation did, and leaves the clock alone: no view change, ever")
            .ticks(5, || asks(5).has(WAITING, 0).has(STABLE, 0).has(HEARD, 1).has(ATTEMPTS, 0)),
        recovered(3, 1, 5, "A recovering replica's tick with a response stored: 39 bytes for two Recovery frames are 9, 40 are enough")
            .frame(response(5, 2, None), recovering(5).has(RESPONSES, 4))
            .tick_in((39, 0), refused(9))
            .tick_in((40, 0), asks(5).has(RESPONSES, 4)),
        recovered(3, 1, LAST_VIEW, "Recovering in view 4,294,967,295: its ticks are never 8")
            .ticks(4, || asks(LAST_VIEW))
            .frame(response(LAST_VIEW, 2, None), recovering(LAST_VIEW))
            .frame(response(LAST_VIEW, 0, Some((&[], 0))), back_with(LAST_VIEW, &[], 0))
            .ticks(3, || normal(LAST_VIEW, 0, 0))
            .tick(refused(8)),
    ]
}

fn responses() -> Vec<Example> {
    let a: Option<(&[Entry], usize)> = Some((&[A], 1));
    let b: Option<(&[Entry], usize)> = Some((&[B], 1));
    vec![
        recovered(5, 1, 0, "Responses below the quorum are stored, one for each sender; of five the third completes it: the primary's state is \
            taken")
            .frame(response(0, 0, a), recovering(0).has(RESPONSES, 1))
            .frame(response(0, 0, a), recovering(0).has(RESPONSES, 1))
            .frame(response(0, 3, None), recovering(0).has(RESPONSES, 9))
            .frame(response(0, 4, None), back_with(0, &[A], 1).has(HEARD, 1).has(STABLE, 0)),
        recovered(4, 1, 0, "Recovery: of four replicas three responses are the quorum")
            .frame(response(0, 0, a), recovering(0))
            .frame(response(0, 2, None), recovering(0).has(RESPONSES, 5))
            .frame(response(0, 3, None), back_with(0, &[A], 1)),
        recovered(3, 1, 0, "A response with another nonce is ignored")
            .frame(answer(0, 2, 2), nothing())
            .frame(answer(0, 0, 2), nothing())
            .frame(answer_with(0, 2, 0, &[A], 1), nothing())
            .frame(answer(0, 1, 2), recovering(0).has(RESPONSES, 4)),
        made(3, 1, 3, 8, Start::Back { view: 0, nonce: u64::MAX }, "A nonce of 2^64-1 stays after the recovery that it was for, and in the next view")
            .frame(answer(0, u64::MAX - 1, 2), nothing())
            .frame(answer(0, u64::MAX, 2), recovering(0).has(NONCE, u64::MAX))
            .frame(answer_with(0, u64::MAX, 0, &[A], 0), back_with(0, &[A], 0).has(NONCE, u64::MAX))
            .frame(start_view(1, &[A], 0), normal(1, 1, 0).sends(&[1], prepare_ok(1, 1, 1)).has(NONCE, u64::MAX)),
        recovered(3, 1, 0, "The quorum waits for the primary of the latest view, with state: another one's state isn't taken, nor the primary's \
            form 0")
            .frame(response(0, 2, b), recovering(0).has(RESPONSES, 4))
            .frame(response(0, 0, None), recovering(0).has(RESPONSES, 5))
            .frame(response(0, 0, a), back_with(0, &[A], 1)),
        recovered(3, 1, 0, "The primary's response must be of the latest view itself: 0 leads views 3 and 6, and answers for 3 first")
            .frame(response(6, 2, None), recovering(0))
            .frame(response(3, 0, a), recovering(0).has(RESPONSES, 5))
            .frame(response(6, 0, b), back_with(6, &[B], 1)),
    ]
}

/// Which view it takes, and that a later response replaces an earlier one.
fn latest_views() -> Vec<Example> {
    let a: Option<(&[Entry], usize)> = Some((&[A], 1));
    let b: Option<(&[Entry], usize)> = Some((&[B], 1));
    vec![
        recovered(3, 1, 5, "A latest view below ours is waited for: views 3 and 2 are no use to a replica of view 5, also not view 4; then view \
            6 is")
            .frame(response(3, 0, a), recovering(5).has(RESPONSES, 1))
            .frame(response(2, 2, None), recovering(5).has(RESPONSES, 5))
            .frame(response(4, 2, None), recovering(5))
            .frame(response(6, 2, None), recovering(5))
            .frame(response(6, 0, b), back_with(6, &[B], 1)),
        recovered(3, 1, 3, "A latest view that is just ours is enough")
            .frame(response(2, 2, None), recovering(3))
            .frame(response(3, 0, a), back_with(3, &[A], 1)),
        recovered(3, 0, 0, "Surprise: a later response of a sender replaces an earlier one, even with a lower view: Normal in view 4 after \
            hearing of view 5")
            .frame(response(5, 2, None), recovering(0).stores(&[response(5, 2, None)]))
            .frame(response(3, 2, None), recovering(0).stores(&[response(3, 2, None)]))
            .frame(response(4, 1, a), back_with(4, &[A], 1).stores(&[])),
        recovered(3, 1, 0, "A later response replaces an earlier one: the primary's second state is taken")
            .frame(response(0, 0, a), recovering(0).stores(&[response(0, 0, a)]))
            .frame(response(0, 0, Some((&[A, B], 1))), recovering(0).stores(&[response(0, 0, Some((&[A, B], 1)))]))
            .frame(response(0, 2, None), back_with(0, &[A, B], 1)),
        recovered(3, 0, 0, "A response in our own name counts, also as the primary's; a primary that came by recovery has no acks")
            .frame(response(0, 0, Some((&[A], 0))), recovering(0).has(RESPONSES, 1))
            .frame(response(0, 1, None), back_with(0, &[A], 0).acks(&[]))
            .frame(prepare_ok(0, 1, 1), nothing())
            .frame(prepare_ok(0, 1, 2), nothing()),
    ]
}

/// What a replica is after its recovery.
fn afterwards() -> Vec<Example> {
    let eight: Vec<Entry> = (0..8).map(|client| fee(client, 0)).collect();
    vec![
        recovered(3, 1, 0, "Surprise: responses from 2, and from 0 with [A] c0: Normal with A uncommitted, no PrepareOk; the Prepare sent again \
            is acknowledged")
            .frame(response(0, 2, None), recovering(0))
            .frame(response(0, 0, Some((&[A], 0))), back_with(0, &[A], 0))
            .tick(normal(0, 1, 0).has(HEARD, 0).has(STABLE, 1))
            .frame(prepare(0, 1, 0, A), normal(0, 1, 0).sends(&[0], prepare_ok(0, 1, 1))),
        recovered(3, 1, 1, "What a recovery commits is applied without a reply, which is kept: here we lead view 1 afterwards, by our own \
            name's response")
            .frame(response(1, 1, Some((&[A, B], 2))), recovering(1))
            .frame(response(1, 0, None), back_with(1, &[A, B], 2))
            .frame(request(A), normal(1, 2, 2).replies(1, A, 1, 10))
            .frame(request(B), normal(1, 2, 2).replies(1, B, 1, 30)),
        recovered(3, 1, 0, "A log of L = 8 entries is taken; L+1 is 4, in form 1 only")
            .frame(response(0, 0, Some((&[&eight[..], &[fee(9, 0)]].concat(), 0))), refused(4))
            .frame(response(0, 0, Some((&eight, 8))), recovering(0))
            .frame(response(0, 2, None), back_with(0, &eight, 8)),
        recovered(3, 1, 4, "A recovered replica's clock goes on as a new one's: view 7 begins at tick 4 after recovery into view 6")
            .frame(response(6, 2, None), recovering(4))
            .frame(response(6, 0, Some((&[], 0))), back_with(6, &[], 0))
            .ticks(3, || normal(6, 0, 0))
            .tick(change(7, 0, 0).sends(&[0, 2], start_view_change(7, 1))),
        recovered(3, 1, 7, "The DoViewChange of a recovered replica names the view it recovered into")
            .frame(response(9, 2, None), recovering(7))
            .frame(response(9, 0, Some((&[A], 1))), back_with(9, &[A], 1))
            .frame(start_view_change(11, 0), change(11, 1, 1).sends(&[0, 2], start_view_change(11, 1))
                .sends(&[2], do_view_change(11, 1, 9, &[A], 1))),
    ]
}

/// A Recovery of another replica.
fn asked() -> Vec<Example> {
    let later = |view: usize, op| change(view, op, 0).sends(&[0, 1], start_view_change(view, 2));
    vec![
        fresh(3, 0, "Recovery is answered by a primary with its log and commit number; 92 bytes are 9, 93 are enough")
            .frame(request(A), normal(0, 1, 0).sends(&[1, 2], prepare(0, 1, 0, A)))
            .frame(prepare_ok(0, 1, 1), normal(0, 1, 1).replies(0, A, 1, 10))
            .frame(request(B), normal(0, 2, 1).sends(&[1, 2], prepare(0, 2, 1, B)))
            .frame_in((92, 0), recovery(2, 77, 0), refused(9))
            .frame_in((93, 0), recovery(2, 77, 0), normal(0, 2, 1).sends(&[2], answer_with(0, 77, 0, &[A, B], 1))),
        fresh(3, 1, "Recovery is answered by a backup without state, with the nonce that was asked")
            .frame(prepare(0, 1, 1, A), normal(0, 1, 1).sends(&[0], prepare_ok(0, 1, 1)))
            .frame(recovery(2, u64::MAX, 0), normal(0, 1, 1).sends(&[2], answer(0, u64::MAX, 1)))
            .frame(recovery(0, 0, 0), normal(0, 1, 1).sends(&[0], answer(0, 0, 1))),
        fresh(3, 0, "Recovery from ourselves is answered to ourselves")
            .frame(recovery(0, 3, 0), normal(0, 0, 0).sends(&[0], answer_with(0, 3, 0, &[], 0))),
        fresh(3, 1, "Recovery of an older view is answered with our view")
            .frame(start_view(5, &[A], 0), normal(5, 1, 0).sends(&[2], prepare_ok(5, 1, 1)))
            .frame(recovery(0, 3, 4), normal(5, 1, 0).sends(&[0], answer(5, 3, 1))),
        fresh(3, 2, "Recovery of a later view starts the view change, answers nothing and doesn't count its sender; a StartViewChange does")
            .frame(recovery(0, 3, 4), later(4, 0).has(STARTS, 0).has(SENT, 0))
            .frame(recovery(0, 3, 4), nothing())
            .frame(start_view_change(4, 0), change(4, 0, 0).sends(&[1], do_view_change(4, 2, 0, &[], 0)).has(STARTS, 1)),
        fresh(3, 2, "Recovery of a later view in ViewChange starts the next one, and attempts rise; of an older view it isn't answered there")
            .frame(recovery(0, 3, 4), later(4, 0).has(ATTEMPTS, 0))
            .frame(recovery(1, 3, 5), later(5, 0).has(ATTEMPTS, 1))
            .frame(recovery(1, 3, 2), nothing()),
        fresh(3, 0, "A primary too leaves its view for a Recovery of a later one")
            .frame(request(A), normal(0, 1, 0).sends(&[1, 2], prepare(0, 1, 0, A)))
            .frame(recovery(1, 3, 1), change(1, 1, 0).sends(&[1, 2], start_view_change(1, 0))),
        fresh(3, 2, "Catching up, a Recovery of a later view starts the view change; of that view it isn't answered")
            .frame(commit(1, 0), change(1, 0, 0).sends(&[1], get_state(2, 1, 0)))
            .frame(recovery(0, 3, 1), nothing())
            .frame(recovery(0, 3, 2), later(2, 0).has(CATCHING_UP, 0).has(ATTEMPTS, 1)),
    ]
}

/// Creations. The Rust isn't asked about those that are refused.
fn creations() -> Vec<Example> {
    vec![
        not_made("N 2 0 3 8 8", 1, "Marked example: n = 2 is 1"),
        not_made("N 8 0 3 8 8", 1, "n = 8 is 1"),
        not_made("N 3 3 3 8 8", 1, "Own id = n is 1"),
        not_made("N 7 7 3 8 8", 1, "Own id 7 of 7 is 1"),
        not_made("N 3 0 0 8 8", 1, "T = 0 is 1"),
        not_made("N 3 0 3 0 8", 1, "L = 0 is 1"),
        not_made("N 3 0 3 4097 8", 1, "L = 4,097 is 1"),
        not_made("N 3 0 3 8 0", 1, "M = 0 is 1"),
        not_made("N 3 0 3 8 4097", 1, "M = 4,097 is 1"),
        not_made("R 2 0 3 8 8 0 1 40", 1, "Recovering, n = 2 is 1"),
        not_made(
            "R 3 3 3 8 8 0 1 0",
            1,
            "Recovering, own id = n is 1, also with no room for the Recovery frames",
        ),
        not_made(
            "R 3 1 3 8 8 5 1 39",
            9,
            "Recovering, of three: an area of 39 bytes is 9",
        ),
        recovered(
            3,
            1,
            5,
            "Recovering, of three: an area of 40 bytes is enough for a Recovery to each of the two others",
        ),
        not_made(
            "R 7 6 3 8 8 5 1 119",
            9,
            "Recovering, of seven: an area of 119 bytes is 9",
        ),
        recovered(7, 6, 5, "Recovering, of seven: an area of 120 bytes is enough"),
        fresh(7, 6, "Creation: replica 6 of 7"),
        fresh(3, 2, "Creation: replica 2 of 3"),
    ]
}

pub fn all() -> Vec<Example> {
    [
        own_ticks(),
        responses(),
        latest_views(),
        afterwards(),
        asked(),
        creations(),
    ]
    .into_iter()
    .flatten()
    .collect()
}
