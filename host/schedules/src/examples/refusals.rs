//! Refusals 2 to 6 on the frame alone, their order, and 9 and 10. Where an area is short the Rust shows what would have been
//! written; refusal 2 is by hand.

use super::*;

/// Frames that are malformed by their length, version or kind.
fn malformed() -> Vec<Example> {
    let tick = frame(0, &commit(0, 0));
    let with = |place: usize, byte: u8| {
        let mut bytes = tick.clone();
        bytes[place] = byte;
        bytes
    };
    let longer = [&tick[..], &[0]].concat();
    let counted = [&[0, 0, 0, 12], &tick[4..], &[0]].concat();
    vec![
        fresh(3, 0, "Marked example: an empty frame is 2; so is one without a length, with too small or too great a length, or a byte short or \
            too many")
            .malformed(&[])
            .malformed(&[0, 0, 0])
            .malformed(&[0, 0, 0, 0])
            .malformed(&tick[..14])
            .malformed(&longer)
            .malformed(&counted)
            .malformed(&with(3, 10))
            .malformed(&with(3, 12))
            .malformed(&with(0, 255)),
        fresh(3, 0, "Version 0 or 2 is 2, and kind 0, 13 or 255; kind 12, a Reply, comes out only: handed in it is 2")
            .malformed(&with(4, 0))
            .malformed(&with(4, 2))
            .malformed(&with(5, 0))
            .malformed(&with(5, 13))
            .malformed(&with(5, 255))
            .malformed(&reply_frame(&Reply {
                view_number: 0,
                client_id: 7,
                request_number: 0,
                result: Outcome { code: 1, total: 4500 },
            })),
    ]
}

/// Entries that break the rules: operation, the three zero bytes, cents.
fn bad_entries() -> Vec<Example> {
    let bad = |operation, cents| {
        frame(
            0,
            &request(Entry {
                operation,
                cents,
                ..A
            }),
        )
    };
    let mut zero_byte = frame(0, &request(A));
    zero_byte[25] = 1;
    vec![
        fresh(3, 0, "An entry with operation 0 or 4, a Fee or Refund of 0 or of 1,000,001 cents, an Ask with cents, a byte that isn't zero: 2; \
            1 and 1,000,000 are taken")
            .malformed(&bad(0, 1))
            .malformed(&bad(4, 1))
            .malformed(&bad(1, 0))
            .malformed(&bad(1, 1_000_001))
            .malformed(&bad(2, 0))
            .malformed(&bad(2, 1_000_001))
            .malformed(&bad(3, 1))
            .malformed(&zero_byte)
            .frame(request(Entry { cents: 1_000_000, ..A }), normal(0, 1, 0).sends(&[1, 2], prepare(0, 1, 0, Entry { cents: 1_000_000, ..A })))
            .frame(request(Entry { cents: 1, ..B }), normal(0, 2, 0).sends(&[1, 2], prepare(0, 2, 0, Entry { cents: 1, ..B }))),
    ]
}

/// Logs with such an entry.
fn bad_logs() -> Vec<Example> {
    let broken = Entry { cents: 0, ..C };
    let mut nine: Vec<Entry> = (0..9).map(|client| fee(client, 0)).collect();
    let good = start_view(1, &nine, 0);
    let fitting = frame(1, &good);
    nine[8].cents = 0;
    let past_room = frame(1, &start_view(1, &nine, 0));
    vec![
        fresh(3, 1, "Refusal 2 covers every entry of a frame: a StartView of L+1 entries whose last one breaks the rules is 2; with a good one \
            it is 4")
            .malformed(&past_room)
            .frame(good, refused(4))
            .malformed(&fitting[..fitting.len() - 1]),
        fresh(3, 1, "2 comes before 3 and in every kind that carries entries: another addressee, a bad last entry")
            .malformed(&frame(0, &prepare(0, 1, 0, broken)))
            .malformed(&frame(0, &new_state(0, 0, &[A, broken], 1)))
            .malformed(&frame(0, &do_view_change(1, 5, 0, &[A, broken], 1)))
            .malformed(&frame(0, &start_view(1, &[A, broken], 1)))
            .malformed(&frame(0, &response(0, 5, Some((&[A, broken], 1))))),
    ]
}

/// A frame whose bytes from this place on are replaced.
fn put(mut bytes: Vec<u8>, place: usize, new: &[u8]) -> Vec<u8> {
    bytes[place..place + new.len()].copy_from_slice(new);
    bytes
}

/// Counts that don't fit what follows them.
fn bad_counts() -> Vec<Example> {
    let state = frame(1, &new_state(0, 1, &[A], 0));
    let with = frame(1, &response(0, 0, Some((&[A], 0))));
    let without = frame(1, &response(0, 0, None));
    let cut = put(with[..21].to_vec(), 0, &[0, 0, 0, 17]);
    let half = put(with[..25].to_vec(), 0, &[0, 0, 0, 21]);
    vec![
        fresh(3, 1, "An o that isn't the count of the entries that follow is 2: StartView, DoViewChange; so is an end that isn't start plus \
            count, or end < start")
            .malformed(&put(frame(1, &start_view(1, &[A], 0)), 11, &[0, 0, 0, 2]))
            .malformed(&put(frame(1, &start_view(1, &[A], 0)), 11, &[0, 0, 0, 0]))
            .malformed(&put(frame(1, &do_view_change(1, 0, 0, &[A], 0)), 16, &[0, 0, 0, 2]))
            .malformed(&put(state.clone(), 15, &[0, 0, 0, 3]))
            .malformed(&put(state.clone(), 15, &[0, 0, 0, 1]))
            .malformed(&put(state, 15, &[0, 0, 0, 0])),
        fresh(3, 1, "RecoveryResponse: a 0/1 byte of 2 is 2, a 0 with bytes after it, a 1 without o and c, or with o alone; form 0 itself is \
            well formed")
            .malformed(&put(without.clone(), 20, &[2]))
            .malformed(&put(with.clone(), 20, &[2]))
            .malformed(&put(with.clone(), 20, &[0]))
            .malformed(&put(without, 20, &[1]))
            .malformed(&cut)
            .malformed(&half)
            .malformed(&put(with, 21, &[0, 0, 0, 2]))
            .frame(response(0, 0, None), nothing()),
    ]
}

/// Addressee and sender.
fn strangers() -> Vec<Example> {
    let from = |sender| {
        [
            prepare_ok(0, 0, sender),
            get_state(sender, 0, 0),
            start_view_change(0, sender),
            do_view_change(0, sender, 0, &[], 0),
            recovery(sender, 1, 0),
            response(0, sender, None),
        ]
    };
    let mut senders = fresh(3, 1, "Marked example: sender 3 with n = 3 is 3, in each kind that has a sender; 255 too; 2 is taken");
    for message in from(3).into_iter().chain(from(255)) {
        senders = senders.frame(message, refused(3));
    }
    vec![
        senders.frame(
            get_state(2, 0, 0),
            normal(0, 0, 0).sends(&[2], new_state(0, 0, &[], 0)),
        ),
        fresh(
            3,
            1,
            "A frame to another replica is 3, of any kind, also to an id that isn't there",
        )
        .frame_to(0, request(A), refused(3))
        .frame_to(2, prepare(0, 1, 0, A), refused(3))
        .frame_to(2, commit(0, 0), refused(3))
        .frame_to(255, commit(0, 0), refused(3))
        .frame_to(0, start_view(1, &[], 0), refused(3))
        .frame_to(0, new_state(0, 0, &[], 0), refused(3)),
        fresh(7, 6, "Sender 6 of 7 is a replica, our own id, and 7 isn't")
            .frame(
                get_state(6, 0, 0),
                normal(0, 0, 0).sends(&[6], new_state(0, 0, &[], 0)),
            )
            .frame(get_state(7, 0, 0), refused(3)),
    ]
}

/// 4, 5 and 6 on the frame alone, and which of several comes first.
fn orders() -> Vec<Example> {
    let nine: Vec<Entry> = (0..9).map(|client| fee(client, 0)).collect();
    let falls = &[fee(1, 5), B, fee(1, 5)];
    let in_turn = |run: Example| {
        run.frame_to(0, start_view(5, &[A; 9], 10), refused(3))
            .frame(start_view(5, &[A; 9], 10), refused(4))
            .frame(start_view(5, &[A, A], 3), refused(5))
            .frame(start_view(5, &[A, A], 2), refused(6))
            .frame(do_view_change(5, 3, 0, &[A; 9], 10), refused(3))
            .frame(do_view_change(5, 2, 0, &nine, 10), refused(4))
            .frame(do_view_change(5, 2, 0, &[A, B], 3), refused(5))
            .frame(do_view_change(5, 2, 0, falls, 3), refused(6))
            .frame(response(5, 2, Some((&nine, 10))), refused(4))
            .frame(response(5, 2, Some((&[A, A], 3))), refused(5))
            .frame(response(5, 2, Some((falls, 0))), refused(6))
            .frame(new_state(5, 0, &nine, 10), refused(4))
            .frame(new_state(5, 0, &[A, A], 3), refused(5))
            .frame(prepare(5, 9, 0, A), refused(4))
            .frame(prepare_ok(5, 9, 2), refused(4))
            .frame(get_state(2, 5, 9), refused(4))
    };
    vec![
        in_turn(fresh(3, 1, "3, 4, 5, 6 on the frame alone, in this order, in Normal, also for kinds and views that are ignored")),
        in_turn(
            fresh(3, 1, "3, 4, 5, 6 on the frame alone, in this order, in StateTransfer")
                .frame(commit(0, 1), transfer(0, 0, 0).sends(&[0], get_state(1, 0, 0))),
        ),
        in_turn(
            fresh(3, 1, "3, 4, 5, 6 on the frame alone, in this order, in ViewChange")
                .frame(recovery(0, 1, 1), change(1, 0, 0).sends(&[0, 2], start_view_change(1, 1))),
        ),
        in_turn(recovered(3, 1, 0, "3, 4, 5, 6 on the frame alone, in this order, in Recovering")),
        fresh(3, 1, "Rising is asked of each client by itself: numbers of different clients may fall along the log, equal or falling ones of \
            one client may not")
            .frame(start_view(1, &[fee(1, 5), fee(2, 3), fee(1, 4)], 0), refused(6))
            .frame(start_view(1, &[fee(1, 5), fee(2, 3), fee(1, 6), fee(2, 4), fee(3, 0)], 0), normal(1, 5, 0).sends(&[1], prepare_ok(1, 5, 1))),
    ]
}

/// 9 and 10: an area one byte short, and one that is just long enough.
fn areas() -> Vec<Example> {
    let sent = || normal(0, 1, 0).sends(&[1, 2], prepare(0, 1, 0, F));
    let beat = || normal(0, 0, 0).sends(&[1, 2], commit(0, 0));
    let paid = || normal(0, 1, 1).replies(0, F, 1, 4500);
    vec![
        fresh(3, 0, "Marked example: a tick with 29 bytes for messages is 9, with 30 it is done; likewise a Request with 101 and 102, a tick \
            that prepares again with 131 and 132")
            .tick_in((29, 0), refused(9))
            .tick_in((30, 0), beat())
            .frame_in((101, 0), request(F), refused(9))
            .frame_in((102, 0), request(F), sent())
            .tick_in((131, 0), refused(9))
            .tick_in((132, 0), normal(0, 1, 0).sends(&[1, 2], commit(0, 0)).sends(&[1, 2], prepare(0, 1, 0, F))),
        fresh(3, 0, "A PrepareOk with 35 bytes for replies is 10, with 36 it is done; likewise a re-sent Request; areas of 0 bytes do where \
            nothing is written")
            .frame_in((200, 0), request(F), sent())
            .frame_in((0, 35), prepare_ok(0, 1, 1), refused(10))
            .frame_in((0, 0), prepare_ok(0, 1, 1), refused(10))
            .frame_in((0, 36), prepare_ok(0, 1, 1), paid())
            .frame_in((0, 35), request(F), refused(10))
            .frame_in((0, 36), request(F), paid())
            .frame_in((0, 0), prepare_ok(0, 1, 2), nothing()),
        fresh(3, 0, "10 looks at the sum of all replies of the call: two are 72 bytes")
            .frame(request(A), normal(0, 1, 0).sends(&[1, 2], prepare(0, 1, 0, A)))
            .frame(request(B), normal(0, 2, 0).sends(&[1, 2], prepare(0, 2, 0, B)))
            .frame_in((0, 71), prepare_ok(0, 2, 1), refused(10))
            .frame_in((0, 72), prepare_ok(0, 2, 1), normal(0, 2, 2).replies(0, A, 1, 10).replies(0, B, 1, 30)),
    ]
}

/// The same of a backup, and of a primary-to-be.
fn more_areas() -> Vec<Example> {
    vec![
        fresh(3, 1, "Prepare with 15 bytes for the PrepareOk is 9, with 16 it is done; a refused one isn't heard")
            .tick(normal(0, 0, 0).has(HEARD, 0))
            .frame_in((15, 0), prepare(0, 1, 0, A), refused(9))
            .frame_in((16, 0), prepare(0, 1, 0, A), normal(0, 1, 0).sends(&[0], prepare_ok(0, 1, 1)).has(HEARD, 1)),
        fresh(3, 1, "9 comes last: with no room for the PrepareOk, an entry that doesn't rise is 6 and an op above L is 4")
            .frame(prepare(0, 1, 0, A), normal(0, 1, 0).sends(&[0], prepare_ok(0, 1, 1)))
            .frame_in((0, 0), prepare(0, 2, 0, A), refused(6))
            .frame_in((0, 0), prepare(0, 9, 0, A), refused(4))
            .frame_in((0, 0), prepare(0, 2, 0, B), refused(9)),
        fresh(3, 1, "A tick for which the area is short doesn't count: GetState with 15 bytes, then with 16; with the view change 40 are needed")
            .frame(commit(0, 1), transfer(0, 0, 0).sends(&[0], get_state(1, 0, 0)))
            .tick_in((15, 0), refused(9))
            .tick_in((16, 0), transfer(0, 0, 0).sends(&[0], get_state(1, 0, 0)).has(HEARD, 0))
            .ticks(2, || transfer(0, 0, 0).sends(&[0], get_state(1, 0, 0)))
            .tick_in((39, 0), refused(9))
            .tick_in((40, 0), change(1, 0, 0).sends(&[0], get_state(1, 0, 0)).sends(&[0, 2], start_view_change(1, 1))),
        fresh(3, 1, "A quorum of DoViewChanges that sends StartView and replies: both areas short is 9, the replies alone 10, and nothing is \
            stored; then it is done")
            .frame(do_view_change(1, 0, 0, &[A], 1), change(1, 0, 0).sends(&[0, 2], start_view_change(1, 1)))
            .frame_in((101, 35), do_view_change(1, 2, 0, &[], 0), refused(9))
            .frame_in((101, 36), do_view_change(1, 2, 0, &[], 0), refused(9))
            .frame_in((102, 35), do_view_change(1, 2, 0, &[], 0), refused(10))
            .frame_in((102, 36), do_view_change(1, 2, 0, &[], 0), normal(1, 1, 1).sends(&[0, 2], start_view(1, &[A], 1)).replies(1, A, 1, 10)),
    ]
}

pub fn all() -> Vec<Example> {
    let alone = [
        malformed(),
        bad_entries(),
        bad_logs(),
        bad_counts(),
        strangers(),
        orders(),
    ];
    let areas = [areas(), more_areas()];
    alone.into_iter().chain(areas).flatten().collect()
}
