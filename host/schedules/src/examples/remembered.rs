//! A reply that an install doesn't forget: the row of a client whose last log entry is committed holds what that entry gave, also where
//! a later entry of that client was dropped.

use super::*;

/// A fee of member 3.
fn of_three(client: u64, request: u64, cents: u64) -> Entry {
    Entry {
        client,
        request,
        operation: FEE,
        member: 3,
        cents,
    }
}

/// Client 1's numbers 4, 5 and 6, and a fee of client 2 for the same member.
fn charges() -> [Entry; 4] {
    [
        of_three(1, 4, 1),
        of_three(1, 5, 100),
        of_three(1, 6, 7),
        of_three(2, 0, 50),
    ]
}

/// Replica 1 of 3 after 5, the other client's and 6, of which the first two are committed: member 3 has 100, then 150.
fn held(title: &str) -> Example {
    let [_, five, six, other] = charges();
    let mut example = fresh(3, 1, title);
    for (place, entry) in [five, other, six].into_iter().enumerate() {
        let op = place + 1;
        let wanted = normal(0, op as u64, place as u64).sends(&[0], prepare_ok(0, op, 1));
        example = example.frame(prepare(0, op, place, entry), wanted);
    }
    example
}

/// By a StartView of a view that replica 1 leads.
fn by_start_view() -> Example {
    let [four, five, six, other] = charges();
    let sent = normal(1, 2, 2).sends(&[1], prepare_ok(1, 2, 1));
    held("A view change drops 6, and 5, asked again, is answered with the outcome and total of its time; 4 is an older number, 6 a new one")
        .frame(start_view(1, &[five, other], 2), sent.log(&[five, other]))
        .frame(request(five), normal(1, 2, 2).replies(1, five, 1, 100))
        .frame(request(other), normal(1, 2, 2).replies(1, other, 1, 150))
        .frame(request(four), nothing())
        .frame(request(six), normal(1, 3, 2).sends(&[0, 2], prepare(1, 3, 2, six)))
        .frame(request(five), nothing())
}

/// By a quorum of DoViewChanges.
fn by_quorum() -> Example {
    let [_, five, _, other] = charges();
    let log = [five, other];
    let report = |sender| do_view_change(1, sender, 0, &log, 2);
    held("A quorum of DoViewChanges drops 6, and 5 is answered by the new primary")
        .frame(
            report(0),
            change(1, 3, 2).sends(&[0, 2], start_view_change(1, 1)),
        )
        .frame(
            report(2),
            normal(1, 2, 2)
                .sends(&[0, 2], start_view(1, &log, 2))
                .log(&log),
        )
        .frame(request(five), normal(1, 2, 2).replies(1, five, 1, 100))
}

/// By a NewState in catching up: replica 2 leads view 2, replica 1 view 4.
fn by_new_state() -> Example {
    let [_, five, _, other] = charges();
    let third = of_three(3, 0, 20);
    let log = [five, other, third];
    let caught = normal(2, 3, 3).sends(&[2], prepare_ok(2, 3, 1));
    held("A NewState in catching up drops 6, and what it commits is remembered too; 5 is answered once the replica leads a view")
        .frame(
            commit(2, 0),
            change(2, 3, 2).sends(&[2], get_state(1, 2, 2)),
        )
        .frame(new_state(2, 2, &[third], 3), caught.log(&log))
        .frame(
            start_view(4, &log, 3),
            normal(4, 3, 3).sends(&[1], prepare_ok(4, 3, 1)),
        )
        .frame(request(five), normal(4, 3, 3).replies(4, five, 1, 100))
        .frame(request(third), normal(4, 3, 3).replies(4, third, 1, 170))
}

/// What isn't forgotten stays so over several installs, and what isn't committed has no reply.
fn again() -> Example {
    let [_, five, six, other] = charges();
    let sent = |view: usize, op: usize| {
        normal(view, op as u64, 2).sends(&[view % 3], prepare_ok(view, op, 1))
    };
    let log = [five, other, six];
    held("An uncommitted 6 has no reply, and takes that of 5 with it; dropped by a later view, it gives it back")
        .frame(start_view(1, &log, 2), sent(1, 3).log(&log))
        .frame(request(five), nothing())
        .frame(request(six), nothing())
        .frame(start_view(2, &log[..2], 2), sent(2, 2).log(&log[..2]))
        .frame(start_view(3, &log, 2), sent(3, 3).log(&log))
        .frame(start_view(4, &log[..2], 2), sent(4, 2).log(&log[..2]))
        .frame(request(five), normal(4, 2, 2).replies(4, five, 1, 100))
}

pub fn all() -> Vec<Example> {
    vec![by_start_view(), by_quorum(), by_new_state(), again()]
}
