//! A backup's Prepares and Commits, and the state transfer within a view.

use super::*;

/// Replica 1 of 3 with these as ops 1, 2, .., none committed.
fn holding(title: &str, log: &[Entry]) -> Example {
    let mut run = fresh(3, 1, title);
    for (place, entry) in log.iter().enumerate() {
        run = run.frame(prepare(0, place + 1, 0, *entry), acked(place + 1, 0));
    }
    run
}

/// Normal in view 0 with so many ops and commits, and the PrepareOk for the last op sent to 0.
fn acked(op: usize, commit: u64) -> Expect {
    normal(0, op as u64, commit).sends(&[0], prepare_ok(0, op, 1))
}

/// StateTransfer in view 0, and GetState after our log sent to 0.
fn asks(op: usize, commit: u64) -> Expect {
    transfer(0, op as u64, commit).sends(&[0], get_state(1, 0, op))
}

fn prepares() -> Vec<Example> {
    vec![
        holding("A refused Prepare leaves all as it was; a re-sent one isn't compared with our entry, and its commit number 7 is cut to our op \
            number", &[F])
            .frame(prepare(0, 2, 0, F), refused(6))
            .frame(prepare(0, 1, 7, B), acked(1, 1).log(&[F])),
        holding("A re-sent Prepare is acknowledged with our own op number; a Prepare of op 0 is a re-sent one", &[A])
            .frame(prepare(0, 2, 1, B), acked(2, 1))
            .frame(prepare(0, 1, 7, C), acked(2, 2).log(&[A, B]))
            .frame(prepare(0, 0, 0, C), acked(2, 2).log(&[A, B])),
        fresh(3, 1, "A fresh backup and a Prepare of op 0: nothing is appended, op 0 is acknowledged")
            .frame(prepare(0, 0, 3, A), acked(0, 0)),
        holding("A re-sent Prepare with a commit number past our log: all we have is committed, no state transfer", &[A, B])
            .frame(prepare(0, 1, LAST_VIEW, A), acked(2, 2)),
        fresh(3, 1, "A Prepare's commit number above its op number isn't refused: its own entry is committed too; no reply goes out")
            .frame(prepare(0, 1, 2, A), acked(1, 1)),
        holding("A Prepare commits up to its commit number, which never falls", &[A, B, C])
            .frame(prepare(0, 4, 2, F), acked(4, 2))
            .frame(prepare(0, 4, 1, F), acked(4, 2))
            .frame(prepare(0, 4, 3, F), acked(4, 3)),
    ]
}

/// Prepares that are refused.
fn refused_prepares() -> Vec<Example> {
    vec![
        holding("A refused Prepare doesn't count as heard; a re-sent one does", &[A])
            .tick(normal(0, 1, 0).has(HEARD, 0))
            .frame(prepare(0, 2, 0, A), refused(6))
            .frame(prepare(0, 9, 0, A), refused(4))
            .tick(normal(0, 1, 0).has(WAITING, 1))
            .frame(prepare(0, 1, 0, A), acked(1, 0).has(HEARD, 1).has(WAITING, 1))
            .tick(normal(0, 1, 0).has(HEARD, 0).has(WAITING, 0)),
        sized(3, 1, 3, 1, "L = 1: a Prepare of op 2 is refused by 4 on the frame alone, in Normal and in StateTransfer; op 1 again is \
            acknowledged")
            .frame(prepare(0, 1, 0, A), acked(1, 0))
            .frame(prepare(0, 2, 0, B), refused(4))
            .frame(prepare(0, 1, 0, B), acked(1, 0).log(&[A]))
            .frame(commit(0, 2), asks(1, 0))
            .frame(prepare(0, 2, 0, B), refused(4)),
        sized(3, 1, 3, 2, "L = 2: a log that is full by Prepares takes no third; a smaller number of the same client is 6, a greater one fits")
            .frame(prepare(0, 1, 0, fee(1, 5)), acked(1, 0))
            .frame(prepare(0, 2, 0, fee(1, 4)), refused(6))
            .frame(prepare(0, 2, 0, fee(1, 6)), acked(2, 0))
            .frame(prepare(0, 3, 0, fee(1, 7)), refused(4)),
    ]
}

fn commits() -> Vec<Example> {
    vec![
        holding("A Commit past our log starts a state transfer and commits nothing, whatever its number", &[A])
            .frame(commit(0, 1), normal(0, 1, 1))
            .frame(commit(0, LAST_VIEW), asks(1, 1)),
        holding("A Commit past our log, by one: what we have isn't committed either", &[A])
            .frame(commit(0, 2), asks(1, 0)),
        holding("A Prepare past our log commits nothing either, though its commit number is within our log; NewState does", &[A])
            .frame(prepare(0, 3, 1, C), asks(1, 0))
            .tick(asks(1, 0))
            .frame(new_state(0, 1, &[B, C], 1), acked(3, 1).log(&[A, B, C])),
        holding("A Commit of a lower number takes nothing back; one of our op number commits all, without a reply", &[A, B])
            .frame(commit(0, 1), normal(0, 2, 1))
            .frame(commit(0, 0), normal(0, 2, 1))
            .frame(commit(0, 2), normal(0, 2, 2)),
    ]
}

/// A as op 1, then op 3 comes before op 2.
fn gap(title: &str) -> Example {
    holding(title, &[A])
        .frame(prepare(0, 3, 0, C), asks(1, 0))
        .tick(asks(1, 0).has(HEARD, 0))
}

fn transfers() -> Vec<Example> {
    vec![
        gap("NewState in StateTransfer: one that ends inside our log or starts past it is only heard; of one that overlaps only the excess is \
            appended")
            .frame(new_state(0, 0, &[C], 1), transfer(0, 1, 0).has(HEARD, 1))
            .tick(asks(1, 0).has(HEARD, 0))
            .frame(new_state(0, 2, &[C], 1), transfer(0, 1, 0).has(HEARD, 1))
            .frame(new_state(0, 0, &[C, B], 1), acked(2, 1).log(&[A, B])),
        gap("NewState that starts at our log's end is used; one that is empty and ends there isn't")
            .frame(new_state(0, 1, &[], 1), transfer(0, 1, 0).has(HEARD, 1))
            .frame(new_state(0, 1, &[B, C], 2), acked(3, 2).log(&[A, B, C])),
        gap("NewState whose excess wouldn't rise is 6, and isn't heard; the overlap isn't looked at: of [B, B] the second B is appended")
            .frame(new_state(0, 0, &[C, A], 1), refused(6))
            .frame(new_state(0, 1, &[B, B], 1), refused(6))
            .frame(new_state(0, 0, &[B, B], 2), acked(2, 2).log(&[A, B])),
        gap("An ignored NewState may carry anything that doesn't rise, and is heard; c above its end is 5, an end above L is 4")
            .frame(new_state(0, 2, &[C, C], 1), transfer(0, 1, 0).has(HEARD, 1))
            .tick(asks(1, 0).has(HEARD, 0).has(WAITING, 0))
            .frame(new_state(0, 0, &[A, B], 3), refused(5))
            .frame(new_state(0, 1, &[B; 8], 1), refused(4))
            .frame(new_state(0, 9, &[], 0), refused(4)),
        gap("NewState of a later view is neither used nor heard")
            .frame(new_state(1, 1, &[B], 1), nothing()),
        gap("In StateTransfer the very Prepare that is missing is dropped, and only heard; so is a Commit, and nothing is committed")
            .frame(prepare(0, 2, 1, B), transfer(0, 1, 0).has(HEARD, 1))
            .tick(asks(1, 0).has(HEARD, 0))
            .frame(commit(0, 1), transfer(0, 1, 0).has(HEARD, 1)),
        gap("A used NewState commits up to its commit number, and commits without replies; the next Prepare goes on from there")
            .frame(new_state(0, 1, &[B, C], 3), acked(3, 3))
            .frame(prepare(0, 4, 3, F), acked(4, 3)),
        fresh(3, 1, "State transfer of a fresh backup: L = 8 entries fit")
            .frame(commit(0, 8), asks(0, 0))
            .frame(new_state(0, 0, &eight(), 8), acked(8, 8).log(&eight())),
    ]
}

/// Eight entries of eight clients.
fn eight() -> [Entry; 8] {
    [0, 1, 2, 3, 4, 5, 6, 7].map(|client| fee(client, 0))
}

/// What counts as heard from the primary, seen by a tick.
fn heard() -> Vec<Example> {
    let silent = || normal(0, 0, 0).has(HEARD, 0);
    vec![
        fresh(3, 1, "A NewState of our view sets heard in Normal too, of another view it doesn't: the next tick waits or doesn't")
            .tick(silent().has(WAITING, 0).has(STABLE, 1))
            .frame(new_state(0, 0, &[], 0), normal(0, 0, 0).has(HEARD, 1))
            .tick(silent().has(WAITING, 0).has(STABLE, 2))
            .frame(new_state(1, 0, &[], 0), nothing())
            .tick(silent().has(WAITING, 1).has(STABLE, 0))
            .frame(new_state(0, 0, &[A], 1), normal(0, 0, 0).has(HEARD, 1).log(&[]))
            .tick(silent().has(WAITING, 0).has(STABLE, 1)),
        fresh(3, 1, "A Commit of our view is heard; a Request, a GetState, a Recovery and a StartViewChange of our view aren't")
            .tick(silent())
            .frame(request(A), nothing())
            .frame(get_state(2, 0, 0), silent().sends(&[2], new_state(0, 0, &[], 0)))
            .frame(recovery(2, 9, 0), silent().sends(&[2], answer(0, 9, 1)))
            .frame(start_view_change(0, 2), nothing())
            .frame(commit(0, 0), normal(0, 0, 0).has(HEARD, 1)),
        fresh(3, 1, "Heard Commits put a view change off: after two waiting ticks the count begins anew")
            .tick(silent())
            .ticks(2, silent)
            .frame(commit(0, 0), normal(0, 0, 0).has(HEARD, 1).has(WAITING, 2))
            .tick(silent().has(WAITING, 0))
            .ticks(2, silent)
            .tick(change(1, 0, 0).sends(&[0, 2], start_view_change(1, 1))),
    ]
}

/// The clock in StateTransfer.
fn transfer_ticks() -> Vec<Example> {
    let waits = |waiting| asks(0, 0).has(WAITING, waiting).has(STABLE, 0);
    vec![
        fresh(3, 1, "A StateTransfer tick sends GetState first and may then start a view change in the same tick")
            .frame(prepare(0, 2, 0, A), asks(0, 0))
            .tick(asks(0, 0).has(STABLE, 1))
            .tick(waits(1))
            .tick(waits(2))
            .tick(change(1, 0, 0).sends(&[0], get_state(1, 0, 0)).sends(&[0, 2], start_view_change(1, 1))),
        fresh(3, 1, "A heard tick in StateTransfer is a stable one; a used NewState leaves the stable ticks as they are")
            .frame(prepare(0, 2, 0, B), asks(0, 0))
            .tick(asks(0, 0).has(STABLE, 1))
            .frame(commit(0, 0), transfer(0, 0, 0).has(HEARD, 1))
            .tick(asks(0, 0).has(STABLE, 2).has(WAITING, 0))
            .frame(new_state(0, 0, &[A], 0), acked(1, 0).has(STABLE, 2)),
        fresh(3, 1, "Surprise: it stays in StateTransfer while Commits come and NewState doesn't")
            .frame(prepare(0, 2, 0, B), asks(0, 0))
            .frame(prepare(0, 1, 0, A), transfer(0, 0, 0).has(HEARD, 1))
            .tick(asks(0, 0))
            .frame(commit(0, 0), transfer(0, 0, 0))
            .tick(asks(0, 0))
            .frame(commit(0, 0), transfer(0, 0, 0))
            .tick(asks(0, 0))
            .frame(commit(0, 0), transfer(0, 0, 0))
            .tick(asks(0, 0)),
    ]
}

/// Whom a GetState asks, who answers it, and with what.
fn get_states() -> Vec<Example> {
    let two = |title| {
        fresh(3, 0, title)
            .frame(
                request(A),
                normal(0, 1, 0).sends(&[1, 2], prepare(0, 1, 0, A)),
            )
            .frame(
                request(B),
                normal(0, 2, 0).sends(&[1, 2], prepare(0, 2, 0, B)),
            )
    };
    let says =
        |to: usize, start, log: &[Entry]| normal(0, 2, 0).sends(&[to], new_state(0, start, log, 0));
    vec![
        fresh(5, 3, "Within a view only its primary is asked for state: of five in view 1 replica 1, and on each tick again")
            .frame(start_view(1, &[A], 0), normal(1, 1, 0).sends(&[1], prepare_ok(1, 1, 3)))
            .frame(prepare(1, 3, 0, C), transfer(1, 1, 0).sends(&[1], get_state(3, 1, 1)))
            .tick(transfer(1, 1, 0).sends(&[1], get_state(3, 1, 1)))
            .tick(transfer(1, 1, 0).sends(&[1], get_state(3, 1, 1)))
            .frame(new_state(1, 1, &[B, C], 0), normal(1, 3, 0).sends(&[1], prepare_ok(1, 3, 3))),
        two("GetState is answered with the log after its op number, also with none of it; past our log, or of another view, it isn't answered")
            .frame(get_state(1, 0, 0), says(1, 0, &[A, B]))
            .frame(get_state(2, 0, 1), says(2, 1, &[B]))
            .frame(get_state(1, 0, 2), says(1, 2, &[]))
            .frame(get_state(1, 0, 3), nothing())
            .frame(get_state(1, 1, 0), nothing())
            .frame(get_state(1, 0, 9), refused(4)),
        two("GetState from ourselves is answered to ourselves").frame(get_state(0, 0, 2), says(0, 2, &[])),
        holding("A backup answers GetState too, with its own commit number", &[A, B])
            .frame(commit(0, 1), normal(0, 2, 1))
            .frame(get_state(2, 0, 1), normal(0, 2, 1).sends(&[2], new_state(0, 1, &[B], 1)))
            .frame(get_state(2, 0, 3), nothing()),
    ]
}

pub fn all() -> Vec<Example> {
    [
        prepares(),
        refused_prepares(),
        commits(),
        transfers(),
        heard(),
        transfer_ticks(),
        get_states(),
    ]
    .into_iter()
    .flatten()
    .collect()
}
