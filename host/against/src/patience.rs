//! Waiting: many ticks in a row, until a view change starts or the clock's counters reach their caps; with large T, and with many
//! attempts before. A few messages in between set the clock back.

use crate::case::{Lends, Step};
use crate::counts::Counts;
use crate::pair::Pair;
use crate::play::{end, fault, Fault, Found};
use schedules::rust::{Setup, Start};
use vsr_rs::Message;
use wire::frames::{frame, Fees};
use wire::random::Random;

/// Plays one.
pub fn play(random: &mut Random, counts: &mut Counts) -> Result<(), Fault> {
    let n = 3 + random.below(5);
    let long = random.chance(4);
    let setup = Setup {
        n,
        id: random.below(n),
        timeout: if long {
            65_535
        } else {
            random.pick(&[1, 1, 2, 3, 255, 256])
        },
        room: 2,
        members: 1,
    };
    let (mut pair, _) = Pair::new(setup, Start::New).map_err(|text| Fault {
        text,
        found: Found::Creation,
    })?;
    counts.creations += 1;
    let attempts = if setup.timeout < 4 {
        random.below(13)
    } else {
        random.below(2)
    };
    for _ in 0..attempts {
        let message = further(random, &pair);
        give(&mut pair, Some(message), counts)?;
    }
    let wait = setup.timeout << attempts.min(10);
    for _ in 0..wait.min(70_000) + random.below(4) {
        if random.below(2 * wait) == 0 {
            let message = any(random, &pair);
            give(&mut pair, Some(message), counts)?;
        }
        give(&mut pair, None, counts)?;
    }
    end(random, &mut pair, counts)
}

fn give(pair: &mut Pair, message: Option<Fees>, counts: &mut Counts) -> Result<(), Fault> {
    let step = Step {
        frame: message.map(|message| frame(pair.case.setup.id, &message)),
        lends: Lends::default(),
    };
    pair.step(step, counts).map_err(|text| fault(text, pair))?;
    Ok(())
}

/// Someone asks for a later view.
fn further(random: &mut Random, pair: &Pair) -> Fees {
    Message::StartViewChange {
        view_number: pair.rust.replica.view_number() + 1 + random.below(2),
        replica_id: random.below(pair.case.setup.n),
    }
}

/// The primary is heard, of this view or a later one; or someone asks for a later view.
fn any(random: &mut Random, pair: &Pair) -> Fees {
    let view_number = pair.rust.replica.view_number();
    match random.below(4) {
        0 => further(random, pair),
        1 => Message::StartView {
            view_number,
            log: Vec::new(),
            op_number: 0,
            commit_number: 0,
        },
        _ => Message::Commit {
            view_number: view_number + random.below(2),
            commit_number: random.below(2),
        },
    }
}
