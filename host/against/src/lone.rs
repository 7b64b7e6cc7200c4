//! A single replica under an adversary (`schedules::adversary`): frames that are well formed and otherwise anything, some of them
//! damaged, some of them sent again, with a plot (`plots`) now and then.

use crate::counts::Counts;
use crate::damage::{damaged, spoiled};
use crate::pair::Pair;
use crate::play::{clients, end, give, sizes, Fault, Found};
use crate::plots::Plot;
use schedules::adversary::{start, Adversary};
use schedules::rust::Call;
use wire::frames::frame;
use wire::random::Random;

/// Plays one.
pub fn play(random: &mut Random, counts: &mut Counts) -> Result<(), Fault> {
    let setup = sizes(random);
    let start = start(random);
    let made = Pair::new(setup, start);
    let (mut pair, _) = made.map_err(|text| Fault {
        text: format!("{text} ({setup:?}, {start:?})"),
        found: Found::Creation,
    })?;
    counts.creations += 1;
    let clients = clients(random);
    let mut plot = None;
    for _ in 0..20 + random.below(100) {
        if plot.is_none() && random.chance(3) {
            plot = Some(Plot::any(random, &pair.rust));
        }
        let planned = if random.chance(90) {
            plot.as_mut()
                .and_then(|plot| plot.next(random, &pair.rust, &clients))
        } else {
            None
        };
        let frame = match planned {
            Some(frame) => Some(frame),
            None => next(random, &pair, &clients),
        };
        give(random, &mut pair, frame, counts)?;
        plot = plot.filter(|plot: &Plot| !plot.is_over());
    }
    end(random, &mut pair, counts)
}

/// The next call.
fn next(random: &mut Random, pair: &Pair, clients: &[u64]) -> Option<Vec<u8>> {
    let steps = &pair.case.steps;
    if !steps.is_empty() && random.chance(4) {
        return steps[random.below(steps.len())].frame.clone();
    }
    let mut adversary = Adversary {
        random,
        rust: &pair.rust,
        clients,
    };
    let Call::Frame { addressee, message } = adversary.call() else {
        return None;
    };
    let bytes = frame(addressee, &message);
    Some(match random.below(100) {
        0..=9 => damaged(random, bytes),
        10..=13 => spoiled(random, bytes),
        _ => bytes,
    })
}
