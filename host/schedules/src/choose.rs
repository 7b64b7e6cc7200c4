//! Which calls of many to keep: those of a kind not kept yet, with the calls that lead there.

use crate::run::{Mark, Run};
use std::collections::BTreeSet;

/// What a call shows: its mark, or what n, status and kind met.
#[derive(Clone, Copy, PartialEq, Eq, PartialOrd, Ord)]
enum Shows {
    Step(Mark),
    At(usize, usize, usize),
}

/// What the call at `place` of a run shows. A frame refused by 3, for who sent or gets it, is much the same in each status.
fn shows(run: &Run, place: usize) -> [Shows; 2] {
    let mark = run.calls[place].mark;
    let step = match mark.code {
        3 => Mark {
            before: 0,
            after: 0,
            ..mark
        },
        _ => mark,
    };
    [
        Shows::Step(step),
        Shows::At(run.rust.setup.n, mark.before, mark.kind),
    ]
}

/// The front of a run up to which each call shows the most that isn't known yet: its length, and how much that is.
fn best_front(run: &Run, known: &BTreeSet<Shows>) -> (usize, usize) {
    let mut seen = known.clone();
    let mut best = (0, 0);
    for place in 0..run.calls.len() {
        seen.extend(shows(run, place));
        let (length, gain) = (place + 1, seen.len() - known.len());
        if gain * best.0.max(1) > best.1 * length || best.0 == 0 && gain > 0 {
            best = (length, gain);
        }
    }
    best
}

/// Which run of a cluster of `n` shows the most different things, whole.
fn most_varied(runs: &[Run], n: usize) -> Option<usize> {
    let of_n = (0..runs.len()).filter(|place| runs[*place].rust.setup.n == n);
    of_n.max_by_key(|place| {
        let calls = 0..runs[*place].calls.len();
        let all: BTreeSet<Shows> = calls.flat_map(|call| shows(&runs[*place], call)).collect();
        (all.len(), usize::MAX - place)
    })
}

/// Which front of a run shows the most that isn't known yet for its length, within `left` calls: its place and length.
fn most_telling(runs: &[Run], known: &BTreeSet<Shows>, left: usize) -> Option<(usize, usize)> {
    let fronts = runs.iter().map(|run| best_front(run, known)).enumerate();
    let fitting = fronts.filter(|(_, (length, gain))| *gain > 0 && *length <= left);
    let best = fitting.max_by_key(|(place, (length, gain))| {
        (gain * 1_000_000 / (length + 2), usize::MAX - place)
    });
    best.map(|(place, (length, _))| (place, length))
}

/// Chooses runs of at most `most` calls together: the most varied one of each cluster size, whole, then fronts of others, the
/// most telling first, until nothing new is left.
pub fn chosen(mut runs: Vec<Run>, sizes: &[usize], most: usize) -> Vec<Run> {
    let mut known = BTreeSet::new();
    let mut kept: Vec<Run> = Vec::new();
    let mut left = most;
    let mut sizes = sizes.iter();
    loop {
        let whole = sizes.next().and_then(|n| most_varied(&runs, *n));
        let next = whole.map(|place| (place, runs[place].calls.len().min(left)));
        let Some((place, length)) = next.or_else(|| most_telling(&runs, &known, left)) else {
            return kept;
        };
        let mut run = runs.swap_remove(place);
        run.calls.truncate(length);
        known.extend((0..length).flat_map(|call| shows(&run, call)));
        left -= length;
        kept.push(run);
    }
}
