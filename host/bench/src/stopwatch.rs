//! What a piece of work takes, also on a machine that is busy with something else.

use std::fs;
use std::thread;
use std::time::{Duration, Instant};

/// The time that a piece takes. A short piece is most often undisturbed, and the median over rounds leaves out the others.
/// `long`: one that other work will interrupt. If it was, the time that it had a processor counts, as Linux tells it.
pub fn took(long: bool, work: impl FnOnce()) -> Duration {
    let before = if long { settled() } else { None };
    let start = Instant::now();
    work();
    let wall = start.elapsed();
    let Some((ran, turns)) = before else {
        return wall;
    };
    if told().is_none_or(|(_, now)| now == turns) {
        return wall;
    }
    settled().map_or(wall, |(later, _)| (later - ran).min(wall))
}

/// How long this thread had a processor so far, brought up to now by giving way to others.
fn settled() -> Option<(Duration, u64)> {
    thread::yield_now();
    told()
}

/// How long this thread had a processor, up to some moment of its present turn, and how many turns it had; none where that
/// isn't told.
fn told() -> Option<(Duration, u64)> {
    let line = fs::read_to_string("/proc/thread-self/schedstat").ok()?;
    let mut words = line.split_whitespace();
    let ran = words.next()?.parse().ok()?;
    let turns = words.nth(1)?.parse().ok()?;
    Some((Duration::from_nanos(ran), turns))
}
