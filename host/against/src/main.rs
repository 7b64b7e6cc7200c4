//! The proved library and the Rust, as `vsr-rs-amended` has it, given the same calls and compared after each.
//!
//! ```text
//! against [--seconds S] [--seed N] [--schedules K] [--threads T]
//! against replay [--document-01] FILE
//! ```
//!
//! Plays random schedules for S seconds (60), or K of them, on T threads (1). Schedule k of a run has the seed N + k; N is taken
//! from the clock where it isn't given. `--seed N --schedules 1` plays one again. Where the two sides differ, the seed is printed
//! with the shortest calls that lead there. A run by time begins with a sweep over bad input (`sweep`) and over takings at the edges
//! of their range (`edges`), and fails where a refusal number, a place of an offset, a kind in a status, a later cause, a
//! call that meets one of the two exceptions, or takings that are cut or refused never occurred.
//!
//! `replay` gives the calls of a recorded trace to the library, and compares its answers. With `--document-01` the trace was written
//! without the exceptions (`own_id`, `forgotten`): from a run's first call that meets one on the amended Rust stands in for the trace.

mod big;
mod case;
mod clients;
mod cluster;
mod counts;
mod damage;
mod deep;
mod edges;
mod facts;
mod forgotten;
mod garbage;
mod lone;
mod making;
mod offset;
mod own_id;
mod pair;
mod parse;
mod patience;
mod play;
mod plots;
mod replay;
mod shrink;
mod sweep;
mod takings;
mod wrongs;

use counts::Counts;
use std::process::ExitCode;
use std::sync::atomic::{AtomicBool, AtomicU64, Ordering};
use std::time::{Duration, Instant, SystemTime, UNIX_EPOCH};

/// What the command line asks for.
enum Asked {
    Play(Plan),
    Replay { file: String, document_01: bool },
}

#[derive(Clone, Copy)]
struct Plan {
    time: Duration,
    seed: u64,
    schedules: Option<u64>,
    threads: usize,
}

fn asked() -> Option<Asked> {
    let words: Vec<String> = std::env::args().skip(1).collect();
    let words: Vec<&str> = words.iter().map(String::as_str).collect();
    let replay = |file: &str, document_01| {
        Some(Asked::Replay {
            file: file.to_string(),
            document_01,
        })
    };
    match words[..] {
        ["replay", "--document-01", file] => replay(file, true),
        ["replay", file] => replay(file, false),
        _ => planned(&words).map(Asked::Play),
    }
}

/// A run's plan, of words and their values.
fn planned(words: &[&str]) -> Option<Plan> {
    let now = SystemTime::now().duration_since(UNIX_EPOCH).ok()?;
    let mut plan = Plan {
        time: Duration::from_secs(60),
        seed: now.as_secs() << 20,
        schedules: None,
        threads: 1,
    };
    for pair in words.chunks(2) {
        let [word, value] = pair else { return None };
        match *word {
            "--seconds" => plan.time = Duration::from_secs(value.parse().ok()?),
            "--seed" => plan.seed = value.parse().ok()?,
            "--schedules" => plan.schedules = Some(value.parse().ok()?),
            "--threads" => plan.threads = value.parse().ok().filter(|threads| *threads > 0)?,
            _ => return None,
        }
    }
    Some(plan)
}

/// One thread's schedules: the next that nobody took, until the time is over or a fault was found.
fn work(
    plan: Plan,
    next: &AtomicU64,
    stop: &AtomicBool,
    start: Instant,
) -> (Counts, Option<String>) {
    let mut counts = Counts::default();
    while !stop.load(Ordering::Relaxed) {
        let place = next.fetch_add(1, Ordering::Relaxed);
        let over = match plan.schedules {
            Some(schedules) => place >= schedules,
            None => start.elapsed() >= plan.time,
        };
        if over {
            break;
        }
        let seed = plan.seed.wrapping_add(place);
        if let Err(fault) = play::play(seed, &mut counts) {
            stop.store(true, Ordering::Relaxed);
            let told = shrink::told(fault);
            let text = format!("--seed {seed} --schedules 1: {told}");
            return (counts, Some(text));
        }
    }
    (counts, None)
}

fn run(plan: Plan) -> ExitCode {
    println!("against: seed {}, {} threads", plan.seed, plan.threads);
    let start = Instant::now();
    let (next, stop) = (AtomicU64::new(0), AtomicBool::new(false));
    let mut counts = Counts::default();
    let mut faults = Vec::new();
    if plan.schedules.is_none() {
        if let Err(fault) = sweep::play(&mut counts).and_then(|()| edges::play(&mut counts)) {
            stop.store(true, Ordering::Relaxed);
            faults.push(format!("before the schedules: {}", shrink::told(fault)));
        }
    }
    std::thread::scope(|scope| {
        let thread = || scope.spawn(|| work(plan, &next, &stop, start));
        let threads: Vec<_> = (0..plan.threads).map(|_| thread()).collect();
        for thread in threads {
            let (its, fault) = thread.join().expect("a thread that ends");
            counts.add(its);
            faults.extend(fault);
        }
    });
    let seconds = start.elapsed().as_secs_f64();
    print!("{}", counts.text());
    let rate = counts.calls() as f64 / seconds;
    println!("{seconds:.1} s, {rate:.0} calls compared a second");
    for fault in &faults {
        println!("against: fails: {fault}");
    }
    if !faults.is_empty() {
        return ExitCode::FAILURE;
    }
    let missing = counts.missing();
    if !missing.is_empty() && plan.schedules.is_none() {
        println!("against: fails: never met: {}", missing.join(", "));
        return ExitCode::FAILURE;
    }
    println!("against: no difference (seed {})", plan.seed);
    ExitCode::SUCCESS
}

fn main() -> ExitCode {
    match asked() {
        Some(Asked::Play(plan)) => run(plan),
        Some(Asked::Replay { file, document_01 }) => replay::replay(&file, document_01),
        None => {
            eprintln!("usage: against [--seconds S] [--seed N] [--schedules K] [--threads T] | replay [--document-01] FILE");
            ExitCode::from(2)
        }
    }
}
