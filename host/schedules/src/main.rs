//! Drives vsr-rs, as `vsr-rs-amended` has it, with fees and writes what it was given and what it answered, in the format of
//! `vectors/FORMAT.md`: clusters under a bad network, single replicas under an adversary, and some runs written by hand. The same
//! words on the command line give the same bytes. How refusals are told, which the Rust hasn't: see `rust`.
//!
//! ```text
//! schedules SEED ROUNDS [MOST]
//! schedules client SEED CALLS
//! schedules examples
//! ```
//!
//! Each round plays one cluster of 3, 4, 5 and 7 replicas, and adversaries on single replicas of them. With MOST only that
//! many of their calls are kept, chosen so that as many different things as possible happen. The runs by hand come last.
//! `client` plays the Rust's client instead, a run of CALLS calls for each number of replicas, and directed examples. `examples`
//! writes the directed examples of replicas. What the calls of directed examples have to give is written beside them.

use schedules::run::{Mark, Run};
use schedules::{adversary, choose, client, cluster, directed, examples};
use std::process::ExitCode;
use wire::random::Random;

/// How many replicas the clusters have.
const SIZES: [usize; 4] = [3, 4, 5, 7];

const STATUSES: [&str; 4] = ["Normal", "StateTransfer", "ViewChange", "Recovering"];

/// All runs of so many rounds.
fn played(random: &mut Random, rounds: usize) -> Vec<Run> {
    let mut runs = Vec::new();
    for _ in 0..rounds {
        for n in SIZES {
            runs.extend(cluster::cluster(random, n, 40 * n));
            for _ in 0..6 {
                runs.push(adversary::adversary(random, n, 30));
            }
        }
    }
    runs
}

/// How many calls of each kind (0: a tick) came in each status, and how many of them were refused, as comment lines. The empty line
/// behind them says that none is the first run's title.
fn counts(runs: &[Run]) -> String {
    let marks: Vec<Mark> = runs
        .iter()
        .flat_map(|run| run.calls.iter().map(|call| call.mark))
        .collect();
    let of = |test: &dyn Fn(&Mark) -> bool| marks.iter().filter(|mark| test(mark)).count();
    let mut text = format!("# {} runs, {} calls\n", runs.len(), marks.len());
    text += "# calls by status, of a tick and of kinds 1 to 11:\n";
    for (status, name) in STATUSES.iter().enumerate() {
        let row = (0..12).map(|kind| of(&|m| m.before == status && m.kind == kind).to_string());
        text += &format!("# {name}: {}\n", row.collect::<Vec<_>>().join(" "));
    }
    let row = (3..9).map(|code| of(&|m| m.code == code).to_string());
    text += &format!(
        "# refused by 3 to 8: {}\n\n",
        row.collect::<Vec<_>>().join(" ")
    );
    text
}

/// What the command line asks for: replicas, by seed, rounds and how many calls at most; a client, by seed and calls; or the
/// directed examples.
enum Asked {
    Replicas(u64, usize, usize),
    Client(u64, usize),
    Examples,
}

fn asked() -> Option<Asked> {
    let words: Vec<String> = std::env::args().skip(1).collect();
    let words: Vec<&str> = words.iter().map(String::as_str).collect();
    match words.as_slice() {
        ["examples"] => Some(Asked::Examples),
        ["client", seed, calls] => Some(Asked::Client(seed.parse().ok()?, calls.parse().ok()?)),
        [seed, rounds] => Some(Asked::Replicas(
            seed.parse().ok()?,
            rounds.parse().ok()?,
            usize::MAX,
        )),
        [seed, rounds, most] => Some(Asked::Replicas(
            seed.parse().ok()?,
            rounds.parse().ok()?,
            most.parse().ok()?,
        )),
        _ => None,
    }
}

/// The trace of replicas.
fn replicas(seed: u64, rounds: usize, most: usize) {
    let mut runs = played(&mut Random::new(seed), rounds);
    if most < usize::MAX {
        runs = choose::chosen(runs, &SIZES, most);
    }
    runs.extend(directed::directed());
    let rust = schedules::answered_by();
    println!("# Answers of {rust}, written by host/schedules: seed {seed}, {rounds} rounds.");
    print!("{}", counts(&runs));
    for run in &runs {
        print!("{}", run.creation);
        for call in &run.calls {
            print!("{}", call.lines);
        }
    }
}

/// Prints a trace, or what of its examples isn't as it was to be.
fn told(trace: Result<String, String>) -> ExitCode {
    match trace {
        Ok(trace) => {
            print!("{trace}");
            ExitCode::SUCCESS
        }
        Err(faults) => {
            eprintln!("{faults}");
            ExitCode::FAILURE
        }
    }
}

fn main() -> ExitCode {
    match asked() {
        Some(Asked::Replicas(seed, rounds, most)) => replicas(seed, rounds, most),
        Some(Asked::Client(seed, calls)) => return told(client::trace(seed, calls)),
        Some(Asked::Examples) => return told(examples::trace()),
        None => {
            eprintln!("usage: schedules SEED ROUNDS [MOST] | client SEED CALLS | examples");
            return ExitCode::from(2);
        }
    }
    ExitCode::SUCCESS
}
