//! Times the same calls through Whitherhaul and through vsr-rs, and prints the ratios; those of a journal and of a table,
//! which vsr-rs doesn't have, beside plain Rust.
//!
//! Every round of a case is played by each side in turn, so that a busy machine hits all alike; of the rounds the median
//! counts. After each round the sides must stand alike, or the figures would compare unlike things.

mod axis;
mod cases;
mod cluster;
mod csv;
mod journal;
mod measure;
mod options;
mod plain;
mod plain_csv;
mod plot;
mod sides;
mod stopwatch;
mod svg;
mod table;

use cases::{Case, CASES};
use measure::{alone, compared};
use options::{Only, Options, Task};
use sides::{AsItIs, Framed, Ours};
use std::process::ExitCode;

fn main() -> ExitCode {
    let done = options::read(std::env::args().skip(1)).and_then(|Options { rounds, task }| {
        match task {
            Task::Help => println!("{}", options::HELP),
            Task::Cases { word, only } => cases(&word, only, rounds)?,
            Task::Plot(file) => plot::plot(&file, rounds)?,
            Task::Journal => journal::compare(rounds),
            Task::Csv => csv::compare(rounds),
        }
        Ok(())
    });
    match done {
        Ok(()) => ExitCode::SUCCESS,
        Err(why) => {
            eprintln!("bench: {why}");
            ExitCode::from(2)
        }
    }
}

/// The cases whose name has this word in it, through one side or all.
fn cases(word: &str, only: Option<Only>, rounds: usize) -> Result<(), String> {
    let chosen = CASES.iter().filter(|(name, _)| name.contains(word));
    let chosen: Vec<&(&str, Case)> = chosen.collect();
    if chosen.is_empty() {
        return Err(format!("no case has {word} in its name"));
    }
    if only.is_none() {
        table::heading();
    }
    for (name, case) in chosen {
        match only {
            None => table::row(name, compared(3, *case, rounds)),
            Some(Only::Ours) => table::single(name, alone::<Ours>(*case, rounds)),
            Some(Only::Theirs) => table::single(name, alone::<AsItIs>(*case, rounds)),
            Some(Only::Framed) => table::single(name, alone::<Framed>(*case, rounds)),
        }
    }
    Ok(())
}
