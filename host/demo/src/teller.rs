//! Says what happens, a line each, and no more of them than people read.

use crate::clubs::{club_of, name_of, Charge, CLUBS};
use crate::day::Counts;
use crate::words::{charges, money};
use std::time::{Duration, Instant};
use whitherhaul::Operation;

/// How many lines of views, crashes and recoveries are shown, and how many of charges that are sent again.
const LINES: u64 = 60;
const RESENT: u64 = 6;
/// After so long without a line there is a sign of life.
const SILENCE: Duration = Duration::from_secs(2);

/// A teller, or one that tells only of damage.
pub struct Teller {
    library: &'static str,
    lines: u64,
    resent: u64,
    speaks: bool,
    spoke: Instant,
}

impl Teller {
    pub fn new(library: &'static str, speaks: bool) -> Teller {
        Teller {
            library,
            lines: LINES,
            resent: RESENT,
            speaks,
            spoke: Instant::now(),
        }
    }

    /// Something that happened.
    pub fn say(&mut self, counts: &Counts, line: &str) {
        match self.lines {
            0 => return,
            1 => self.line(counts, "what else happens is counted, and no longer shown"),
            _ => self.line(counts, line),
        }
        self.lines -= 1;
    }

    /// A desk hears nothing and sends its charge again.
    pub fn resent(&mut self, counts: &Counts, desk: usize, number: u64, charge: &Charge) {
        if self.resent == 0 {
            return;
        }
        self.resent -= 1;
        let what = match charge.operation {
            Operation::Fee => "fee",
            Operation::Refund => "refund",
            Operation::Ask => "question",
        };
        let line = format!(
            "desk {} hears nothing and sends its charge {number} again: a {what} of {} for {} ({}){}",
            desk + 1,
            money(charge.cents),
            name_of(charge.member),
            CLUBS[club_of(charge.member)].name,
            match self.resent {
                0 => "; later ones are counted only",
                _ => "",
            }
        );
        self.line(counts, &line);
    }

    /// What a damaged frame did. There are few such lines, and they are also told of a day of which else nothing is.
    pub fn damage(&mut self, counts: &Counts, line: &str) {
        self.print(counts, line);
    }

    /// How far the day is: what is committed, and the takings.
    pub fn progress(&mut self, counts: &Counts, (committed, takings): (u64, u64), requests: u64) {
        let line = format!(
            "{committed} of {} committed, takings {}; {} sent again so far",
            charges(requests),
            money(takings),
            counts.resent
        );
        self.line(counts, &line);
    }

    /// A sign of life in a long silence. It goes to stderr, since what is printed must not depend on the machine's speed.
    pub fn alive(&mut self, counts: &Counts, committed: u64, requests: u64) {
        if self.spoke.elapsed() >= SILENCE {
            self.spoke = Instant::now();
            eprintln!(
                "demo: {} is at step {}, {committed} of {} committed",
                self.library,
                counts.steps,
                charges(requests)
            );
        }
    }

    fn line(&mut self, counts: &Counts, line: &str) {
        if self.speaks {
            self.print(counts, line);
        }
    }

    fn print(&mut self, counts: &Counts, line: &str) {
        println!("step {:>6}  {line}", counts.steps);
        self.spoke = Instant::now();
    }
}
