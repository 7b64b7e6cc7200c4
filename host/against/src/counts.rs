//! What was met: calls by status and kind, refusals by number, later causes by kind and status.

use crate::offset::{self, PLACES};
use crate::takings::Cuts;
use std::collections::BTreeMap;
use std::fmt::Write;
use wire::frames::KINDS;

const STATUSES: [&str; 4] = ["Normal", "StateTransfer", "ViewChange", "Recovering"];
/// Calls are counted in 13 rows: ticks, then each kind, then what is no frame.
const ROWS: usize = KINDS.len() + 2;

/// The name of a row.
fn name(row: usize) -> &'static str {
    match row {
        0 => "tick",
        row if row <= KINDS.len() => KINDS[row - 1],
        _ => "malformed",
    }
}

/// The later causes, by number and kind.
const LATER: [(usize, usize); 8] = [
    (4, 1),
    (5, 3),
    (6, 2),
    (6, 6),
    (7, 7),
    (7, 8),
    (7, 9),
    (8, 0),
];

/// What a replica stores.
const STORED: [&str; 2] = ["DoViewChanges", "RecoveryResponses"];

/// Counts of one thread, or of all.
#[derive(Default)]
pub struct Counts {
    /// Schedules by their kind.
    pub schedules: BTreeMap<&'static str, u64>,
    /// Byte strings of the sweep over bad input.
    pub swept: u64,
    /// Calls of a replica that were compared, by whether they were done.
    pub done: u64,
    pub refused: u64,
    /// Refused tries before a call: short areas, wrong lengths, states that refusal 1 catches.
    pub tries: u64,
    /// Creations, and calls of a client.
    pub creations: u64,
    pub client: u64,
    /// Calls on memory that no call produced; they are compared with nothing.
    pub garbage: u64,
    /// Takings that were held against the Rust's totals.
    pub takings: u64,
    /// Calls with a sum in the state that no call produced, and how often such a sum was cut.
    pub sums: u64,
    pub cuts: Cuts,
    /// Tries with a sum that refusal 1 catches.
    pub past: u64,
    /// States with other bytes, of which the takings were asked for, by whether they were answered.
    pub states: [u64; 2],
    /// Comparisons of what the Rust shows in its Debug text only.
    pub deep: u64,
    /// The stored messages that were compared so, with the entries of their logs: DoViewChanges, and RecoveryResponses.
    pub stored: [(u64, u64); 2],
    /// Refusals by number; place 0 isn't used.
    pub numbers: [u64; 12],
    /// Malformed frames given to a replica, by the place of their offset; and malformed Replies that were read.
    pub offsets: [u64; PLACES.len()],
    pub replies: u64,
    /// StartViewChanges from the own id that would have joined the set by document 01.
    pub own_ids: u64,
    /// Installs by which a reply would have been forgotten by document 01.
    pub forgotten: u64,
    /// Done and refused calls by status and kind.
    pub met: [[(u64, u64); ROWS]; 4],
    /// Later causes: number, kind, status.
    pub later: BTreeMap<(usize, usize, usize), u64>,
    /// Outcomes of applied entries; place 0 isn't used.
    pub outcomes: [u64; 7],
    /// The changes of status that were seen.
    pub moves: [[u64; 4]; 4],
}

impl Counts {
    /// A call of this kind in this status gave this number.
    pub fn call(&mut self, status: usize, kind: usize, number: usize, later: bool) {
        let cell = &mut self.met[status][kind];
        if number == 0 {
            self.done += 1;
            cell.0 += 1;
            return;
        }
        self.refused += 1;
        cell.1 += 1;
        self.numbers[number] += 1;
        if later {
            *self.later.entry((number, kind, status)).or_default() += 1;
        }
    }

    /// A malformed frame came back with this offset.
    pub fn offset(&mut self, frame: &[u8], offset: usize) {
        self.offsets[offset::place(frame, offset)] += 1;
    }

    /// A try that was refused by this number.
    pub fn tried(&mut self, number: usize) {
        self.tries += 1;
        self.numbers[number] += 1;
    }

    /// A whole inside was compared, in this status, with so many stored messages that have so many entries.
    pub fn inside(&mut self, status: usize, (messages, entries): (u64, u64)) {
        self.deep += 1;
        let stored = &mut self.stored[usize::from(status == 3)];
        stored.0 += messages;
        stored.1 += entries;
    }

    /// All calls that were compared.
    pub fn calls(&self) -> u64 {
        self.done + self.refused + self.tries + self.creations + self.client
    }

    /// Takes in the counts of another thread.
    pub fn add(&mut self, other: Counts) {
        for (kind, count) in other.schedules {
            *self.schedules.entry(kind).or_default() += count;
        }
        self.swept += other.swept;
        self.done += other.done;
        self.refused += other.refused;
        self.tries += other.tries;
        self.creations += other.creations;
        self.client += other.client;
        self.garbage += other.garbage;
        self.takings += other.takings;
        self.sums += other.sums;
        self.past += other.past;
        let pairs = self.cuts.iter_mut().chain(&mut self.states);
        for (mine, its) in pairs.zip(other.cuts.into_iter().chain(other.states)) {
            *mine += its;
        }
        self.deep += other.deep;
        for (mine, its) in self.stored.iter_mut().zip(other.stored) {
            mine.0 += its.0;
            mine.1 += its.1;
        }
        self.replies += other.replies;
        self.own_ids += other.own_ids;
        self.forgotten += other.forgotten;
        for (mine, its) in self.offsets.iter_mut().zip(other.offsets) {
            *mine += its;
        }
        for (mine, its) in self.numbers.iter_mut().zip(other.numbers) {
            *mine += its;
        }
        for (mine, its) in self.outcomes.iter_mut().zip(other.outcomes) {
            *mine += its;
        }
        let cells = self.met.iter_mut().flatten();
        for (mine, its) in cells.zip(other.met.into_iter().flatten()) {
            mine.0 += its.0;
            mine.1 += its.1;
        }
        let moves = self.moves.iter_mut().flatten();
        for (mine, its) in moves.zip(other.moves.into_iter().flatten()) {
            *mine += its;
        }
        for (cause, count) in other.later {
            *self.later.entry(cause).or_default() += count;
        }
    }

    /// What a run has to have met and didn't: the two exceptions, sums that are cut or refused, stored messages with entries, refusal
    /// numbers, places of offsets, calls of each kind in each status, and later causes.
    pub fn missing(&self) -> Vec<String> {
        let mut missing = Vec::new();
        let [most, nothing] = self.cuts;
        let [answered, refused] = self.states;
        for (name, count) in [
            ("a StartViewChange from the own id", self.own_ids),
            ("an install that would forget a reply", self.forgotten),
            ("a sum cut at the most", most),
            ("a sum cut at 0", nothing),
            ("a sum above the most", self.past),
            ("takings of a state with other bytes", answered),
            ("refused takings of such a state", refused),
        ] {
            if count == 0 {
                missing.push(String::from(name));
            }
        }
        for (name, (_, entries)) in STORED.iter().zip(self.stored) {
            if entries == 0 {
                missing.push(format!("stored {name} with entries"));
            }
        }
        for (number, count) in self.numbers.iter().enumerate().skip(1) {
            if *count == 0 {
                missing.push(format!("refusal {number}"));
            }
        }
        for (place, count) in PLACES.iter().zip(self.offsets) {
            if count == 0 {
                missing.push(format!("an offset of {place}"));
            }
        }
        for (status, cells) in self.met.iter().enumerate() {
            for (kind, (done, refused)) in cells.iter().enumerate() {
                if done + refused == 0 {
                    missing.push(format!("{} in {}", name(kind), STATUSES[status]));
                }
            }
        }
        for (number, kind) in LATER {
            if !self
                .later
                .keys()
                .any(|key| (key.0, key.1) == (number, kind))
            {
                missing.push(format!("later {number} on a {}", name(kind)));
            }
        }
        missing
    }

    /// All of it in lines.
    pub fn text(&self) -> String {
        let mut text = String::new();
        self.heads(&mut text);
        self.sums(&mut text);
        self.numbers(&mut text);
        self.exceptions(&mut text);
        self.causes(&mut text);
        self.table(&mut text);
        text
    }

    fn heads(&self, text: &mut String) {
        let schedules: u64 = self.schedules.values().sum();
        line(
            text,
            format_args!("schedules {schedules}: {}", listed(&self.schedules)),
        );
        line(
            text,
            format_args!(
                "bad input swept {}, each given to a fresh replica and read as a Reply",
                self.swept
            ),
        );
        line(
            text,
            format_args!(
                "calls compared {}: done {}, refused {}, refused tries before a call {}, creations {}, a client's {}; whole insides {}; besides, calls on memory of no call {}",
                self.calls(), self.done, self.refused, self.tries, self.creations, self.client, self.deep, self.garbage
            ),
        );
        let stored = STORED.iter().zip(self.stored);
        let stored = stored
            .map(|(name, (messages, entries))| format!("{name} {messages} with {entries} entries"));
        let stored: Vec<String> = stored.collect();
        line(
            text,
            format_args!(
                "stored messages compared in whole insides: {}",
                stored.join(", ")
            ),
        );
    }

    fn sums(&self, text: &mut String) {
        let ([most, nothing], [answered, refused]) = (self.cuts, self.states);
        line(
            text,
            format_args!(
                "takings held against the Rust's totals {}; calls with a sum of no call {}, cut at the most {most}, at 0 {nothing}; sums above the most {}; states with other bytes {answered} answered, {refused} refused",
                self.takings, self.sums, self.past
            ),
        );
    }

    /// Refusals by number, malformed frames by the place of their offset, entries by outcome.
    fn numbers(&self, text: &mut String) {
        let numbers = (1..12).map(|number| format!("{number}: {}", self.numbers[number]));
        let numbers: Vec<String> = numbers.collect();
        line(
            text,
            format_args!("refusals by number: {}", numbers.join(", ")),
        );
        let places = PLACES.iter().zip(self.offsets);
        let places = places.map(|(place, count)| format!("{place} {count}"));
        let places: Vec<String> = places.collect();
        line(
            text,
            format_args!(
                "malformed frames by the place of their offset {}: {}; malformed Replies {}",
                self.offsets.iter().sum::<u64>(),
                places.join(", "),
                self.replies
            ),
        );
        let outcomes = (1..7).map(|code| format!("{code}: {}", self.outcomes[code]));
        let outcomes: Vec<String> = outcomes.collect();
        line(
            text,
            format_args!("applied entries by outcome: {}", outcomes.join(", ")),
        );
    }

    fn exceptions(&self, text: &mut String) {
        line(
            text,
            format_args!(
                "StartViewChanges from the own id, which by document 01 would have joined the set: {}",
                self.own_ids
            ),
        );
        line(
            text,
            format_args!(
                "installs by which a reply would have been forgotten by document 01: {}",
                self.forgotten
            ),
        );
    }

    fn causes(&self, text: &mut String) {
        line(text, format_args!("later causes:"));
        for ((number, kind, status), count) in &self.later {
            let (kind, status) = (name(*kind), STATUSES[*status]);
            line(text, format_args!("  {number} {kind} in {status}: {count}"));
        }
        line(text, format_args!("statuses before and after a call:"));
        for (before, row) in self.moves.iter().enumerate() {
            let row = row.iter().enumerate();
            let row = row.map(|(after, count)| format!("{} {count}", STATUSES[after]));
            let row: Vec<String> = row.collect();
            line(
                text,
                format_args!("  {}: {}", STATUSES[before], row.join(", ")),
            );
        }
    }

    fn table(&self, text: &mut String) {
        line(
            text,
            format_args!("calls by kind, done/refused, in each status:"),
        );
        for kind in 0..ROWS {
            let name = name(kind);
            let cells = self.met.iter().map(|row| row[kind]);
            let cells = cells.map(|(done, refused)| format!("{done}/{refused}"));
            let cells: Vec<String> = cells.map(|cell| format!("{cell:>20}")).collect();
            line(text, format_args!("  {name:<17}{}", cells.join("")));
        }
    }
}

fn line(text: &mut String, words: std::fmt::Arguments) {
    writeln!(text, "{words}").expect("a string takes all");
}

fn listed(counts: &BTreeMap<&'static str, u64>) -> String {
    let words = counts.iter().map(|(kind, count)| format!("{kind} {count}"));
    words.collect::<Vec<_>>().join(", ")
}
