//! A journal as a table: what stands in it, whatever the fee rules say of it.

use crate::words::{bad_frame, money};
use whitherhaul::journal::{frames, JournalFrame};
use whitherhaul::{Operation, Outcome};

const COLUMNS: usize = 9;
const HEADER: [&str; COLUMNS] = [
    "op", "client", "request", "kind", "member", "euros", "outcome", "total", "takings",
];
/// Words stand at the left of their column, numbers at the right.
const WORDS: [bool; COLUMNS] = [false, false, false, true, false, false, true, false, false];

/// The lines of a table, and whether every frame could be read.
#[derive(Clone, Debug, PartialEq, Eq)]
pub struct Table {
    /// The header, a line for each frame, and one that says which frame can't be read.
    pub lines: Vec<String>,
    /// How many frames there are before the end, or before one that can't be read.
    pub frames: usize,
    /// Whether there is no such one.
    pub readable: bool,
}

/// The table of a journal, to its end or its first frame that can't be read.
pub fn table(file: &[u8]) -> Table {
    let mut rows = vec![HEADER.map(String::from)];
    let mut takings = 0;
    let mut bad = None;
    let mut read = frames(file);
    while let Some(frame) = read.next() {
        match frame {
            Ok(frame) => {
                takings = takings_after(takings, &frame);
                rows.push(row(&frame, takings));
            }
            Err(fault) => bad = Some(bad_frame(read.offset(), fault)),
        }
    }
    let mut table = Table {
        lines: aligned(&rows),
        frames: rows.len() - 1,
        readable: bad.is_none(),
    };
    table.lines.extend(bad);
    table
}

/// The takings after a frame, by the outcome that stands there. They stop at 0 where a journal that
/// isn't good pays back more; 4,096 fees don't come near the most that a replica keeps.
fn takings_after(takings: u64, frame: &JournalFrame) -> u64 {
    let cents = frame.entry.cents;
    match frame.known_outcome() {
        Some(Outcome::Fee) => takings.saturating_add(cents),
        Some(Outcome::Refund) => takings.saturating_sub(cents),
        _ => takings,
    }
}

fn row(frame: &JournalFrame, takings: u64) -> [String; COLUMNS] {
    let entry = &frame.entry;
    [
        frame.op.to_string(),
        entry.client.to_string(),
        entry.request.to_string(),
        String::from(kind(entry.operation)),
        entry.member.to_string(),
        money(entry.cents),
        outcome(frame),
        money(frame.total),
        money(takings),
    ]
}

fn kind(operation: Operation) -> &'static str {
    match operation {
        Operation::Fee => "fee",
        Operation::Refund => "refund",
        Operation::Ask => "ask",
    }
}

fn outcome(frame: &JournalFrame) -> String {
    let words = match frame.known_outcome() {
        Some(Outcome::Fee) => "taken",
        Some(Outcome::Refund) => "paid back",
        Some(Outcome::Ask) => "total told",
        Some(Outcome::NoMember) => "no such member",
        Some(Outcome::PastLimit) => "not taken, past the limit",
        Some(Outcome::PastTotal) => "not paid, above the total",
        None => return format!("{}, which is no outcome", frame.outcome),
    };
    String::from(words)
}

/// A line for each row, each column as wide as its widest cell.
fn aligned(rows: &[[String; COLUMNS]]) -> Vec<String> {
    let widths: [usize; COLUMNS] = std::array::from_fn(|column| {
        let cells = rows.iter().map(|row| row[column].len());
        cells.max().unwrap_or_default()
    });
    let cell = |row: &[String; COLUMNS], column: usize| {
        let (cell, width) = (&row[column], widths[column]);
        match WORDS[column] {
            true => format!("{cell:<width$}"),
            false => format!("{cell:>width$}"),
        }
    };
    let line = |row| {
        let cells: [String; COLUMNS] = std::array::from_fn(|column| cell(row, column));
        cells.join("  ")
    };
    rows.iter().map(line).collect()
}
