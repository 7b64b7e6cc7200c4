//! A table of entries judged, as it comes back from a spreadsheet.

use crate::bad_row::BadRow;
use crate::input;
use crate::words::{count, money};
use ledger_options::Source;
use std::fmt;
use whitherhaul::{csv, Entry, Operation, Refusal};

/// How many entries of a kind there are, and their cents added up.
#[derive(Clone, Copy, Debug, Default, PartialEq, Eq)]
pub struct Sum {
    /// How many there are.
    pub entries: u64,
    /// Their cents.
    pub cents: u64,
}

/// What a table is.
#[derive(Clone, Debug, PartialEq, Eq)]
pub enum Verdict {
    /// It is good, and its fees, refunds and asks come to this.
    Good([Sum; 3]),
    /// A row is bad: which, and why.
    Bad(String),
}

/// A table that was read and judged.
#[derive(Clone, Debug)]
pub struct Imported {
    /// What it is called.
    pub name: String,
    /// What it is.
    pub verdict: Verdict,
}

/// Reads a table and judges it; what keeps it from being read is said in one sentence.
pub fn import(source: &Source) -> Result<Imported, String> {
    let file = input::read_whole(source)?;
    let verdict = judge(&file).map_err(|refusal| refusal.to_string())?;
    let name = input::name(source);
    Ok(Imported { name, verdict })
}

/// Judges a table.
pub fn judge(file: &[u8]) -> Result<Verdict, Refusal> {
    match csv::import(file) {
        Ok(entries) => Ok(Verdict::Good(sums(&entries))),
        Err(Refusal::BadRow {
            row,
            column,
            fault,
            offset,
        }) => {
            let bad = BadRow {
                file,
                row,
                column,
                fault,
                offset,
            };
            Ok(Verdict::Bad(bad.to_string()))
        }
        Err(refusal) => Err(refusal),
    }
}

/// The sums of fees, refunds and asks.
fn sums(entries: &[Entry]) -> [Sum; 3] {
    let mut sums = [Sum::default(); 3];
    for entry in entries {
        let sum = match entry.operation {
            Operation::Fee => &mut sums[0],
            Operation::Refund => &mut sums[1],
            Operation::Ask => &mut sums[2],
        };
        sum.entries += 1;
        sum.cents += entry.cents;
    }
    sums
}

impl Imported {
    /// The program's exit status: 0 good, 1 bad.
    pub fn status(&self) -> u8 {
        match self.verdict {
            Verdict::Good(_) => 0,
            Verdict::Bad(_) => 1,
        }
    }
}

/// The line of `ledger import`.
impl fmt::Display for Imported {
    fn fmt(&self, f: &mut fmt::Formatter<'_>) -> fmt::Result {
        write!(f, "{}: {}", self.name, self.verdict)
    }
}

/// The same without the table's name.
impl fmt::Display for Verdict {
    fn fmt(&self, f: &mut fmt::Formatter<'_>) -> fmt::Result {
        match self {
            Verdict::Good([fees, refunds, asks]) => {
                let all = fees.entries + refunds.entries + asks.entries;
                let all = count(all, "entry", "entries");
                let [paid, back] = [fees, refunds].map(|sum| money(sum.cents));
                let fees = count(fees.entries, "fee", "fees");
                let refunds = count(refunds.entries, "refund", "refunds");
                let asks = count(asks.entries, "ask", "asks");
                write!(f, "good: {all}: {fees} ({paid} euros), ")?;
                write!(f, "{refunds} ({back} euros), {asks}")
            }
            Verdict::Bad(why) => f.write_str(why),
        }
    }
}
