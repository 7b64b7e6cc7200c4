//! The entries of a journal as a table for a spreadsheet.

use crate::check::{check, Checked, Verdict};
use ledger_options::Source;
use whitherhaul::{csv, Journal, Refusal};

/// What came of a journal.
#[derive(Clone, Debug)]
pub enum Exported {
    /// It is good, and this is the table of its entries.
    Table(Vec<u8>),
    /// It is bad.
    Bad(Checked),
}

/// Reads a journal, judges it and writes its table; what keeps it from being read is said in one
/// sentence.
pub fn export(source: &Source, members: u32) -> Result<Exported, String> {
    let checked = check(source, members)?;
    if let Verdict::Bad { .. } = checked.verdict {
        return Ok(Exported::Bad(checked));
    }
    let table = table(members, &checked.content).map_err(|refusal| refusal.to_string())?;
    Ok(Exported::Table(table))
}

/// The table of a good journal.
fn table(members: u32, journal: &[u8]) -> Result<Vec<u8>, Refusal> {
    csv::export(Journal::read(members, journal)?.entries())
}
