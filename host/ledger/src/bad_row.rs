//! What is said of a table's first bad row.
//!
//! The library says which field is bad, where it begins and what sort of fault it is. What was
//! expected and what may help follows from the bytes there.

use crate::hints;
use std::fmt;
use whitherhaul::csv::{Column, FieldFault};

/// How many characters of a field are shown.
const SHOWN: usize = 40;

/// How many fields a row has.
const FIELDS: usize = 6;

/// A table, its first bad row, and the first bad field of that.
#[derive(Clone, Copy, Debug)]
pub struct BadRow<'a> {
    /// The table's bytes.
    pub file: &'a [u8],
    /// The row's number; the header is row 1.
    pub row: usize,
    /// The field.
    pub column: Column,
    /// What is wrong with it.
    pub fault: FieldFault,
    /// Where it begins.
    pub offset: usize,
}

impl<'a> BadRow<'a> {
    /// What is left of the file from the field on.
    pub fn rest(&self) -> &'a [u8] {
        &self.file[self.offset..]
    }

    /// What can stand in the field.
    fn expected(&self) -> String {
        if self.row == 1 {
            return format!("the word {}", self.column);
        }
        let number = |from: u64, to: u64| format!("a number from {from} to {to}");
        match self.column {
            Column::Op => (self.row - 1).to_string(),
            Column::Client | Column::Request => number(0, u64::MAX),
            Column::Kind => String::from("fee, refund or ask"),
            Column::Member => number(0, u32::MAX.into()),
            Column::Cents if self.kind() == b"ask" => String::from("0, as an ask has"),
            Column::Cents => {
                let kind = String::from_utf8_lossy(self.kind());
                format!("{}, as a {kind} has", number(1, 1_000_000))
            }
            _ => String::from("something else"),
        }
    }

    /// The kind of the row whose field cents this is: two fields before it, which are good ones.
    fn kind(&self) -> &'a [u8] {
        let mut before = self.file[..self.offset].rsplit(|byte| *byte == b',');
        hints::unquoted(before.nth(2).unwrap_or_default())
    }
}

/// Row, field, what was expected and what stands there.
impl fmt::Display for BadRow<'_> {
    fn fmt(&self, f: &mut fmt::Formatter<'_>) -> fmt::Result {
        let header = if self.row == 1 { " (the header)" } else { "" };
        write!(f, "bad row {}{header}, field {}: ", self.row, self.column)?;
        match self.fault {
            FieldFault::RowEnds => {
                let fields = usize::from(self.column.number());
                let word = if fields == 1 { "field" } else { "fields" };
                let found = "found the end of the row";
                write!(f, "expected a comma behind it, {found}; ")?;
                write!(f, "it has {fields} {word}, and {FIELDS} were expected")
            }
            FieldFault::RowGoesOn => {
                let found = "found a comma";
                write!(f, "expected the end of the row behind it, {found}; ")?;
                write!(f, "it has more than {FIELDS} fields")
            }
            _ => {
                let found = shown(hints::field(self.rest()));
                write!(f, "expected {}, found {found}", self.expected())?;
                hints::hint(self).map_or(Ok(()), |hint| write!(f, "; {hint}"))
            }
        }
    }
}

/// A field on one line, whatever it holds, and not all of a long one.
fn shown(field: &[u8]) -> String {
    if field.is_empty() {
        return String::from("nothing");
    }
    // No character has more than four bytes.
    let front = &field[..field.len().min(4 * (SHOWN + 1))];
    let pieces = front.utf8_chunks().flat_map(|chunk| {
        let bytes = chunk.invalid().iter().map(|byte| format!("\\x{byte:02X}"));
        chunk.valid().chars().map(escaped).chain(bytes)
    });
    let mut pieces: Vec<String> = pieces.collect();
    let more = if pieces.len() > SHOWN { ".." } else { "" };
    pieces.truncate(SHOWN);
    format!("'{}{more}'", pieces.concat())
}

fn escaped(character: char) -> String {
    match character {
        '"' | '\'' => character.to_string(),
        _ => character.escape_debug().to_string(),
    }
}
