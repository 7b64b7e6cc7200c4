//! The treasurer's table: entries as CSV by RFC 4180, for a spreadsheet.
//!
//! Its rows end by CRLF. The first is the header `op,client,request,kind,member,cents`; then comes
//! one for each entry, op running 1, 2, 3, numbers in decimal without leading zeros, the kind
//! `fee`, `refund` or `ask`. What is exported has no quotes. In what is imported each field may be
//! quoted, and the last CRLF may be missing; every other difference from the table of some entries
//! is a bad row, 13. There may be any number of rows.
//!
//! Nothing here opens a file: a table is bytes.

use crate::entries::Entry;
use crate::{raw, Refusal};
use std::fmt;

/// How many bytes the header has, with its CRLF.
const HEADER_LENGTH: usize = 37;

/// Room for a row. None has more than 90 bytes; where each has this much, the library measures none
/// before it writes.
const ROW_ROOM: usize = 113;

/// The least: `1,0,0,ask,0,0`, without its CRLF.
const SHORTEST_ROW: usize = 13;

/// The table of these entries. Refusal 2 ([`Refusal::OutsideEntryRules`]) where the cents of one
/// are outside its rules; 9 doesn't come.
///
/// ```
/// use whitherhaul::{csv, Entry, Operation};
///
/// let fee = Entry { client: 7, request: 0, operation: Operation::Fee, member: 3, cents: 4_500 };
/// let table = csv::export(&[fee]).expect("4,500 cents are a fee");
/// assert_eq!(table, b"op,client,request,kind,member,cents\r\n1,7,0,fee,3,4500\r\n");
/// ```
pub fn export(entries: &[Entry]) -> Result<Vec<u8>, Refusal> {
    let run: Vec<u8> = entries.iter().flat_map(Entry::bytes).collect();
    let mut table = vec![0; HEADER_LENGTH + ROW_ROOM * entries.len()];
    let (number, bytes) = raw::csv_export(&run, &mut table);
    Refusal::check(number)?;
    table.truncate(bytes);
    Ok(table)
}

/// The entries of a table, a whole file. Refusal 13 ([`Refusal::BadRow`]) where a row is bad; 9
/// doesn't come. [`Entry::request`] makes an entry a Request.
///
/// ```
/// use whitherhaul::csv::{self, Column, FieldFault};
/// use whitherhaul::Refusal;
///
/// let good = b"op,client,request,kind,member,cents\r\n1,7,0,\"fee\",3,4500";
/// assert_eq!(csv::import(good).expect("a table")[0].cents, 4_500);
///
/// let bad = b"op,client,request,kind,member,cents\r\n1,07,0,fee,3,4500\r\n";
/// let refusal = csv::import(bad).unwrap_err();
/// let (column, fault) = (Column::Client, FieldFault::Value);
/// assert_eq!(refusal, Refusal::BadRow { row: 2, column, fault, offset: 39 });
/// assert_eq!(
///     refusal.to_string(),
///     "refusal 13: bad row 2: client (byte 39): it isn't what belongs there"
/// );
/// ```
pub fn import(file: &[u8]) -> Result<Vec<Entry>, Refusal> {
    let mut area = vec![0; 32 * (file.len() / SHORTEST_ROW)];
    let (number, answers) = raw::csv_import(file, &mut area);
    Refusal::check_table(number, answers)?;
    let entries = area.chunks_exact(32).take(answers[0] as usize);
    Ok(entries.map(Entry::of).collect())
}

/// A field of a row, by what stands there.
///
/// As with [`Refusal`], a later release may add some.
#[derive(Clone, Copy, Debug, PartialEq, Eq, PartialOrd, Ord, Hash)]
#[non_exhaustive]
pub enum Column {
    /// 1: the op number.
    Op = 1,
    /// 2: whose request it is.
    Client,
    /// 3: its number among the client's.
    Request,
    /// 4: the operation, `fee`, `refund` or `ask`.
    Kind,
    /// 5: whose total it is about.
    Member,
    /// 6: how much.
    Cents,
}

impl Column {
    /// The C calls' number: 1 to 6 in this release.
    pub fn number(self) -> u8 {
        self as u8
    }

    /// The column with this number.
    pub fn from_number(number: u8) -> Option<Column> {
        Some(match number {
            1 => Column::Op,
            2 => Column::Client,
            3 => Column::Request,
            4 => Column::Kind,
            5 => Column::Member,
            6 => Column::Cents,
            _ => return None,
        })
    }

    /// Its word in the header.
    pub fn name(self) -> &'static str {
        match self {
            Column::Op => "op",
            Column::Client => "client",
            Column::Request => "request",
            Column::Kind => "kind",
            Column::Member => "member",
            Column::Cents => "cents",
        }
    }
}

/// Its word in the header.
impl fmt::Display for Column {
    fn fmt(&self, f: &mut fmt::Formatter<'_>) -> fmt::Result {
        f.write_str(self.name())
    }
}

/// What is wrong with the first bad field of a bad row. Where several things are, the one with the
/// lowest number is named.
///
/// As with [`Refusal`], a later release may add some.
#[derive(Clone, Copy, Debug, PartialEq, Eq, PartialOrd, Ord, Hash)]
#[non_exhaustive]
pub enum FieldFault {
    /// 1: there is no closing quote, or behind it, or behind a field without quotes, stands
    /// something else than a comma, CRLF or the file's end; also a quoted field that holds a comma,
    /// CR, LF or a quote written twice, which no field of this table does.
    Form = 1,
    /// 2: it isn't the header's word, the row's op, a number in its bounds, a kind, or cents that
    /// the kind can have, as it would be exported.
    Value,
    /// 3: the row ends behind it, before its sixth field.
    RowEnds,
    /// 4: it is the sixth, and a comma stands behind it.
    RowGoesOn,
}

impl FieldFault {
    /// The C calls' number: 1 to 4 in this release.
    pub fn number(self) -> u8 {
        self as u8
    }

    /// The fault with this number.
    pub fn from_number(number: u8) -> Option<FieldFault> {
        Some(match number {
            1 => FieldFault::Form,
            2 => FieldFault::Value,
            3 => FieldFault::RowEnds,
            4 => FieldFault::RowGoesOn,
            _ => return None,
        })
    }

    /// What a number says; none where this release has no such number.
    pub fn words(number: u8) -> Option<&'static str> {
        Some(match number {
            1 => "a quote, comma or line end stands where none belongs, or its closing quote is missing",
            2 => "it isn't what belongs there",
            3 => "the row ends behind it",
            4 => "the row goes on behind it",
            _ => return None,
        })
    }
}

/// The words, without the number.
impl fmt::Display for FieldFault {
    fn fmt(&self, f: &mut fmt::Formatter<'_>) -> fmt::Result {
        f.write_str(FieldFault::words(self.number()).expect("a fault has words"))
    }
}
