//! What may help who has a bad row: its likely cause.

use crate::bad_row::BadRow;
use whitherhaul::csv::{Column, FieldFault};

const LF_ALONE: &str = "LF alone doesn't end a row, CR LF does";
const CR_ALONE: &str = "CR alone doesn't end a row, CR LF does";

/// The field at the front of what is left of a file, as it stands there, with its quotes: to the
/// next comma or CR LF.
pub fn field(rest: &[u8]) -> &[u8] {
    let behind = closing(rest).map_or(0, |closing| closing + 1);
    let ends = |at: &usize| rest[*at] == b',' || rest[*at..].starts_with(b"\r\n");
    let end = (behind..rest.len()).find(ends).unwrap_or(rest.len());
    &rest[..end]
}

/// A field without its quotes, where it has some around it.
pub fn unquoted(field: &[u8]) -> &[u8] {
    let inside = field.strip_prefix(b"\"");
    let inside = inside.and_then(|field| field.strip_suffix(b"\""));
    inside.unwrap_or(field)
}

/// Where the closing quote stands of a field that begins with a quote; a quote that is written twice
/// closes nothing.
fn closing(rest: &[u8]) -> Option<usize> {
    if rest.first() != Some(&b'"') {
        return None;
    }
    let mut at = 1;
    loop {
        at += rest[at..].iter().position(|byte| *byte == b'"')?;
        if rest.get(at + 1) != Some(&b'"') {
            return Some(at);
        }
        at += 2;
    }
}

/// The likely cause, where there is a common one.
pub fn hint(bad: &BadRow) -> Option<&'static str> {
    match bad.fault {
        _ if bad.offset == 0 && other(bad.file).is_some() => other(bad.file),
        FieldFault::Form if bad.rest().starts_with(b"\"") => Some(quoted_form(bad.rest())),
        FieldFault::Form => Some(plain_form(bad.rest())),
        _ => value(bad, unquoted(field(bad.rest()))),
    }
}

/// What a file is that begins as no table does.
fn other(file: &[u8]) -> Option<&'static str> {
    let begins = |front: &[u8]| file.starts_with(front);
    if file.is_empty() {
        Some("the file is empty")
    } else if begins(b"\xEF\xBB\xBF") {
        Some("a byte order mark stands before the header, save the file without one")
    } else if begins(&[0, 0, 0, 46, 1]) {
        Some("this is a journal, ledger export makes a table of it")
    } else if begins(b"PK\x03\x04") {
        Some("this is a spreadsheet program's own file, save it as CSV")
    } else {
        None
    }
}

/// What is wrong with the form of a field without quotes.
fn plain_form(rest: &[u8]) -> &'static str {
    match field(rest).iter().find(|byte| b"\"\r\n".contains(byte)) {
        Some(b'\n') => LF_ALONE,
        Some(b'\r') => CR_ALONE,
        _ => "a quote stands inside it",
    }
}

/// What is wrong with the form of a field that begins with a quote.
fn quoted_form(rest: &[u8]) -> &'static str {
    let Some(closing) = closing(rest) else {
        return "its quotes aren't closed";
    };
    let inside = &rest[1..closing];
    match inside.iter().find(|byte| b"\",\r\n".contains(byte)) {
        Some(b'"') => return "a quote stands inside its quotes",
        Some(b',') => return "a comma stands inside its quotes",
        Some(_) => return "a line end stands inside its quotes",
        None => {}
    }
    match rest.get(closing + 1) {
        Some(b'\n') => LF_ALONE,
        Some(b'\r') => CR_ALONE,
        _ => "something stands behind its closing quote",
    }
}

/// Why a content may not be what belongs there.
fn value(bad: &BadRow, text: &[u8]) -> Option<&'static str> {
    let has = |byte: u8| text.contains(&byte);
    let behind = &bad.rest()[field(bad.rest()).len()..];
    if bad.column == Column::Op && text.is_empty() && !behind.starts_with(b",") {
        return Some("the row is empty");
    }
    if has(b';') {
        return Some("fields are parted by commas, not by semicolons");
    }
    if has(b'\t') {
        return Some("fields are parted by commas, not by tabs");
    }
    if has(b' ') {
        return Some("no blank belongs there");
    }
    match bad.column {
        column if bad.row == 1 => small(text, &[column.name()]),
        Column::Kind => small(text, &["fee", "refund", "ask"]),
        column => number(column, text),
    }
}

/// Whether only capital letters keep a text from being one of these words.
fn small(text: &[u8], words: &[&str]) -> Option<&'static str> {
    let mut words = words.iter().map(|word| word.as_bytes());
    let same = words.any(|word| text.eq_ignore_ascii_case(word));
    same.then_some("its letters are small ones")
}

/// Why a text may not be the number that belongs there.
fn number(column: Column, text: &[u8]) -> Option<&'static str> {
    let digits = !text.is_empty() && text.iter().all(u8::is_ascii_digit);
    let signed = text.starts_with(b"+") || text.starts_with(b"-");
    let formatted = text.iter().any(|byte| b".eE".contains(byte));
    match column {
        _ if digits && text.len() > 1 && text[0] == b'0' => Some("a number has no leading zeros"),
        _ if signed => Some("a number has no sign"),
        Column::Op if digits => Some("a row is missing, added or moved: op counts the entries"),
        Column::Cents if formatted => Some("4500 stands for 45.00 euros"),
        _ if formatted => Some("give the column the type text, so that no program rounds it"),
        _ => None,
    }
}
