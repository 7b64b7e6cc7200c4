//! The treasurer's table a second time, from its rules and by another road than the library's: RFC
//! 4180 first, which parts a row into fields whatever they say; then a row is good where it is the
//! one that export would write for the entry that it seems to say.

use super::model;

/// The header's words.
const HEADER: [&[u8]; 6] = [b"op", b"client", b"request", b"kind", b"member", b"cents"];

/// The kinds, by the operations' numbers from 1 on.
const KINDS: [&str; 3] = ["fee", "refund", "ask"];

/// What stands behind a field.
#[derive(Clone, Copy, Debug, PartialEq)]
enum End {
    Comma,
    Crlf,
    File,
    /// It isn't closed as RFC 4180 wants it.
    Wrong,
}

/// A field: where it begins in the file, its bytes without quotes, its end, and where the next
/// begins.
#[derive(Debug)]
struct Field {
    begins: usize,
    content: Vec<u8>,
    end: End,
    next: usize,
}

/// How a text ends at this place, and where what follows begins; none where it goes on.
fn end_at(file: &[u8], at: usize) -> Option<(End, usize)> {
    match &file[at..] {
        [] => Some((End::File, at)),
        [b',', ..] => Some((End::Comma, at + 1)),
        [b'\r', b'\n', ..] => Some((End::Crlf, at + 2)),
        _ => None,
    }
}

/// A field in quotes: up to the next lone quote, each pair of quotes one.
fn quoted(file: &[u8], begins: usize) -> Field {
    let (mut content, mut at) = (Vec::new(), begins + 1);
    let (end, next) = loop {
        match &file[at..] {
            [] => break (End::Wrong, at),
            [b'"', b'"', ..] => {
                content.push(b'"');
                at += 2;
            }
            [b'"', ..] => break end_at(file, at + 1).unwrap_or((End::Wrong, at)),
            [byte, ..] => {
                content.push(*byte);
                at += 1;
            }
        }
    };
    Field {
        begins,
        content,
        end,
        next,
    }
}

/// A field without: up to a comma, CRLF or the file's end, and with no quote in it.
fn plain(file: &[u8], begins: usize) -> Field {
    let mut ends = (begins..).filter_map(|at| Some((at, end_at(file, at)?)));
    let (at, (end, next)) = ends.next().expect("the file ends");
    let content = file[begins..at].to_vec();
    let end = if content.contains(&b'"') {
        End::Wrong
    } else {
        end
    };
    Field {
        begins,
        content,
        end,
        next,
    }
}

/// The fields of the row that begins here, up to one that isn't RFC 4180's.
fn row_at(file: &[u8], mut at: usize) -> Vec<Field> {
    let mut row: Vec<Field> = Vec::new();
    loop {
        let field = match file.get(at) {
            Some(b'"') => quoted(file, at),
            _ => plain(file, at),
        };
        at = field.next;
        let more = field.end == End::Comma;
        row.push(field);
        if !more {
            return row;
        }
    }
}

/// The entry of a row that has this op: its fields are those that export would write for it.
fn entry_of(op: usize, fields: &[&[u8]]) -> Option<Vec<u8>> {
    let text: Option<Vec<&str>> = fields.iter().map(|f| std::str::from_utf8(f).ok()).collect();
    let text = text?;
    let [_, client, request, kind, member, cents] = text[..] else {
        return None;
    };
    let operation = 1 + KINDS.iter().position(|word| *word == kind)?;
    let entry = model::entry(
        client.parse().ok()?,
        request.parse().ok()?,
        operation as u8,
        member.parse().ok()?,
        cents.parse().ok()?,
    );
    let same = model::is_entry(&entry) && row_of(op, &entry) == text.join(",");
    same.then_some(entry)
}

/// What a row says, the header being row 1: nothing, or an entry; none where it is bad.
fn said(row: usize, fields: &[Field]) -> Option<Vec<u8>> {
    if fields.iter().any(|field| field.end == End::Wrong) {
        return None;
    }
    let contents: Vec<&[u8]> = fields.iter().map(|field| &field.content[..]).collect();
    match row {
        1 => (contents == HEADER).then(Vec::new),
        _ => entry_of(row - 1, &contents),
    }
}

/// A bad row: its number, its first bad field by number, what is wrong with it, where it begins.
pub type Bad = [usize; 4];

/// Imports a file; its first bad row where it has one.
pub fn import(file: &[u8]) -> Result<Vec<u8>, Bad> {
    let (mut entries, mut at) = (Vec::new(), 0);
    for row in 1.. {
        let fields = row_at(file, at);
        entries.extend(said(row, &fields).ok_or_else(|| bad(row, &fields))?);
        at = fields[fields.len() - 1].next;
        if at == file.len() {
            break;
        }
    }
    Ok(entries)
}

/// The first bad field of a bad row.
fn bad(row: usize, fields: &[Field]) -> Bad {
    let kind = fields.get(3).map_or(&b""[..], |field| &field.content);
    for (number, field) in (1..=6).zip(fields) {
        let fault = fault(row, number, kind, field);
        if fault != 0 {
            return [row, number, fault, field.begins];
        }
    }
    panic!("row {row} is bad, and each of its fields is good: {fields:?}");
}

/// What is wrong with a field of a row with this kind: 1 its form, 2 what it says, 3 the row ends
/// behind it, 4 it goes on.
fn fault(row: usize, number: usize, kind: &[u8], field: &Field) -> usize {
    let never = |byte: &u8| b"\",\r\n".contains(byte);
    if field.end == End::Wrong || field.content.iter().any(never) {
        return 1;
    }
    if !fits(row, number, kind, &field.content) {
        return 2;
    }
    match (number, field.end) {
        (6, End::Comma) => 4,
        (6, _) | (_, End::Comma) => 0,
        _ => 3,
    }
}

/// Whether a content can stand there: in the header its word, else in a row that is good but for it,
/// of this kind where that matters.
fn fits(row: usize, number: usize, kind: &[u8], content: &[u8]) -> bool {
    if row == 1 {
        return content == HEADER[number - 1];
    }
    let op = (row - 1).to_string();
    let mut fields = [op.as_bytes(), b"0", b"0", b"ask", b"0", b"0"];
    match number {
        4 if content != b"ask" => fields[5] = b"1",
        6 => fields[3] = kind,
        _ => {}
    }
    fields[number - 1] = content;
    entry_of(row - 1, &fields).is_some()
}

/// The row of an entry, without its CRLF.
pub fn row_of(op: usize, entry: &[u8]) -> String {
    format!(
        "{op},{},{},{},{},{}",
        model::number(&entry[..8]),
        model::number(&entry[8..16]),
        KINDS[usize::from(entry[16]) - 1],
        model::number(&entry[20..24]),
        model::number(&entry[24..])
    )
}

/// The table of a run of entries that keep the rules.
pub fn export(run: &[u8]) -> Vec<u8> {
    let rows = (1..).zip(run.chunks(32)).map(|(op, e)| row_of(op, e));
    let header = String::from_utf8(HEADER.join(&b","[..])).expect("ASCII");
    let ended = |row: String| row + "\r\n";
    let table: String = std::iter::once(header).chain(rows).map(ended).collect();
    table.into_bytes()
}

/// What export answers for a run of entries and an area: the number, and the table where it is 0.
pub fn exported(run: &[u8], room: usize) -> (u8, Vec<u8>) {
    let good = |entry: &[u8]| entry.len() == 32 && model::is_entry(entry);
    if !run.chunks(32).all(good) {
        return (2, Vec::new());
    }
    let table = export(run);
    match room < table.len() {
        true => (9, Vec::new()),
        false => (0, table),
    }
}
