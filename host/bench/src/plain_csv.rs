//! The table of entries in plain Rust, as one would write it: the yardstick of the library's calls. Fields are written by
//! `write!`, and read by `split` and `parse`; quotes aren't known.

use std::fmt::Write;

const HEADER: &str = "op,client,request,kind,member,cents";
const ENTRY: usize = 32;
const KINDS: [&str; 3] = ["fee", "refund", "ask"];

/// An entry whose numbers keep the entry rules.
struct Entry {
    client: u64,
    request: u64,
    kind: usize,
    member: u32,
    cents: u64,
}

impl Entry {
    /// The entry of 32 bytes; none where they are outside the entry rules.
    fn of(bytes: &[u8; ENTRY]) -> Option<Entry> {
        let (operation, cents) = (bytes[16], u64_at(bytes, 24));
        let kind = usize::from(operation).checked_sub(1)?;
        let good = kind < KINDS.len() && allowed(kind, cents) && bytes[17..20] == [0; 3];
        good.then(|| Entry {
            client: u64_at(bytes, 0),
            request: u64_at(bytes, 8),
            kind,
            member: u32::from_be_bytes(*bytes[20..].first_chunk().expect("four bytes")),
            cents,
        })
    }

    /// Its 32 bytes.
    fn push(&self, run: &mut Vec<u8>) {
        run.extend(self.client.to_be_bytes());
        run.extend(self.request.to_be_bytes());
        run.extend([self.kind as u8 + 1, 0, 0, 0]);
        run.extend(self.member.to_be_bytes());
        run.extend(self.cents.to_be_bytes());
    }

    /// The entry of a row with this op; none where a field isn't as it is exported.
    fn read(op: u64, row: &str) -> Option<Entry> {
        let mut fields = row.split(',');
        if number(fields.next()?)? != op {
            return None;
        }
        let client = number(fields.next()?)?;
        let request = number(fields.next()?)?;
        let kind = fields.next()?;
        let kind = KINDS.iter().position(|known| *known == kind)?;
        let member = u32::try_from(number(fields.next()?)?).ok()?;
        let cents = number(fields.next()?)?;
        (fields.next().is_none() && allowed(kind, cents)).then_some(Entry {
            client,
            request,
            kind,
            member,
            cents,
        })
    }
}

/// Whether a kind can have so many cents.
fn allowed(kind: usize, cents: u64) -> bool {
    match kind {
        2 => cents == 0,
        _ => (1..=1_000_000).contains(&cents),
    }
}

/// A number in its one form: `parse` also takes a sign and leading zeros.
fn number(text: &str) -> Option<u64> {
    let other = text.starts_with('+') || text.len() > 1 && text.starts_with('0');
    text.parse().ok().filter(|_| !other)
}

/// The table of a run of entries in place of what the text was; the number of a refusal, or 0.
pub fn export(run: &[u8], text: &mut String) -> u8 {
    text.clear();
    let (entries, rest) = run.as_chunks();
    if !rest.is_empty() || entries.iter().any(|entry| Entry::of(entry).is_none()) {
        return 2;
    }
    text.push_str(HEADER);
    text.push_str("\r\n");
    for (op, entry) in (1..).zip(entries.iter().filter_map(Entry::of)) {
        put(text, op, &entry);
    }
    0
}

fn put(text: &mut String, op: u64, entry: &Entry) {
    let Entry {
        client,
        request,
        kind,
        member,
        cents,
    } = entry;
    let kind = KINDS[*kind];
    write!(text, "{op},{client},{request},{kind},{member},{cents}\r\n")
        .expect("a String takes all");
}

/// A table's entries in place of what the run was; the number of a refusal or 0, and with 13 the first bad row.
pub fn import(file: &[u8], run: &mut Vec<u8>) -> (u8, u64) {
    run.clear();
    let Ok(text) = std::str::from_utf8(file) else {
        return (13, 0);
    };
    let text = text.strip_suffix("\r\n").unwrap_or(text);
    let mut rows = text.split("\r\n");
    if rows.next() != Some(HEADER) {
        return (13, 1);
    }
    for (op, row) in (1..).zip(rows) {
        match Entry::read(op, row) {
            Some(entry) => entry.push(run),
            None => return (13, op + 1),
        }
    }
    (0, 0)
}

fn u64_at(bytes: &[u8], at: usize) -> u64 {
    u64::from_be_bytes(*bytes[at..].first_chunk().expect("eight bytes"))
}
