//! What is said of a frame, above and below the table of its fields.

use crate::rules::{allowed, judge, number, Allowed, Bytes, Verdict};
use crate::shapes::{Entries, Reader, REPLY};
use crate::show::Shown;
use crate::words::{counted, grouped, hex, kind, why};

/// The most bytes of a set that are listed one by one.
const LISTED: usize = 4;

/// What is said where a Reply was guessed.
pub const GUESSED: &str = "\
Read as a Reply for a desk, since it has a Reply's length and kind.
A replica refuses it by 2 with offset 3 (--replica).
";

/// Everything that is said of a frame: how long it is, its fields, what is wrong, and what may be
/// meant.
pub fn tell(shown: &Shown) -> String {
    let mut text = format!("{}\n\n{}\n", size(shown.frame), shown.table());
    for line in verdict(shown).into_iter().chain(hints(shown)) {
        text.push_str(&line);
        text.push('\n');
    }
    text
}

/// Who reads a frame where nothing was said about it: what has the length and kind of a Reply can
/// be nothing else.
pub fn guessed(frame: &[u8]) -> Reader {
    match frame {
        [0, 0, 0, 0x20, 1, REPLY, ..] => Reader::Desk,
        _ => Reader::Replica,
    }
}

/// How many bytes there are, and how many there should be.
fn size(frame: &[u8]) -> String {
    let there = counted(frame.len() as u64, "byte", "bytes");
    match announced(frame) {
        Some(whole) if whole != frame.len() as u64 => {
            let length = grouped(whole - 4);
            format!(
                "{there}; with length {length} a frame has {}.",
                grouped(whole)
            )
        }
        _ => format!("{there}."),
    }
}

/// The bytes of a frame with this length, these four included.
fn announced(frame: &[u8]) -> Option<u64> {
    Some(4 + number(frame.get(..4)?))
}

fn verdict(shown: &Shown) -> Vec<String> {
    match shown.verdict {
        Verdict::WellFormed => well_formed(shown),
        Verdict::Missing(place) => missing(shown, place),
        Verdict::Wrong(place) => wrong(shown, place),
    }
}

fn well_formed(shown: &Shown) -> Vec<String> {
    let name = kind(shown.frame[5]);
    match shown.reader {
        Reader::Replica => vec![
            format!("Well formed: {name} to replica {}.", shown.frame[6]),
            String::from(
                "Refusals 3 to 6 aren't judged; most depend on the replica's setup and log.",
            ),
        ],
        Reader::Desk => vec![format!("Well formed: {name}.")],
    }
}

fn missing(shown: &Shown, place: usize) -> Vec<String> {
    let there = match announced(shown.frame) {
        Some(whole) => format!("{} of {}", grouped(place as u64), grouped(whole)),
        None => format!("{place} of the length's 4"),
    };
    let next = allowed(shown.reader, shown.frame);
    let why = why(shown.reader, &next, shown.frame);
    let can = match can_hold(&next.bytes) {
        Some(words) => format!(" and {words}"),
        None => String::new(),
    };
    vec![
        format!("Malformed: refusal 2, offset {place}. Only bytes are missing: {there} are there."),
        format!("{}: {why}.", named(&next)),
        format!("Place {place}, {}, comes next{can}.", part(&next, place)),
    ]
}

fn wrong(shown: &Shown, place: usize) -> Vec<String> {
    let before = &shown.frame[..place];
    let set = allowed(shown.reader, before);
    let found = shown.frame[place];
    let mut lines = vec![format!("Malformed: refusal 2, offset {place}.")];
    if set.bytes.is_empty() {
        let more = counted((shown.frame.len() - place) as u64, "byte", "bytes");
        lines.push(format!(
            "{more} too many: the frame ends before place {place}."
        ));
        return lines;
    }
    // A length is known with its last byte.
    let length = match place {
        3 => format!(" {}", grouped(number(&shown.frame[..4]))),
        _ => String::new(),
    };
    let why = why(shown.reader, &set, before);
    lines.push(format!("{}{length}: {why}.", named(&set)));
    let can = can_hold(&set.bytes);
    lines.extend(can.map(|can| format!("Place {place} {can}; {found:02X} stands there.")));
    lines
}

/// What is said of a set of bytes that is short enough to be listed.
fn can_hold(bytes: &Bytes) -> Option<String> {
    match bytes {
        Bytes::These(bytes) if bytes.len() > LISTED => None,
        bytes => Some(format!("can hold {bytes}")),
    }
}

/// The field, and its entry if it is in one.
fn named(set: &Allowed) -> String {
    let Some(field) = set.field else {
        return String::new();
    };
    let name = field.name.words();
    match (field.entry, &set.layout) {
        (Some(entry), Some(layout)) if layout.shape.entries == Entries::Log => {
            format!("{name} of entry {}", grouped(entry as u64 + 1))
        }
        _ => String::from(name),
    }
}

/// Which byte of its field a place is.
fn part(set: &Allowed, place: usize) -> String {
    match set.field {
        Some(field) if field.name.size() > 1 => {
            let (nth, size) = (place - field.place + 1, field.name.size());
            format!("byte {nth} of {size} of {}", named(set))
        }
        _ => named(set),
    }
}

/// What may be meant by a malformed frame, as the rules have it.
fn hints(shown: &Shown) -> Vec<String> {
    if shown.verdict == Verdict::WellFormed {
        return Vec::new();
    }
    let hints = [
        other_reader(shown),
        another_frame(shown),
        other_length(shown).or_else(|| length_of_kind(shown)),
    ];
    let hints = hints.into_iter().flatten();
    hints.map(|hint| format!("Hint: {hint}")).collect()
}

/// A frame for a desk that was taken for a replica's, or the other way round.
fn other_reader(shown: &Shown) -> Option<String> {
    let (other, words) = match shown.reader {
        Reader::Replica => (Reader::Desk, "a desk reads it as a well-formed"),
        Reader::Desk => (Reader::Replica, "a replica reads it as a well-formed"),
    };
    let is_good = judge(other, shown.frame) == Verdict::WellFormed;
    is_good.then(|| format!("{words} {}.", kind(shown.frame[5])))
}

/// Frames that were handed over together.
fn another_frame(shown: &Shown) -> Option<String> {
    let Verdict::Wrong(place) = shown.verdict else {
        return None;
    };
    shown.layout.filter(|layout| layout.end() == place)?;
    let rest = &shown.frame[place..];
    let whole = rest.get(..announced(rest)? as usize)?;
    let is_good = judge(shown.reader, whole) == Verdict::WellFormed;
    is_good.then(|| {
        let name = kind(whole[5]);
        format!("a well-formed {name} begins there; hand over one frame at a time.")
    })
}

/// A length field that doesn't count the bytes that follow it.
fn other_length(shown: &Shown) -> Option<String> {
    let length = u32::try_from(shown.frame.len().checked_sub(4)?).ok()?;
    let mut frame = shown.frame.to_vec();
    frame[..4].copy_from_slice(&length.to_be_bytes());
    let is_good = judge(shown.reader, &frame) == Verdict::WellFormed;
    is_good.then(|| {
        let length = hex(&length.to_be_bytes());
        let name = kind(frame[5]);
        format!("with length {length}, which counts what follows it, this is a well-formed {name}.")
    })
}

/// The length that the kind has, where the two don't fit.
fn length_of_kind(shown: &Shown) -> Option<String> {
    let kind_byte = *shown.frame.get(5)?;
    if !matches!(shown.verdict, Verdict::Wrong(3 | 5)) {
        return None;
    }
    let shapes = shown.reader.shapes().iter();
    let lengths: Vec<String> = shapes
        .filter(|shape| shape.kind == kind_byte)
        .map(|shape| match shape.entries {
            Entries::Log => format!("{} and 32 for each entry", shape.length()),
            _ => shape.length().to_string(),
        })
        .collect();
    let lengths = lengths.join(", or ");
    (!lengths.is_empty()).then(|| format!("{} has length {lengths}.", kind(kind_byte)))
}
