//! What can stand at a place, and why, in words.

use crate::rules::{number, operation, start, Allowed, Bytes, Field, Layout, ASK};
use crate::shapes::{kind_name, Entries, Name, Reader};
use std::fmt::{Display, Formatter, Result};

/// The outcomes of a Reply, from 1 on.
const OUTCOMES: [&str; 6] = [
    "Fee",
    "Refund",
    "Ask",
    "no such member",
    "past the limit",
    "more than the total",
];

impl Display for Bytes {
    fn fmt(&self, f: &mut Formatter) -> Result {
        match self {
            Bytes::Between(0, u8::MAX) => write!(f, "any byte"),
            Bytes::Between(least, most) if least == most => write!(f, "only {least:02X}"),
            Bytes::Between(least, most) => write!(f, "{least:02X} to {most:02X}"),
            Bytes::These(bytes) => match &bytes[..] {
                [] => write!(f, "no byte"),
                [one] => write!(f, "only {one:02X}"),
                more => write!(f, "{}", listed(more.iter().map(|b| hex(&[*b])), "or")),
            },
        }
    }
}

/// Bytes as two digits each.
pub fn hex(bytes: &[u8]) -> String {
    let digits: Vec<String> = bytes.iter().map(|byte| format!("{byte:02X}")).collect();
    digits.join(" ")
}

/// A number with a comma before every third digit from the right.
pub fn grouped(number: u64) -> String {
    match number {
        0..1_000 => number.to_string(),
        _ => format!("{},{:03}", grouped(number / 1_000), number % 1_000),
    }
}

/// "1 entry", "2 entries".
pub fn counted(count: u64, one: &str, more: &str) -> String {
    let word = if count == 1 { one } else { more };
    format!("{} {word}", grouped(count))
}

/// "8, 11 or 12".
fn listed(words: impl Iterator<Item = String>, before_last: &str) -> String {
    let words: Vec<String> = words.collect();
    match words.split_last() {
        Some((last, [])) => last.clone(),
        Some((last, others)) => format!("{} {before_last} {last}", others.join(", ")),
        None => String::from("none"),
    }
}

/// A kind's number and name.
pub fn kind(kind: u8) -> String {
    match kind_name(kind) {
        Some(name) => format!("{kind} {name}"),
        None => format!("{kind}, which is no kind"),
    }
}

/// An operation's number and name.
pub fn operation_words(number: u8) -> String {
    match number {
        1 => String::from("1 Fee"),
        2 => String::from("2 Refund"),
        3 => String::from("3 Ask"),
        _ => format!("{number}, which is no operation"),
    }
}

/// An outcome's number and name.
pub fn outcome_words(number: u8) -> String {
    match usize::from(number)
        .checked_sub(1)
        .and_then(|i| OUTCOMES.get(i))
    {
        Some(name) => format!("{number} {name}"),
        None => format!("{number}, which is no outcome"),
    }
}

/// Why a field holds what it has to. `before` are the good bytes before the place in question.
pub fn why(reader: Reader, allowed: &Allowed, before: &[u8]) -> String {
    let Some(field) = allowed.field else {
        return String::from("nothing stands behind a whole frame");
    };
    match (field.name, allowed.layout) {
        (Name::Length, _) => lengths(reader),
        (Name::Version, _) => String::from("1 alone"),
        (Name::Kind, _) => format!(
            "with length {} {}",
            grouped(number(&before[..4])),
            kinds(&allowed.bytes)
        ),
        (_, Some(layout)) => why_behind_kind(&layout, field, before),
        (_, None) => String::new(),
    }
}

fn why_behind_kind(layout: &Layout, field: Field, before: &[u8]) -> String {
    let room = counted(u64::from(layout.count), "entry", "entries");
    let count = layout.count;
    match field.name {
        Name::Addressee => String::from("a Reply's is 0"),
        Name::OpNumber => format!(
            "the length leaves room for {room}, so {}",
            hex(&count.to_be_bytes())
        ),
        Name::Start => format!(
            "with {room} behind it at most {}, so that end has 4 bytes",
            grouped(u64::from(u32::MAX - count))
        ),
        Name::End => {
            let start = start(field, before);
            let end = start + u64::from(count);
            let start = grouped(start);
            format!("start {start} and {room} make {}", grouped(end))
        }
        Name::Mark if layout.has_log() => {
            String::from("with this length op number, commit number and log follow, so 01")
        }
        Name::Mark => String::from("with this length nothing follows, so 00"),
        Name::Operation => String::from("1 Fee, 2 Refund or 3 Ask"),
        Name::Zeros => String::from("nothing but zeros"),
        Name::Cents => cents(field, before),
        Name::Outcome => listed((1..=6).map(outcome_words), "or"),
        _ => String::from("any number"),
    }
}

/// What the cents are, and what the bytes before leave of that.
fn cents(field: Field, before: &[u8]) -> String {
    let operation = match operation(field, before) {
        ASK => return String::from("an Ask has 0"),
        1 => "Fee",
        _ => "Refund",
    };
    let begun = &before[field.place..];
    let after = match begun {
        [] => String::new(),
        [0, 0, 0, 0, 0, 0, 0] => String::from(", and seven of the bytes are 00 already"),
        _ => format!(", and {} stands there already", hex(begun)),
    };
    format!("a {operation} has 1 to 1,000,000{after}")
}

/// The kinds that fit a length.
fn kinds(bytes: &Bytes) -> String {
    match bytes {
        Bytes::These(kinds) => format!("only {}", listed(kinds.iter().map(|&k| kind(k)), "or")),
        Bytes::Between(..) => String::from("any kind"),
    }
}

/// The lengths of all kinds.
fn lengths(reader: Reader) -> String {
    let of = |is_log: bool| {
        let shapes = reader.shapes().iter();
        let shapes = shapes.filter(|shape| (shape.entries == Entries::Log) == is_log);
        let mut lengths: Vec<u32> = shapes.map(|shape| shape.length()).collect();
        lengths.sort_unstable();
        lengths.dedup();
        listed(lengths.into_iter().map(|length| length.to_string()), "or")
    };
    match reader {
        Reader::Replica => format!(
            "the kinds have {}, or {} and 32 more for each entry",
            of(false),
            of(true)
        ),
        Reader::Desk => format!("a Reply's is {}", of(false)),
    }
}
