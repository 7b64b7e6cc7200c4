//! Which bytes can stand behind good ones, and so the first wrong byte of a frame.

use crate::shapes::{Entries, Name, Reader, Shape, ENTRY, ENTRY_BYTES, REPLY};
use std::ops::RangeInclusive;

/// The operation without cents.
pub const ASK: u8 = 3;
/// The most cents of a Fee or a Refund.
pub const MOST_CENTS: u64 = 1_000_000;

/// The place of the kind, and of the first byte whose meaning depends on it.
const KIND: usize = 5;
const ADDRESSEE: usize = 6;

/// A set of bytes.
#[derive(Clone, Debug, PartialEq, Eq)]
pub enum Bytes {
    /// All from the first to the last.
    Between(u8, u8),
    /// These alone, in rising order.
    These(Vec<u8>),
}

impl Bytes {
    /// Whether the byte is one of them.
    pub fn takes(&self, byte: u8) -> bool {
        match self {
            Bytes::Between(least, most) => (*least..=*most).contains(&byte),
            Bytes::These(bytes) => bytes.contains(&byte),
        }
    }

    /// Whether there is none.
    pub fn is_empty(&self) -> bool {
        *self == Bytes::These(Vec::new())
    }
}

/// A field at its place.
#[derive(Clone, Copy, Debug, PartialEq, Eq)]
pub struct Field {
    /// What it is.
    pub name: Name,
    /// The place of its first byte.
    pub place: usize,
    /// The entry that it belongs to, counted from 0.
    pub entry: Option<usize>,
}

impl Field {
    fn new(name: Name, place: usize) -> Field {
        Field {
            name,
            place,
            entry: None,
        }
    }
}

/// Where each field stands, which length and kind decide.
#[derive(Clone, Copy, Debug)]
pub struct Layout {
    /// The line of the table.
    pub shape: &'static Shape,
    /// The number of entries.
    pub count: u32,
}

impl Layout {
    /// The layout of a frame whose bytes up to the kind are good.
    pub fn of(reader: Reader, frame: &[u8]) -> Option<Layout> {
        let length = number(frame.get(..4)?) as u32;
        let kind = *frame.get(KIND)?;
        reader.shapes().iter().find_map(|shape| {
            let count = shape.count(length).filter(|_| shape.kind == kind)?;
            Some(Layout { shape, count })
        })
    }

    /// The place of the first entry.
    pub fn log(&self) -> usize {
        let fields: usize = self.shape.fields.iter().map(|name| name.size()).sum();
        ADDRESSEE + 1 + fields
    }

    /// The place behind the last byte.
    pub fn end(&self) -> usize {
        self.log() + ENTRY_BYTES * self.count as usize
    }

    /// The field that this place, behind the kind, is in.
    pub fn field(&self, place: usize) -> Option<Field> {
        if place >= self.end() {
            return None;
        }
        let Some(inside) = place.checked_sub(self.log()) else {
            let fields = [Name::Addressee].iter().chain(self.shape.fields);
            return covering(fields, ADDRESSEE, place);
        };
        let entry = inside / ENTRY_BYTES;
        let field = covering(ENTRY.iter(), self.log() + entry * ENTRY_BYTES, place)?;
        let entry = Some(entry);
        Some(Field { entry, ..field })
    }

    /// Whether a log of any length is carried.
    pub fn has_log(&self) -> bool {
        self.shape.entries == Entries::Log
    }
}

/// Of fields that stand one behind another from a place on, the one that covers `place`.
fn covering<'a>(names: impl Iterator<Item = &'a Name>, from: usize, place: usize) -> Option<Field> {
    let mut next = from;
    names
        .map(|&name| {
            let field = Field::new(name, next);
            next += name.size();
            field
        })
        .find(|field| place < field.place + field.name.size())
}

/// What can stand at a place.
#[derive(Clone, Debug)]
pub struct Allowed {
    /// The bytes that can.
    pub bytes: Bytes,
    /// The field that the place is in; none behind a whole frame.
    pub field: Option<Field>,
    /// The layout, behind the kind.
    pub layout: Option<Layout>,
}

/// What can stand behind these bytes, with which a well-formed frame has to begin.
pub fn allowed(reader: Reader, before: &[u8]) -> Allowed {
    let (field, bytes) = match before.len() {
        0..4 => (Field::new(Name::Length, 0), lengths(reader, before)),
        4 => (Field::new(Name::Version, 4), Bytes::Between(1, 1)),
        KIND => (Field::new(Name::Kind, KIND), kinds(reader, before)),
        _ => return behind_kind(reader, before),
    };
    Allowed {
        bytes,
        field: Some(field),
        layout: None,
    }
}

fn behind_kind(reader: Reader, before: &[u8]) -> Allowed {
    let layout = Layout::of(reader, before);
    let field = layout.and_then(|layout| layout.field(before.len()));
    let bytes = match (layout, field) {
        (Some(layout), Some(field)) => {
            let range = bounds(&layout, field, before);
            next(range, field.name.size(), &before[field.place..])
        }
        _ => Bytes::These(Vec::new()),
    };
    Allowed {
        bytes,
        field,
        layout,
    }
}

/// The bytes with which a length goes on to one that some kind has.
fn lengths(reader: Reader, before: &[u8]) -> Bytes {
    let goes_on = |byte: &u8| {
        let mut least = [0x00; 4];
        let mut most = [0xFF; 4];
        for (place, &byte) in before.iter().chain([byte]).enumerate() {
            (least[place], most[place]) = (byte, byte);
        }
        let (least, most) = (u32::from_be_bytes(least), u32::from_be_bytes(most));
        let mut shapes = reader.shapes().iter();
        shapes.any(|shape| shape.has_length(least, most))
    };
    let bytes: Vec<u8> = (0..=u8::MAX).filter(goes_on).collect();
    match bytes.len() {
        256 => Bytes::Between(0, u8::MAX),
        _ => Bytes::These(bytes),
    }
}

/// The kinds that have this length.
fn kinds(reader: Reader, before: &[u8]) -> Bytes {
    let length = number(&before[..4]) as u32;
    let fitting = reader.shapes().iter();
    let fitting = fitting.filter(|shape| shape.count(length).is_some());
    Bytes::These(fitting.map(|shape| shape.kind).collect())
}

/// The least and the greatest number that a field behind the kind can hold. Every number between
/// them can stand there too.
fn bounds(layout: &Layout, field: Field, before: &[u8]) -> RangeInclusive<u64> {
    let just = |value: u64| value..=value;
    let count = u64::from(layout.count);
    match field.name {
        Name::Addressee if layout.shape.kind == REPLY => just(0),
        Name::OpNumber if layout.has_log() => just(count),
        Name::Start => 0..=u64::from(u32::MAX) - count,
        Name::End => just(start(field, before) + count),
        Name::Mark => just(u64::from(layout.has_log())),
        Name::Operation => 1..=3,
        Name::Zeros => just(0),
        Name::Cents if operation(field, before) == ASK => just(0),
        Name::Cents => 1..=MOST_CENTS,
        Name::Outcome => 1..=6,
        name => 0..=u64::MAX >> (64 - 8 * name.size()),
    }
}

/// The start that stands before an end.
pub fn start(end: Field, before: &[u8]) -> u64 {
    number(&before[end.place - Name::Start.size()..end.place])
}

/// The operation of the entry whose cents these are.
pub fn operation(cents: Field, before: &[u8]) -> u8 {
    before[cents.place - 8]
}

/// The bytes with which a number of so many bytes, begun so, can still be one of the range.
fn next(range: RangeInclusive<u64>, size: usize, begun: &[u8]) -> Bytes {
    let bytes = |bound: &u64| bound.to_be_bytes()[8 - size..].to_vec();
    let (least, most) = (bytes(range.start()), bytes(range.end()));
    let place = begun.len();
    let bound = |bound: &[u8], free| match bound[..place] == *begun {
        true => bound[place],
        false => free,
    };
    Bytes::Between(bound(&least, 0), bound(&most, u8::MAX))
}

/// A big-endian number.
pub fn number(bytes: &[u8]) -> u64 {
    bytes
        .iter()
        .fold(0, |number, &byte| number << 8 | u64::from(byte))
}

/// What is wrong with a frame.
#[derive(Clone, Copy, Debug, PartialEq, Eq)]
pub enum Verdict {
    /// Nothing.
    WellFormed,
    /// Its bytes are good, and more have to follow: the offset is their number.
    Missing(usize),
    /// The first wrong byte, which is what can't stand at its place, or one too many.
    Wrong(usize),
}

impl Verdict {
    /// The offset that refusal 2 carries.
    pub fn offset(self) -> Option<usize> {
        match self {
            Verdict::WellFormed => None,
            Verdict::Missing(place) | Verdict::Wrong(place) => Some(place),
        }
    }
}

/// Judges a frame from the left: the first byte that isn't among those allowed behind the bytes
/// before it is wrong.
pub fn judge(reader: Reader, frame: &[u8]) -> Verdict {
    let is_wrong = |&place: &usize| {
        let before = &frame[..place];
        !allowed(reader, before).bytes.takes(frame[place])
    };
    if let Some(place) = (0..frame.len()).find(is_wrong) {
        return Verdict::Wrong(place);
    }
    match allowed(reader, frame).bytes.is_empty() {
        true => Verdict::WellFormed,
        false => Verdict::Missing(frame.len()),
    }
}
