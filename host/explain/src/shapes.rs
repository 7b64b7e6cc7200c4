//! The table of frames: for each kind its fields and its entries, and so its lengths.

/// A field of a frame or of an entry.
#[derive(Clone, Copy, Debug, PartialEq, Eq)]
#[allow(missing_docs)]
pub enum Name {
    Length,
    Version,
    Kind,
    Addressee,
    View,
    LastNormalView,
    OpNumber,
    CommitNumber,
    Start,
    End,
    Sender,
    Nonce,
    Mark,
    Client,
    Request,
    Operation,
    Zeros,
    Member,
    Cents,
    Outcome,
    Total,
}

use Name::*;

impl Name {
    /// How many bytes it has.
    pub fn size(self) -> usize {
        match self {
            Version | Kind | Addressee | Sender | Mark | Operation | Outcome => 1,
            Zeros => 3,
            Nonce | Client | Request | Cents | Total => 8,
            _ => 4,
        }
    }

    /// What the rules call it.
    pub fn words(self) -> &'static str {
        match self {
            Length => "length",
            Version => "version",
            Kind => "kind",
            Addressee => "addressee",
            View => "view",
            LastNormalView => "last normal view",
            OpNumber => "op number o",
            CommitNumber => "commit number c",
            Start => "start",
            End => "end",
            Sender => "sender",
            Nonce => "nonce",
            Mark => "mark",
            Client => "client",
            Request => "request",
            Operation => "operation",
            Zeros => "three zero bytes",
            Member => "member",
            Cents => "cents",
            Outcome => "outcome",
            Total => "total",
        }
    }
}

/// An entry's fields.
pub const ENTRY: [Name; 6] = [Client, Request, Operation, Zeros, Member, Cents];

/// An entry's bytes.
pub const ENTRY_BYTES: usize = 32;

/// How many entries stand behind the fields.
#[derive(Clone, Copy, Debug, PartialEq, Eq)]
pub enum Entries {
    /// None ever.
    None,
    /// Always one.
    One,
    /// As many as the length leaves room for: a log.
    Log,
}

/// A line of the table of frames.
#[derive(Debug, PartialEq, Eq)]
pub struct Shape {
    /// The kind's number.
    pub kind: u8,
    /// The kind's name.
    pub name: &'static str,
    /// The fields behind the addressee.
    pub fields: &'static [Name],
    /// What stands behind the fields.
    pub entries: Entries,
}

const fn shape(kind: u8, name: &'static str, fields: &'static [Name], entries: Entries) -> Shape {
    Shape {
        kind,
        name,
        fields,
        entries,
    }
}

/// What a replica reads. RecoveryResponse has two lines, without a log and with one.
#[rustfmt::skip]
const REPLICA: [Shape; 12] = [
    shape(1, "Request", &[], Entries::One),
    shape(2, "Prepare", &[View, OpNumber, CommitNumber], Entries::One),
    shape(3, "PrepareOk", &[View, OpNumber, Sender], Entries::None),
    shape(4, "Commit", &[View, CommitNumber], Entries::None),
    shape(5, "GetState", &[Sender, View, OpNumber], Entries::None),
    shape(6, "NewState", &[View, Start, End, CommitNumber], Entries::Log),
    shape(7, "StartViewChange", &[View, Sender], Entries::None),
    shape(8, "DoViewChange", &[View, Sender, LastNormalView, OpNumber, CommitNumber], Entries::Log),
    shape(9, "StartView", &[View, OpNumber, CommitNumber], Entries::Log),
    shape(10, "Recovery", &[Sender, Nonce, View], Entries::None),
    shape(11, "RecoveryResponse", &[View, Nonce, Sender, Mark], Entries::None),
    shape(11, "RecoveryResponse", &[View, Nonce, Sender, Mark, OpNumber, CommitNumber], Entries::Log),
];

/// What a desk reads.
const DESK: [Shape; 1] = [shape(
    REPLY,
    "Reply",
    &[View, Client, Request, Outcome, Total],
    Entries::None,
)];

/// The kind that a desk reads and a replica doesn't.
pub const REPLY: u8 = 12;

/// Who reads a frame.
#[derive(Clone, Copy, Debug, PartialEq, Eq)]
pub enum Reader {
    /// A replica: kinds 1 to 11.
    Replica,
    /// A desk: kind 12, Reply.
    Desk,
}

impl Reader {
    /// The frames that it knows.
    pub fn shapes(self) -> &'static [Shape] {
        match self {
            Reader::Replica => &REPLICA,
            Reader::Desk => &DESK,
        }
    }
}

/// The name of a kind, whoever reads it.
pub fn kind_name(kind: u8) -> Option<&'static str> {
    let mut all = REPLICA.iter().chain(&DESK);
    all.find(|shape| shape.kind == kind).map(|shape| shape.name)
}

impl Shape {
    /// Its length without a log: version, kind, addressee, the fields, and its one entry if it has
    /// one.
    pub fn length(&self) -> u32 {
        let fields: usize = self.fields.iter().map(|field| field.size()).sum();
        let entry = match self.entries {
            Entries::One => ENTRY_BYTES,
            Entries::None | Entries::Log => 0,
        };
        (3 + fields + entry) as u32
    }

    /// The number of its entries, if a frame of this shape has this length.
    pub fn count(&self, length: u32) -> Option<u32> {
        let rest = length.checked_sub(self.length())?;
        match self.entries {
            Entries::None => (rest == 0).then_some(0),
            Entries::One => (rest == 0).then_some(1),
            Entries::Log => {
                let each = ENTRY_BYTES as u32;
                (rest % each == 0).then_some(rest / each)
            }
        }
    }

    /// Whether it has one of these lengths.
    pub fn has_length(&self, least: u32, most: u32) -> bool {
        let own = self.length();
        match self.entries {
            Entries::Log => most.checked_sub(own).is_some_and(|above| {
                let longest = most - above % ENTRY_BYTES as u32;
                longest >= least
            }),
            Entries::None | Entries::One => (least..=most).contains(&own),
        }
    }
}
