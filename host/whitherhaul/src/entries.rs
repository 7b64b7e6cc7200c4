//! What frames carry: entries, and what they gave, by document 01's bytes.

/// What an entry asks for.
#[derive(Clone, Copy, Debug, PartialEq, Eq, Hash)]
pub enum Operation {
    /// A fee is charged: 1 to 1,000,000 cents.
    Fee = 1,
    /// A fee is paid back: 1 to 1,000,000 cents.
    Refund,
    /// The total is asked for: 0 cents.
    Ask,
}

impl Operation {
    /// The operation with this number, 1 to 3.
    pub fn from_number(number: u8) -> Option<Operation> {
        Some(match number {
            1 => Operation::Fee,
            2 => Operation::Refund,
            3 => Operation::Ask,
            _ => return None,
        })
    }
}

/// What an entry gave when it was applied.
#[derive(Clone, Copy, Debug, PartialEq, Eq, Hash)]
pub enum Outcome {
    /// The fee was added.
    Fee = 1,
    /// The refund was subtracted.
    Refund,
    /// The total was told.
    Ask,
    /// There is no such member.
    NoMember,
    /// The fee would take the total past 1,000,000,000.
    PastLimit,
    /// The refund exceeds the total.
    PastTotal,
}

impl Outcome {
    /// The outcome with this number, 1 to 6.
    pub fn from_number(number: u8) -> Option<Outcome> {
        Some(match number {
            1 => Outcome::Fee,
            2 => Outcome::Refund,
            3 => Outcome::Ask,
            4 => Outcome::NoMember,
            5 => Outcome::PastLimit,
            6 => Outcome::PastTotal,
            _ => return None,
        })
    }
}

/// An entry of the log: a client's request.
#[derive(Clone, Copy, Debug, PartialEq, Eq, Hash)]
pub struct Entry {
    /// Whose request it is.
    pub client: u64,
    /// Its number among the client's.
    pub request: u64,
    /// What it asks for.
    pub operation: Operation,
    /// Whose total it is about.
    pub member: u32,
    /// How much.
    pub cents: u64,
}

impl Entry {
    /// The Request that carries it to replica `to`, a frame. Client and number are the entry's own,
    /// so that a primary that has it doesn't take it again.
    pub fn request(&self, to: u8) -> [u8; 39] {
        let mut frame = [0; 39];
        frame[..7].copy_from_slice(&[0, 0, 0, 35, 1, 1, to]);
        frame[7..].copy_from_slice(&self.bytes());
        frame
    }

    /// The entry of these 32 bytes. Its operation is Ask for any number but 1 and 2.
    pub(crate) fn of(bytes: &[u8]) -> Entry {
        Entry {
            client: u64_at(bytes, 0),
            request: u64_at(bytes, 8),
            operation: Operation::from_number(bytes[16]).unwrap_or(Operation::Ask),
            member: u32_at(bytes, 20),
            cents: u64_at(bytes, 24),
        }
    }

    /// Its 32 bytes.
    pub(crate) fn bytes(&self) -> [u8; 32] {
        let mut bytes = [0; 32];
        bytes[..8].copy_from_slice(&self.client.to_be_bytes());
        bytes[8..16].copy_from_slice(&self.request.to_be_bytes());
        bytes[16] = self.operation as u8;
        bytes[20..24].copy_from_slice(&self.member.to_be_bytes());
        bytes[24..].copy_from_slice(&self.cents.to_be_bytes());
        bytes
    }
}

/// The big-endian number of 4 bytes at a place.
pub(crate) fn u32_at(bytes: &[u8], at: usize) -> u32 {
    let number = bytes[at..].first_chunk().expect("four bytes");
    u32::from_be_bytes(*number)
}

/// The big-endian number of 8 bytes at a place.
pub(crate) fn u64_at(bytes: &[u8], at: usize) -> u64 {
    let number = bytes[at..].first_chunk().expect("eight bytes");
    u64::from_be_bytes(*number)
}
