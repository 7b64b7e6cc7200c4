//! The offset that refusal 2 on a frame carries, by its sentence alone: "the first byte where no well-formed frame starts with the
//! bytes up to and including it, or the frame's length where only bytes are missing".
//!
//! So bytes are judged by going on from them. Of each kind a frame is put together that starts with them, and `parse` says whether
//! it is well formed. No rule about a wrong byte stands here: what is put behind the bytes is only a try, and the parser judges it.

use crate::parse::{is_frame, reply, ENTRY};
use wire::fees::ASK;
use wire::frames::KINDS;

#[cfg(test)]
mod tests;

/// Of a malformed frame for a replica.
pub fn of_frame(frame: &[u8]) -> usize {
    longest(frame, starts_frame)
}

/// Of a malformed Reply, where a desk reads it.
pub fn of_reply(frame: &[u8]) -> usize {
    longest(frame, starts_reply)
}

/// Where an offset can point to.
pub const PLACES: [&str; 7] = [
    "length",
    "version",
    "kind",
    "fields",
    "entries",
    "past the end",
    "bytes missing",
];

/// Which of these places the offset of a malformed frame is.
pub fn place(frame: &[u8], offset: usize) -> usize {
    if offset == frame.len() {
        return 6;
    }
    let length = frame.first_chunk().map(|bytes| u32::from_be_bytes(*bytes));
    let entries = match frame.get(5) {
        Some(1) => 7,
        Some(2 | 9) => 19,
        Some(6) => 23,
        Some(8) => 24,
        Some(11) => 29,
        _ => usize::MAX,
    };
    match offset {
        0..=3 => 0,
        4 => 1,
        5 => 2,
        _ if length.is_some_and(|length| offset == 4 + length as usize) => 5,
        _ => 3 + usize::from(offset >= entries),
    }
}

/// How many of these bytes the longest front has that some well-formed frame starts with. That frame starts with each shorter front
/// too, so the fronts that go on are those up to some length, which halving finds.
fn longest(frame: &[u8], starts: fn(&[u8]) -> bool) -> usize {
    if starts(frame) {
        return frame.len();
    }
    let (mut goes_on, mut ends) = (0, frame.len());
    while ends - goes_on > 1 {
        let middle = (goes_on + ends) / 2;
        match starts(&frame[..middle]) {
            true => goes_on = middle,
            false => ends = middle,
        }
    }
    goes_on
}

/// Whether some well-formed frame for a replica starts so.
fn starts_frame(front: &[u8]) -> bool {
    match front.get(5) {
        Some(kind) => Whole::of_kind(front, *kind).is_well_formed(),
        None => (1..=KINDS.len() as u8).any(|kind| Whole::of_kind(front, kind).is_well_formed()),
    }
}

/// Whether some well-formed Reply does.
fn starts_reply(front: &[u8]) -> bool {
    let mut whole = Whole::from(front);
    whole.field([0, 0, 0, 32, 1, 12, 0]);
    whole.field([0; 20]);
    whole.field([1]);
    whole.field([0; 8]);
    reply(&whole.bytes).is_some()
}

/// A frame that starts with given bytes, written field by field; so many entries behind them aren't written out.
struct Whole {
    bytes: Vec<u8>,
    at: usize,
    more: usize,
}

impl Whole {
    fn from(front: &[u8]) -> Whole {
        let mut bytes = Vec::with_capacity(front.len() + 2 * ENTRY);
        bytes.extend_from_slice(front);
        Whole {
            bytes,
            at: 0,
            more: 0,
        }
    }

    /// One of this kind. A length that is cut short becomes one of a StartView: there is one for every three bytes in front.
    fn of_kind(front: &[u8], kind: u8) -> Whole {
        let mut whole = Whole::from(front);
        let length = u32::from_be_bytes(whole.field([0, 0, 0, 15])) as usize;
        whole.field([1, kind, 0]);
        whole.fields(kind, length);
        whole.entries(length);
        whole
    }

    fn is_well_formed(&self) -> bool {
        is_frame(&self.bytes, self.more)
    }

    /// The next field. What is given of it stays, the rest of it is taken from these bytes; what stands there then.
    fn field<const K: usize>(&mut self, rest: [u8; K]) -> [u8; K] {
        let given = self.bytes.len().saturating_sub(self.at).min(K);
        self.bytes.extend_from_slice(&rest[given..]);
        let field = self.bytes[self.at..].first_chunk();
        self.at += K;
        *field.expect("given or written")
    }

    /// The number of entries for which a frame of this length has room, that is so long without them.
    fn count(&mut self, length: usize, without: usize) -> [u8; 4] {
        let count = length.saturating_sub(without) / ENTRY;
        self.field((count as u32).to_be_bytes())
    }

    /// What stands in front of the entries. A NewState's start is the least that goes on from what is given of it.
    fn fields(&mut self, kind: u8, length: usize) {
        match kind {
            2 => _ = self.field([0; 12]),
            3 | 5 => _ = self.field([0; 9]),
            4 => _ = self.field([0; 8]),
            6 => {
                self.field([0; 4]);
                let start = u32::from_be_bytes(self.field([0; 4]));
                let count = (length.saturating_sub(19) / ENTRY) as u32;
                self.field(start.wrapping_add(count).to_be_bytes());
                self.field([0; 4]);
            }
            7 => _ = self.field([0; 5]),
            8 => {
                self.field([0; 9]);
                self.count(length, 20);
                self.field([0; 4]);
            }
            9 => {
                self.field([0; 4]);
                self.count(length, 15);
                self.field([0; 4]);
            }
            10 => _ = self.field([0; 13]),
            11 => {
                self.field([0; 13]);
                if self.field([u8::from(length != 17)]) == [1] {
                    self.count(length, 25);
                    self.field([0; 4]);
                }
            }
            _ => {}
        }
    }

    /// The entry that the given bytes end in, or else the first that is missing: an Ask where its operation isn't given, and for a
    /// Fee or Refund cents that end in 1. The entries behind it are counted.
    fn entries(&mut self, length: usize) {
        let end = 4 + length;
        if self.bytes.len() >= end {
            return;
        }
        self.at += (self.bytes.len() - self.at) / ENTRY * ENTRY;
        self.field([0; 16]);
        let operation = self.field([ASK]);
        self.field([0; 7]);
        self.field([0, 0, 0, 0, 0, 0, 0, u8::from(operation != [ASK])]);
        self.more = end.saturating_sub(self.bytes.len()) / ENTRY;
    }
}
