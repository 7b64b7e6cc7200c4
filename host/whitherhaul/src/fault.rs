//! What is wrong with a frame of a journal.

use std::fmt;

/// What is wrong with the first bad frame of a journal. Where several things are, the one with the
/// lowest number is named, but for [`Fault::PastLast`], which goes before all others.
///
/// As with [`Refusal`](crate::Refusal), a later release may add some.
#[derive(Clone, Copy, Debug, PartialEq, Eq, PartialOrd, Ord, Hash)]
#[non_exhaustive]
pub enum Fault {
    /// 1: fewer than 50 bytes are left.
    CutShort = 1,
    /// 2: the length isn't 46.
    Length,
    /// 3: the version isn't 1.
    Version,
    /// 4: the op number isn't 1 in the first frame, 2 in the second, and so on.
    OpNumber,
    /// 5: the operation isn't 1 to 3, one of the three bytes behind it isn't 0, or the cents aren't
    /// 1 to 1,000,000 for a Fee or Refund and 0 for an Ask.
    Entry,
    /// 6: the outcome isn't what the fee rules give.
    Outcome,
    /// 7: the total isn't what the fee rules give.
    Total,
    /// 8: it stands behind 4,096 frames.
    PastLast,
}

impl Fault {
    /// The C calls' number: 1 to 8 in this release.
    pub fn number(self) -> u8 {
        self as u8
    }

    /// The fault with this number.
    pub fn from_number(number: u8) -> Option<Fault> {
        Some(match number {
            1 => Fault::CutShort,
            2 => Fault::Length,
            3 => Fault::Version,
            4 => Fault::OpNumber,
            5 => Fault::Entry,
            6 => Fault::Outcome,
            7 => Fault::Total,
            8 => Fault::PastLast,
            _ => return None,
        })
    }

    /// What a number says; none where this release has no such number.
    pub fn words(number: u8) -> Option<&'static str> {
        Some(match number {
            1 => "the file ends inside it",
            2 => "its length isn't 46",
            3 => "its version isn't 1",
            4 => "its op number isn't the next one",
            5 => "its entry is outside the entry rules",
            6 => "the outcome isn't what the fee rules give",
            7 => "the total isn't what the fee rules give",
            8 => "it is past the last op number, 4096",
            _ => return None,
        })
    }
}

/// The words, without the number.
impl fmt::Display for Fault {
    fn fmt(&self, f: &mut fmt::Formatter<'_>) -> fmt::Result {
        f.write_str(Fault::words(self.number()).expect("a fault has words"))
    }
}
