//! Why a call was refused.

use crate::csv::{Column, FieldFault};
use crate::journal::FRAME_LENGTH;
use crate::Fault;
use std::fmt;

/// Why a call was refused: document 01's refusals, the journal's, and the table's. A refused call
/// left the replica, or the client, and every lent byte as they were.
///
/// Each has a number ([`Refusal::number`]), and 2 is two of them: a frame that is malformed, which
/// says where, and an entry outside the entry rules that a client or the writer of a journal or of a
/// table was given, where there is no frame.
///
/// A later release may add numbers, so a `match` outside this crate needs an arm for those that it
/// doesn't name:
///
/// ```
/// use whitherhaul::Refusal;
///
/// fn advice(refusal: Refusal) -> &'static str {
///     match refusal {
///         Refusal::PastRoom => "the log is full",
///         Refusal::Malformed { .. } => "drop the frame",
///         _ => "write it down",
///     }
/// }
/// assert_eq!(advice(Refusal::PastLastView), "write it down");
/// assert_eq!(Refusal::PastLastView.to_string(), "refusal 8: past the last view, 4294967295");
/// ```
#[derive(Clone, Copy, Debug, PartialEq, Eq, PartialOrd, Ord, Hash)]
#[non_exhaustive]
pub enum Refusal {
    /// 1: the setup is outside the sizes, the own id isn't below n, a number of the state is out of
    /// range, or a lent run has another length than the setup gives it; of a journal: M isn't 1 to
    /// 4,096, or the ops asked for aren't committed.
    OutsideSizes,
    /// 2 on a frame, a replica's or a Reply: it is malformed.
    ///
    /// A desk's line for its log, with the byte itself:
    ///
    /// ```
    /// # #[cfg(feature = "replica")]
    /// # {
    /// use whitherhaul::{Client, Refusal};
    ///
    /// fn line(refusal: Refusal, frame: &[u8]) -> String {
    ///     match refusal {
    ///         Refusal::Malformed { offset, length } if offset < length => {
    ///             format!("{refusal}: {:#04x}", frame[offset])
    ///         }
    ///         _ => refusal.to_string(),
    ///     }
    /// }
    ///
    /// let mut desk = Client::new(3, 7).expect("3 to 7 replicas");
    /// let frame = [0, 0, 0, 32, 2, 12, 0]; // version 2, and bytes are missing too
    /// let refusal = desk.on_reply_frame(&frame).expect_err("no Reply");
    /// assert_eq!(
    ///     line(refusal, &frame),
    ///     "refusal 2: malformed frame: byte 4 of 7 is wrong: 0x02"
    /// );
    /// # }
    /// ```
    Malformed {
        /// Which byte is wrong, counted from 0: the first at which no well-formed frame begins with
        /// the bytes up to and including it, whatever follows. It is `length` where only bytes are
        /// missing, so of an empty frame 0.
        offset: usize,
        /// How many bytes were handed over as the frame.
        length: usize,
    },
    /// 2 of a client's request, or of an entry for a journal or a table: operation or cents outside
    /// the entry rules.
    OutsideEntryRules,
    /// 3: the frame is for another replica, or its sender isn't below n.
    WrongReplica,
    /// 4: an op number above the log's room, or an append to a full log; of a journal: more than
    /// 4,096 entries.
    PastRoom,
    /// 5: a commit number above the carried log, or a commit past the own log.
    CommitPastLog,
    /// 6: the request numbers of a client wouldn't strictly rise along the log.
    NotRising,
    /// 7: committed entries would be shortened or altered, or a commit number passes the chosen
    /// log.
    CommittedAltered,
    /// 8: a tick would move past the last view, 4,294,967,295.
    PastLastView,
    /// 9: the messages don't fit their area, or what a call of a journal or a table writes doesn't.
    MessagesDontFit,
    /// 10: the replies don't fit their area.
    RepliesDontFit,
    /// 11: of a client: the next request number is 2^64-1.
    NumbersUsedUp,
    /// 12: a frame of a journal is bad, the first that is.
    BadFrame {
        /// Where its first byte stands in the file: 50 for each good frame before it.
        offset: usize,
        /// What is wrong with it.
        fault: Fault,
    },
    /// 13: a row of a table is bad, the first that is.
    BadRow {
        /// Its number; the header is row 1.
        row: usize,
        /// Its first bad field.
        column: Column,
        /// What is wrong with that.
        fault: FieldFault,
        /// Where the field's first byte stands in the file.
        offset: usize,
    },
}

impl Refusal {
    /// Its number: 1 to 13 in this release.
    pub fn number(self) -> u8 {
        match self {
            Refusal::OutsideSizes => 1,
            Refusal::Malformed { .. } | Refusal::OutsideEntryRules => 2,
            Refusal::WrongReplica => 3,
            Refusal::PastRoom => 4,
            Refusal::CommitPastLog => 5,
            Refusal::NotRising => 6,
            Refusal::CommittedAltered => 7,
            Refusal::PastLastView => 8,
            Refusal::MessagesDontFit => 9,
            Refusal::RepliesDontFit => 10,
            Refusal::NumbersUsedUp => 11,
            Refusal::BadFrame { .. } => 12,
            Refusal::BadRow { .. } => 13,
        }
    }

    /// What a number alone says; none where this release has no such number. The refusal itself
    /// says more of 2: which of its two cases it is, and where in the frame; and of 12 and 13: where
    /// in the file, and what is wrong there.
    pub fn words(number: u8) -> Option<&'static str> {
        Some(match number {
            1 => "setup or state outside the sizes, or a lent run of another length",
            2 => "malformed frame, or operation or cents outside the entry rules",
            3 => "for another replica, or from one that isn't there",
            4 => "past the room of the log, or of a journal",
            5 => "a commit number past the log",
            6 => "request numbers of a client that don't rise along the log",
            7 => "committed entries would be shortened or altered",
            8 => "past the last view, 4294967295",
            9 => "the messages, or the bytes of a journal or a table, don't fit their area",
            10 => "the replies don't fit their area",
            11 => "the next request number is 2^64-1",
            12 => "bad journal frame",
            13 => "bad row",
            _ => return None,
        })
    }

    /// What the number of a call that reads no frame says: 0 is done.
    pub(crate) fn check(number: u8) -> Result<(), Refusal> {
        match number {
            0 => Ok(()),
            _ => Err(Refusal::of(number)),
        }
    }

    /// The same of a call that reads a frame, with the offset that it gave.
    #[cfg(feature = "replica")]
    pub(crate) fn check_frame(number: u8, offset: usize, frame: &[u8]) -> Result<(), Refusal> {
        match number {
            0 => Ok(()),
            _ => Err(Refusal::of_frame(number, offset, frame.len())),
        }
    }

    /// The same of a call that reads a journal, with the offset and the fault that it gave.
    pub(crate) fn check_journal(number: u8, offset: usize, fault: u8) -> Result<(), Refusal> {
        match (number, Fault::from_number(fault)) {
            (12, Some(fault)) => Err(Refusal::BadFrame { offset, fault }),
            _ => Refusal::check(number),
        }
    }

    /// The same of a call that reads a table, with what it answered.
    pub(crate) fn check_table(number: u8, answers: [u64; 5]) -> Result<(), Refusal> {
        let [_, row, column, fault, offset] = answers;
        let column = Column::from_number(column as u8);
        match (number, column, FieldFault::from_number(fault as u8)) {
            (13, Some(column), Some(fault)) => Err(Refusal::BadRow {
                row: row as usize,
                column,
                fault,
                offset: offset as usize,
            }),
            _ => Refusal::check(number),
        }
    }

    /// The refusal with this number, of a frame. Most calls are done, and don't come here.
    #[cfg(feature = "replica")]
    #[cold]
    fn of_frame(number: u8, offset: usize, length: usize) -> Refusal {
        match number {
            2 => Refusal::Malformed { offset, length },
            _ => Refusal::of(number),
        }
    }

    /// The refusal with this number, where there is no frame.
    #[cold]
    fn of(number: u8) -> Refusal {
        match number {
            1 => Refusal::OutsideSizes,
            2 => Refusal::OutsideEntryRules,
            3 => Refusal::WrongReplica,
            4 => Refusal::PastRoom,
            5 => Refusal::CommitPastLog,
            6 => Refusal::NotRising,
            7 => Refusal::CommittedAltered,
            8 => Refusal::PastLastView,
            9 => Refusal::MessagesDontFit,
            10 => Refusal::RepliesDontFit,
            11 => Refusal::NumbersUsedUp,
            _ => panic!("{number} is no number of a refusal"),
        }
    }
}

/// The number and the words, in one line.
impl fmt::Display for Refusal {
    fn fmt(&self, f: &mut fmt::Formatter<'_>) -> fmt::Result {
        let number = self.number();
        write!(f, "refusal {number}: ")?;
        match *self {
            Refusal::Malformed { offset, length } if offset < length => {
                write!(f, "malformed frame: byte {offset} of {length} is wrong")
            }
            Refusal::Malformed { length, .. } => {
                let bytes = if length == 1 { "byte" } else { "bytes" };
                write!(
                    f,
                    "malformed frame: it ends after {length} {bytes}, and more are missing"
                )
            }
            Refusal::OutsideEntryRules => f.write_str("operation or cents outside the entry rules"),
            Refusal::BadFrame { offset, fault } => {
                let op = offset / FRAME_LENGTH + 1;
                write!(f, "bad journal frame at byte {offset} (op {op}): {fault}")
            }
            Refusal::BadRow {
                row,
                column,
                fault,
                offset,
            } => write!(f, "bad row {row}: {column} (byte {offset}): {fault}"),
            _ => f.write_str(Refusal::words(number).expect("a refusal's number")),
        }
    }
}

impl std::error::Error for Refusal {}
