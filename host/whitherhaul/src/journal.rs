//! A journal: the applied entries on disk, a frame of 50 bytes for each.
//!
//! A frame has its length (4 bytes, always 46), version 1 (1), the op number (4), the entry (32),
//! outcome (1) and total (8). Op numbers run 1, 2, 3 to at most 4,096; outcome and total are what
//! the fee rules give, from totals of 0. A file is good or is refused at its first bad frame, by 12.
//!
//! Nothing here opens a file: a journal is bytes. A replica's come from
//! [`Replica::journal_since`](crate::Replica::journal_since), to be appended to what is there.

use crate::entries::{u64_at, Entry, Operation, Outcome};
use crate::{raw, Fault, Refusal};
use std::fmt;
use std::iter::FusedIterator;

/// How long a frame is.
pub const FRAME_LENGTH: usize = 50;

/// How many frames a journal can have.
pub const MOST_FRAMES: usize = 4096;

/// A journal that was read and is good: its entries, and the members' totals after them.
///
/// ```
/// use whitherhaul::{Entry, Fault, Journal, Operation, Refusal};
///
/// # fn main() -> Result<(), Refusal> {
/// let fee = Entry { client: 7, request: 0, operation: Operation::Fee, member: 3, cents: 4_500 };
/// let mut file = Journal::write(8, &[fee, fee])?;
/// let journal = Journal::read(8, &file)?;
/// assert_eq!(journal.entries(), [fee, fee]);
/// assert_eq!((journal.total(3), journal.takings()), (9_000, 9_000));
///
/// file[99] += 1;
/// let refusal = Journal::read(8, &file).unwrap_err();
/// assert_eq!(refusal, Refusal::BadFrame { offset: 50, fault: Fault::Total });
/// assert_eq!(
///     refusal.to_string(),
///     "refusal 12: bad journal frame at byte 50 (op 2): the total isn't what the fee rules give"
/// );
/// # Ok(())
/// # }
/// ```
#[derive(Clone, PartialEq, Eq)]
pub struct Journal {
    entries: Vec<Entry>,
    totals: Vec<u64>,
    takings: u64,
}

impl Journal {
    /// Reads a whole file, for so many members. An empty one is good. Refusal 1 where the members
    /// aren't 1 to 4,096, 12 ([`Refusal::BadFrame`]) where a frame is bad; 9 doesn't come.
    pub fn read(members: u32, file: &[u8]) -> Result<Journal, Refusal> {
        // What no good file and no M of the sizes needs isn't taken.
        let mut area = vec![0; 32 * (file.len() / FRAME_LENGTH).min(MOST_FRAMES)];
        let mut totals = vec![0; 8 * members.min(4096) as usize];
        let (number, answers) = raw::journal_read(members, file, &mut area, &mut totals);
        let [entries, offset, fault] = answers;
        Refusal::check_journal(number, offset as usize, fault as u8)?;
        let (number, takings) = raw::journal_takings(members, &totals);
        Refusal::check(number)?;
        let entries = area.chunks_exact(32).take(entries as usize);
        Ok(Journal {
            entries: entries.map(Entry::of).collect(),
            totals: totals
                .chunks_exact(8)
                .map(|total| u64_at(total, 0))
                .collect(),
            takings,
        })
    }

    /// The journal of these entries, with what the fee rules give for each from totals of 0, for so
    /// many members. Refusal 1 where the members aren't 1 to 4,096, 2
    /// ([`Refusal::OutsideEntryRules`]) where the cents of an entry are outside its rules, 4 where
    /// there are more than 4,096; 9 doesn't come.
    pub fn write(members: u32, entries: &[Entry]) -> Result<Vec<u8>, Refusal> {
        let run: Vec<u8> = entries.iter().flat_map(Entry::bytes).collect();
        let mut file = vec![0; FRAME_LENGTH * entries.len().min(MOST_FRAMES)];
        let (number, _) = raw::journal_write(members, &run, &mut file);
        Refusal::check(number).map(|()| file)
    }

    /// Its entries; that of op number 1 is the first.
    pub fn entries(&self) -> &[Entry] {
        &self.entries
    }

    /// The members' totals after all entries; that of member 0 is the first.
    pub fn totals(&self) -> &[u64] {
        &self.totals
    }

    /// A member's total after all entries. Panics where the member isn't below M.
    pub fn total(&self, member: u32) -> u64 {
        assert!((member as usize) < self.totals.len(), "no such member");
        self.totals[member as usize]
    }

    /// All totals added up.
    pub fn takings(&self) -> u64 {
        self.takings
    }
}

/// Its numbers, not its entries.
impl fmt::Debug for Journal {
    fn fmt(&self, f: &mut fmt::Formatter<'_>) -> fmt::Result {
        f.debug_struct("Journal")
            .field("members", &self.totals.len())
            .field("entries", &self.entries.len())
            .field("takings", &self.takings)
            .finish_non_exhaustive()
    }
}

/// A frame of a journal as it stands there.
#[derive(Clone, Copy, Debug, PartialEq, Eq, Hash)]
pub struct JournalFrame {
    /// Its op number, from 1 on.
    pub op: u32,
    /// Its entry, which keeps the entry rules.
    pub entry: Entry,
    /// Its outcome by number. It isn't compared with the fee rules, and may be any.
    pub outcome: u8,
    /// Its total. It isn't compared with the fee rules either.
    pub total: u64,
}

impl JournalFrame {
    /// The outcome where there is one with its number.
    pub fn known_outcome(&self) -> Option<Outcome> {
        Outcome::from_number(self.outcome)
    }

    /// Frame number `op` of the file, by the answers for it.
    fn of(op: u32, answers: [u64; 7]) -> JournalFrame {
        let [client, request, operation, member, cents, outcome, total] = answers;
        let operation = Operation::from_number(operation as u8);
        JournalFrame {
            op,
            entry: Entry {
                client,
                request,
                operation: operation.expect("a frame of good form has operation 1 to 3"),
                member: member as u32,
                cents,
            },
            outcome: outcome as u8,
            total,
        }
    }
}

/// The frames of a file as they stand, in order. Their form is judged, and so needs no M: whether
/// outcomes and totals are those of the fee rules is for [`Journal::read`] to say.
///
/// It ends behind the last frame, or with the first whose form is bad.
pub fn frames(file: &[u8]) -> JournalFrames<'_> {
    JournalFrames {
        file,
        next: 0,
        bad: false,
    }
}

/// See [`frames`].
#[derive(Clone)]
pub struct JournalFrames<'a> {
    file: &'a [u8],
    next: u32,
    bad: bool,
}

impl JournalFrames<'_> {
    /// Where the next frame begins; after an error, where the bad one begins.
    pub fn offset(&self) -> usize {
        FRAME_LENGTH * self.next as usize
    }
}

impl Iterator for JournalFrames<'_> {
    type Item = Result<JournalFrame, Fault>;

    fn next(&mut self) -> Option<Self::Item> {
        if self.bad || self.file.len() <= self.offset() {
            return None;
        }
        let (fault, answers) = raw::journal_frame(self.file, u64::from(self.next));
        if let Some(fault) = Fault::from_number(fault) {
            self.bad = true;
            return Some(Err(fault));
        }
        self.next += 1;
        Some(Ok(JournalFrame::of(self.next, answers)))
    }
}

impl FusedIterator for JournalFrames<'_> {}

/// Where it stands, not the file's bytes.
impl fmt::Debug for JournalFrames<'_> {
    fn fmt(&self, f: &mut fmt::Formatter<'_>) -> fmt::Result {
        f.debug_struct("JournalFrames")
            .field("offset", &self.offset())
            .field("length", &self.file.len())
            .finish_non_exhaustive()
    }
}
