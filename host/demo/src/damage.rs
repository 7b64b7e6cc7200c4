//! Damage to a frame: one thing is wrong that no correct replica sends and that document 01 refuses on the frame alone.

#[cfg(test)]
mod tests;

use crate::library::Answer;
use std::collections::BTreeSet;
use whitherhaul::Refusal;
use wire::random::Random;

/// How long an entry is, and where its operation stands in it.
const ENTRY: usize = 32;
const OPERATION: usize = 16;
/// Where every frame has its version and its kind.
const VERSION: usize = 4;
const KIND: usize = 5;

/// What is wrong with a damaged frame, in the order of the refusals.
#[derive(Clone, Copy, Debug, PartialEq, Eq, PartialOrd, Ord)]
pub enum Damage {
    Version,
    Short,
    Operation,
    Sender,
    Op,
    Commit,
    Twice,
}

/// What a library did with a damaged frame, if it didn't stop.
pub enum Taken<M> {
    /// It is done, and this is to be sent.
    Done(Answer<M>),
    /// It is refused; whether every byte of the replica is as before.
    Refused { why: Refusal, unchanged: bool },
    /// The reader in front of the library could make no message of it. Whitherhaul reads frames itself.
    #[cfg_attr(not(feature = "vsr-rs"), allow(dead_code))]
    Dropped,
}

/// A kind of frame: its name, and where in it the sender, the op number, the commit number and the first entry stand. The numbers
/// are those that refusals 3, 4 and 5 bound; where an op number also counts the entries, another one is malformed, so it has no place.
struct Kind {
    name: &'static str,
    sender: Option<usize>,
    op: Option<usize>,
    commit: Option<usize>,
    entries: Option<usize>,
}

/// The kinds, from 1 on; a place of 0 is none.
const KINDS: [Kind; 11] = [
    kind("Request", [0, 0, 0, 7]),
    kind("Prepare", [0, 11, 0, 19]),
    kind("PrepareOk", [15, 11, 0, 0]),
    kind("Commit", [0, 0, 0, 0]),
    kind("GetState", [7, 12, 0, 0]),
    kind("NewState", [0, 0, 19, 23]),
    kind("StartViewChange", [11, 0, 0, 0]),
    kind("DoViewChange", [11, 0, 20, 24]),
    kind("StartView", [0, 0, 15, 19]),
    kind("Recovery", [7, 0, 0, 0]),
    kind("RecoveryResponse", [19, 0, 25, 29]),
];

const fn kind(name: &'static str, [sender, op, commit, entries]: [usize; 4]) -> Kind {
    Kind {
        name,
        sender: place(sender),
        op: place(op),
        commit: place(commit),
        entries: place(entries),
    }
}

const fn place(at: usize) -> Option<usize> {
    match at {
        0 => None,
        at => Some(at),
    }
}

fn kind_of(frame: &[u8]) -> &'static Kind {
    &KINDS[usize::from(frame[KIND]) - 1]
}

/// What a frame's kind is called.
pub fn name_of(frame: &[u8]) -> &'static str {
    kind_of(frame).name
}

/// The frame with a damage that it can have. Each refusal that it can meet so is as likely as the others.
pub fn damaged(random: &mut Random, frame: &[u8]) -> (Damage, Vec<u8>) {
    let able = Damage::ALL
        .iter()
        .filter_map(|damage| Some((*damage, damage.done_to(random, frame)?)));
    let mut able: Vec<_> = able.collect();
    let refusals: BTreeSet<u8> = able.iter().map(|(damage, _)| damage.refusal()).collect();
    let refusals: Vec<u8> = refusals.into_iter().collect();
    let refusal = random.pick(&refusals);
    able.retain(|(damage, _)| damage.refusal() == refusal);
    let chosen = random.below(able.len());
    able.swap_remove(chosen)
}

impl Damage {
    pub const ALL: [Damage; 7] = [
        Damage::Version,
        Damage::Short,
        Damage::Operation,
        Damage::Sender,
        Damage::Op,
        Damage::Commit,
        Damage::Twice,
    ];

    /// What the frame comes with, in words.
    pub fn words(self) -> &'static str {
        match self {
            Damage::Version => "another version",
            Damage::Short => "its second half missing",
            Damage::Operation => "an operation that isn't one",
            Damage::Sender => "a sender that isn't there",
            Damage::Op => "an op number far past the log",
            Damage::Commit => "a commit number past its log",
            Damage::Twice => "a charge twice in its log",
        }
    }

    /// The number by which document 01 refuses it.
    pub fn refusal(self) -> u8 {
        match self {
            Damage::Version | Damage::Short | Damage::Operation => 2,
            Damage::Sender => 3,
            Damage::Op => 4,
            Damage::Commit => 5,
            Damage::Twice => 6,
        }
    }

    /// The frame with this damage; none where it has nothing that can be damaged so.
    fn done_to(self, random: &mut Random, frame: &[u8]) -> Option<Vec<u8>> {
        let kind = kind_of(frame);
        match self {
            Damage::Version => flipped(frame, VERSION),
            Damage::Short => Some(frame[..frame.len() / 2].to_vec()),
            Damage::Operation => {
                let entry = random.below(entries(frame).max(1));
                flipped(frame, kind.entries? + ENTRY * entry + OPERATION)
            }
            Damage::Sender => flipped(frame, kind.sender?),
            Damage::Op => flipped(frame, kind.op?),
            Damage::Commit => flipped(frame, kind.commit?),
            Damage::Twice => twice(random, frame),
        }
    }
}

/// The frame with the highest bit of a byte turned over; none where it ends before that byte.
fn flipped(frame: &[u8], at: usize) -> Option<Vec<u8>> {
    let mut frame = frame.to_vec();
    *frame.get_mut(at)? ^= 0x80;
    Some(frame)
}

/// How many entries a frame has.
fn entries(frame: &[u8]) -> usize {
    let from = kind_of(frame).entries.unwrap_or(frame.len());
    frame.len().saturating_sub(from) / ENTRY
}

/// The frame with one of its entries also in the place of the next one. DoViewChange, StartView and RecoveryResponse carry a whole
/// log; what a NewState carries is judged only with the log behind which it would stand.
fn twice(random: &mut Random, frame: &[u8]) -> Option<Vec<u8>> {
    let count = entries(frame);
    if count < 2 || !matches!(frame[KIND], 8 | 9 | 11) {
        return None;
    }
    let at = kind_of(frame).entries? + ENTRY * random.below(count - 1);
    let mut frame = frame.to_vec();
    frame.copy_within(at..at + ENTRY, at + ENTRY);
    Some(frame)
}
