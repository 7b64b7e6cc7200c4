//! A journal judged by the fee rules.

use crate::input;
use crate::words::{bad_frame, count, money};
use ledger_options::Source;
use std::fmt;
use whitherhaul::{Fault, Journal, Refusal};

/// What good frames come to.
#[derive(Clone, Copy, Debug, PartialEq, Eq)]
pub struct Sum {
    /// How many there are.
    pub frames: usize,
    /// All totals added up, in cents.
    pub takings: u64,
}

/// What a journal is.
#[derive(Clone, Copy, Debug, PartialEq, Eq)]
pub enum Verdict {
    /// It is good, and comes to this.
    Good(Sum),
    /// A frame is bad.
    Bad {
        /// Where the first bad frame begins.
        offset: usize,
        /// What is wrong with it.
        fault: Fault,
        /// What the frames before it come to.
        before: Sum,
    },
}

impl Verdict {
    /// The program's exit status: 0 good, 1 bad.
    pub fn status(&self) -> u8 {
        match self {
            Verdict::Good(_) => 0,
            Verdict::Bad { .. } => 1,
        }
    }
}

/// A journal that was read and judged.
#[derive(Clone, Debug)]
pub struct Checked {
    /// What it is called.
    pub name: String,
    /// The bytes that decide.
    pub content: Vec<u8>,
    /// What it is.
    pub verdict: Verdict,
}

/// The line of `ledger check`.
impl fmt::Display for Checked {
    fn fmt(&self, f: &mut fmt::Formatter<'_>) -> fmt::Result {
        write!(f, "{}: {}", self.name, self.verdict)
    }
}

/// Reads a journal and judges it; what keeps it from being read is said in one sentence.
pub fn check(source: &Source, members: u32) -> Result<Checked, String> {
    let content = input::read(source)?;
    let verdict = judge(members, &content).map_err(|refusal| refusal.to_string())?;
    Ok(Checked {
        name: input::name(source),
        content,
        verdict,
    })
}

/// Judges a journal of a ledger with so many members. Refused by 1 where these aren't 1 to 4,096.
pub fn judge(members: u32, file: &[u8]) -> Result<Verdict, Refusal> {
    match read(members, file) {
        Ok(sum) => Ok(Verdict::Good(sum)),
        Err(Refusal::BadFrame { offset, fault }) => Ok(Verdict::Bad {
            offset,
            fault,
            before: read(members, &file[..offset])?,
        }),
        Err(refusal) => Err(refusal),
    }
}

fn read(members: u32, file: &[u8]) -> Result<Sum, Refusal> {
    let journal = Journal::read(members, file)?;
    Ok(Sum {
        frames: journal.entries().len(),
        takings: journal.takings(),
    })
}

/// The same without the journal's name.
impl fmt::Display for Verdict {
    fn fmt(&self, f: &mut fmt::Formatter<'_>) -> fmt::Result {
        match *self {
            Verdict::Good(Sum { frames, takings }) => {
                let entries = count(frames as u64, "entry", "entries");
                write!(f, "good: {entries}, takings {} euros", money(takings))
            }
            Verdict::Bad {
                offset,
                fault,
                before: Sum { frames, takings },
            } => {
                let frames = count(frames as u64, "good frame", "good frames");
                let (bad, takings) = (bad_frame(offset, fault), money(takings));
                write!(f, "{bad}; before it {frames}, takings {takings} euros")
            }
        }
    }
}
