//! The calls that one replica was given, so that they can be given again.

use crate::wrongs::Wrong;
use schedules::rust::{Setup, Start};

/// A replica with its calls.
#[derive(Clone, Debug)]
pub struct Case {
    pub setup: Setup,
    pub start: Start,
    pub steps: Vec<Step>,
}

/// A frame, or a tick where there is none; and how it is lent memory.
#[derive(Clone, Debug, Default)]
pub struct Step {
    pub frame: Option<Vec<u8>>,
    pub lends: Lends,
}

/// How a call is lent memory. Tries that are refused come before the call itself.
#[derive(Clone, Copy, Debug, Default, PartialEq, Eq)]
pub struct Lends {
    /// Bytes past what the call needs, of messages and replies.
    pub more: (u8, u8),
    /// Try areas of these lengths first.
    pub tries: [Option<(Area, Area)>; 2],
    /// Try a run of another length first, or a state that refusal 1 catches.
    pub wrong: Option<Wrong>,
    /// Give the call also to a state that keeps this sum.
    pub sum: Option<u64>,
    /// Compare also what the Rust shows only in its Debug text.
    pub deep: bool,
}

/// A length of an area, by the length that the call needs.
#[derive(Clone, Copy, Debug, PartialEq, Eq)]
pub enum Area {
    Nothing,
    Less,
    Just,
    More,
}

impl Area {
    pub const ALL: [Area; 4] = [Area::Nothing, Area::Less, Area::Just, Area::More];

    pub fn length(self, needed: usize) -> usize {
        match self {
            Area::Nothing => 0,
            Area::Less => needed.saturating_sub(1),
            Area::Just => needed,
            Area::More => needed + 1,
        }
    }
}
