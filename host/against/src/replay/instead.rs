//! A run of a trace that was written without the exceptions (`own_id`, `forgotten`). From the first call that meets one on the trace's
//! answers are another replica's, so the amended Rust stands in for them: it is given the run so far, and then each further call, on which the
//! library is compared with it as everywhere else (`pair`).

use crate::counts::Counts;
use crate::own_id;
use crate::pair::Pair;
use crate::parse::parse;
use schedules::rust::{Setup, Start};

/// A frame, or a tick where there is none; and the lengths of the areas that it was lent.
pub type Given = (Option<Vec<u8>>, (usize, usize));

/// A run so far.
pub struct SoFar {
    pub setup: Setup,
    pub start: Start,
    pub calls: Vec<Given>,
}

impl SoFar {
    /// Whether this frame puts the own id into the set by document 01, in a replica of this status and view.
    pub fn joins(&self, frame: Option<&[u8]>, status: usize, view: usize) -> bool {
        let call = frame.and_then(parse);
        call.is_some_and(|call| own_id::would_join(self.setup, status, view, &call))
    }

    /// The amended Rust and the library, after these calls.
    pub fn pair(&self) -> Result<Pair, String> {
        let mut pair = Pair::new(self.setup, self.start)?.0;
        for (frame, areas) in &self.calls {
            compared(&mut pair, frame.as_deref(), *areas)?;
        }
        Ok(pair)
    }
}

/// The library is compared with the amended Rust on a call, insides included.
pub fn compared(
    pair: &mut Pair,
    frame: Option<&[u8]>,
    areas: (usize, usize),
) -> Result<(), String> {
    let held = pair.call_in(frame, areas);
    let held = held.and_then(|()| pair.end(&mut Counts::default()));
    held.map_err(|fault| format!("beside the amended Rust: {fault}"))
}
