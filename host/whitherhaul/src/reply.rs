//! Replies to clients.

use crate::{raw, Outcome, Refusal};

/// What a Reply says.
#[derive(Clone, Copy, Debug, PartialEq, Eq, Hash)]
pub struct Reply {
    /// The view in which it was sent, which a client follows.
    pub view: u32,
    /// The client that it is for.
    pub client: u64,
    /// The request that it answers.
    pub request: u64,
    /// What the request gave.
    pub outcome: Outcome,
    /// The member's total after it; 0 where there is no such member.
    pub total: u64,
}

impl Reply {
    /// Reads a Reply. [`Refusal::Malformed`] where the bytes are no well-formed one.
    pub fn read(frame: &[u8]) -> Result<Reply, Refusal> {
        let (number, said, offset) = raw::read_reply(frame);
        Refusal::check_frame(number, offset, frame)?;
        let [view, client, request, outcome, total] = said;
        Ok(Reply {
            view: view as u32,
            client,
            request,
            outcome: Outcome::from_number(outcome as u8).expect("a Reply's outcome is 1 to 6"),
            total,
        })
    }
}
