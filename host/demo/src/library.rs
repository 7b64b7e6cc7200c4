//! What the day asks of a library that replicates, so that the same day can be played through two of them.

use crate::clubs::Charge;
use crate::damage::Taken;
use whitherhaul::{Entry, Refusal, Reply, Setup, Status};

/// What a call wants sent, each message with its addressee; or why it was refused.
pub struct Answer<M> {
    pub messages: Vec<(u8, M)>,
    pub replies: Vec<Reply>,
    pub refused: Option<String>,
}

/// How a replica stands.
#[derive(Clone, Copy, PartialEq, Eq)]
pub struct Standing {
    pub status: Status,
    pub view: u32,
    pub leads: bool,
    pub op_number: u64,
    pub commit_number: u64,
}

impl Standing {
    pub fn normal(&self) -> bool {
        matches!(self.status, Status::Normal)
    }

    pub fn recovering(&self) -> bool {
        matches!(self.status, Status::Recovering)
    }
}

/// A library: replicas, and the desks' side of it.
pub trait Library {
    const NAME: &'static str;
    type Message: Clone;
    type Replica;
    type Desk;

    /// A replica's first start.
    fn replica(setup: &Setup) -> Self::Replica;
    /// A replica that is back from a crash, and what it asks the others.
    fn recovered(setup: &Setup, view: u32, nonce: u64)
        -> (Self::Replica, Vec<(u8, Self::Message)>);
    fn on_message(replica: &mut Self::Replica, message: &Self::Message) -> Answer<Self::Message>;
    fn on_idle(replica: &mut Self::Replica) -> Answer<Self::Message>;
    /// A message as document 01's frame.
    fn frame(to: u8, message: &Self::Message) -> Vec<u8>;
    /// A frame that may be damaged.
    fn on_frame(replica: &mut Self::Replica, frame: &[u8]) -> Taken<Self::Message>;
    fn standing(replica: &Self::Replica) -> Standing;
    /// The entries that were applied, in order.
    fn applied(replica: &Self::Replica) -> Vec<Entry>;
    fn total(replica: &Self::Replica, member: u32) -> u64;
    /// All members' totals together.
    fn takings(replica: &Self::Replica) -> Result<u64, Refusal>;
    /// The journal's frames of what was applied behind this op. Of a library without a journal there are none.
    fn journal_since(_: &Self::Replica, _op: u32) -> Vec<u8> {
        Vec::new()
    }

    fn desk(replicas: u32, id: u64) -> Self::Desk;
    /// Sends a charge: its number, and the message with its addressee.
    fn request(desk: &mut Self::Desk, charge: &Charge) -> (u64, (u8, Self::Message));
    /// Whether the reply answers the charge that waits.
    fn on_reply(desk: &mut Self::Desk, reply: &Reply) -> bool;
    /// The charge that waits, sent again to every replica.
    fn again(desk: &mut Self::Desk) -> Vec<(u8, Self::Message)>;
}
