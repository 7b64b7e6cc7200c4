//! Frames as they stand in a run of bytes, and what a call sent.

use crate::Reply;
use std::fmt;
use std::iter::FusedIterator;

/// Where a frame's kind stands, behind its length and its version.
const KIND: usize = 5;

/// Where a frame's addressee stands.
pub(crate) const ADDRESSEE: usize = 6;

/// The replica that a frame is for; none where the bytes end before it. In a Reply it means
/// nothing.
pub fn addressee(frame: &[u8]) -> Option<u8> {
    frame.get(ADDRESSEE).copied()
}

/// A frame's kind, 1 to 12 in a frame that this library wrote; none where the bytes end before it.
pub fn kind(frame: &[u8]) -> Option<u8> {
    frame.get(KIND).copied()
}

/// Whole frames that stand straight one after another in a run of bytes, each handed out with its
/// 4-byte length.
#[derive(Clone)]
pub struct Frames<'a>(&'a [u8]);

impl<'a> Frames<'a> {
    /// The frames of these bytes; a part of one at the end isn't handed out.
    pub fn new(bytes: &'a [u8]) -> Frames<'a> {
        Frames(bytes)
    }
}

impl<'a> Iterator for Frames<'a> {
    type Item = &'a [u8];

    fn next(&mut self) -> Option<&'a [u8]> {
        let length = self.0.first_chunk().map(|b| u32::from_be_bytes(*b))?;
        let (frame, rest) = self.0.split_at_checked(length as usize + 4)?;
        self.0 = rest;
        Some(frame)
    }
}

/// Messages for replicas, in the order in which they were written: the replica that each is for,
/// and its frame with the 4-byte length, to be delivered as it is.
///
/// The frames lie in the area of whoever sent them; what is to outlast its next call has to be
/// copied.
#[derive(Clone)]
pub struct Messages<'a>(pub(crate) Frames<'a>);

impl<'a> Iterator for Messages<'a> {
    type Item = (u8, &'a [u8]);

    fn next(&mut self) -> Option<(u8, &'a [u8])> {
        self.0
            .find_map(|frame| addressee(frame).map(|to| (to, frame)))
    }
}

/// Replies for clients, in the order in which they were written, each read: [`Reply::client`] says
/// for whom it is.
#[derive(Clone)]
pub struct Replies<'a>(Frames<'a>);

impl Iterator for Replies<'_> {
    type Item = Reply;

    fn next(&mut self) -> Option<Reply> {
        self.0.find_map(|frame| Reply::read(frame).ok())
    }
}

impl FusedIterator for Frames<'_> {}
impl FusedIterator for Messages<'_> {}
impl FusedIterator for Replies<'_> {}

/// What a call sent: messages to replicas, and Replies to clients. It lends what stands in the
/// replica's areas until the next call, and copies nothing.
///
/// An owner whose desks are in the same process takes [`Sent::replies`], which are read already.
/// One whose network carries bytes takes the Reply frames, `Frames::new(sent.reply_bytes())`, which
/// a desk hands to [`Client::on_reply_frame`](crate::Client::on_reply_frame).
#[derive(Clone, Copy)]
pub struct Sent<'a> {
    pub(crate) messages: &'a [u8],
    pub(crate) replies: &'a [u8],
}

impl<'a> Sent<'a> {
    /// The messages, each with the replica that it is for.
    pub fn messages(&self) -> Messages<'a> {
        Messages(Frames(self.messages))
    }

    /// The Replies by value. Their frames are [`Sent::reply_bytes`].
    pub fn replies(&self) -> Replies<'a> {
        Replies(Frames(self.replies))
    }

    /// The frames of all messages as one run of bytes, which [`Frames::new`] takes apart.
    pub fn message_bytes(&self) -> &'a [u8] {
        self.messages
    }

    /// The frames of all Replies as one run of bytes, which [`Frames::new`] takes apart.
    pub fn reply_bytes(&self) -> &'a [u8] {
        self.replies
    }
}

/// How many frames there are, not their bytes.
impl fmt::Debug for Sent<'_> {
    fn fmt(&self, f: &mut fmt::Formatter<'_>) -> fmt::Result {
        f.debug_struct("Sent")
            .field("messages", &self.messages().count())
            .field("replies", &self.replies().count())
            .finish_non_exhaustive()
    }
}

/// How many are left.
fn left(f: &mut fmt::Formatter<'_>, name: &str, count: usize) -> fmt::Result {
    f.debug_struct(name)
        .field("left", &count)
        .finish_non_exhaustive()
}

/// How many frames are left, not their bytes.
impl fmt::Debug for Frames<'_> {
    fn fmt(&self, f: &mut fmt::Formatter<'_>) -> fmt::Result {
        left(f, "Frames", self.clone().count())
    }
}

/// How many messages are left, not their bytes.
impl fmt::Debug for Messages<'_> {
    fn fmt(&self, f: &mut fmt::Formatter<'_>) -> fmt::Result {
        left(f, "Messages", self.clone().count())
    }
}

/// How many Replies are left.
impl fmt::Debug for Replies<'_> {
    fn fmt(&self, f: &mut fmt::Formatter<'_>) -> fmt::Result {
        left(f, "Replies", self.clone().count())
    }
}
