//! A client: a desk that charges fees.

use crate::entries::{u32_at, u64_at, Operation};
use crate::frames::{Frames, Messages, ADDRESSEE};
use crate::{raw, Refusal, Reply};
use std::fmt;

/// How long a Request frame is.
const REQUEST: usize = 39;

/// A client, with its record and an area in which every call fits. Its id must be its own, for
/// ever: one that starts anew takes another.
///
/// Only making a client can be refused by 1: its record, once taken, has a meaning and keeps it. 9
/// doesn't come, since the area is long enough.
#[derive(Clone)]
pub struct Client {
    record: [u8; raw::CLIENT],
    area: [u8; 7 * REQUEST],
}

/// A request that a client has just made. The frame lies in the client's area until its next call.
#[derive(Clone, Copy)]
pub struct Requested<'a> {
    /// The request's number, which its Reply repeats.
    pub number: u64,
    /// The replica that the frame is for: the primary of the latest view that the client heard of.
    pub to: u8,
    /// The Request frame, with its 4-byte length.
    pub frame: &'a [u8],
}

impl Client {
    /// A new client of so many replicas. Refusal 1 where they aren't 3 to 7.
    pub fn new(replicas: u32, id: u64) -> Result<Client, Refusal> {
        let mut record = [0; raw::CLIENT];
        Refusal::check(raw::client_create(replicas, id, &mut record))?;
        Ok(Client {
            record,
            area: [0; 7 * REQUEST],
        })
    }

    /// A client from a record that was kept ([`Client::record`]). Refusal 1 where a byte of it has
    /// no meaning.
    pub fn from_record(record: [u8; raw::CLIENT]) -> Result<Client, Refusal> {
        let mut area = [0; 7 * REQUEST];
        Refusal::check(raw::client_idle(&record, &mut area).0)?;
        Ok(Client { record, area })
    }

    /// A new request, in place of one that waits. Refusal 2 ([`Refusal::OutsideEntryRules`]) where
    /// operation or cents are outside the entry rules, 11 where the numbers are used up.
    pub fn on_request(
        &mut self,
        operation: Operation,
        member: u32,
        cents: u64,
    ) -> Result<Requested<'_>, Refusal> {
        let (refusal, number, written) = raw::client_request(
            &mut self.record,
            operation as u8,
            member,
            cents,
            &mut self.area,
        );
        Refusal::check(refusal)?;
        Ok(Requested {
            number,
            to: self.area[ADDRESSEE],
            frame: &self.area[..written],
        })
    }

    /// A Reply came as a frame: what it says, where it answers the request that waits.
    ///
    /// None where it is another client's, which leaves this one exactly as it was; and none where
    /// it is for another request of this client, an older one, whose view is followed as by
    /// [`Client::on_reply`]. Refusal 2 ([`Refusal::Malformed`]) where the frame is no well-formed
    /// Reply, with the offset of its first wrong byte: then nothing changes.
    ///
    /// A desk that takes frames should use this: a Reply that went to the wrong desk does no harm.
    ///
    /// ```
    /// use whitherhaul::{Client, Operation, Refusal};
    ///
    /// # fn main() -> Result<(), Refusal> {
    /// let mut desk = Client::new(3, 7)?;
    /// desk.on_request(Operation::Fee, 3, 4_500)?;
    ///
    /// let mut frame = [0; 36];
    /// frame[3..6].copy_from_slice(&[32, 1, 12]); // length, version, kind
    /// frame[18] = 8; // the client; its request is 0, as ours
    /// frame[27..].copy_from_slice(&[1, 0, 0, 0, 0, 0, 0, 0x11, 0x94]); // outcome, total
    /// assert_eq!(desk.on_reply_frame(&frame)?, None);
    /// assert_eq!(desk.pending(), Some(0));
    ///
    /// frame[18] = 7;
    /// assert_eq!(desk.on_reply_frame(&frame)?.map(|reply| reply.total), Some(4_500));
    /// assert_eq!(desk.pending(), None);
    ///
    /// let cut = Refusal::Malformed { offset: 35, length: 35 };
    /// assert_eq!(desk.on_reply_frame(&frame[..35]), Err(cut));
    /// assert_eq!(
    ///     cut.to_string(),
    ///     "refusal 2: malformed frame: it ends after 35 bytes, and more are missing"
    /// );
    /// # Ok(())
    /// # }
    /// ```
    pub fn on_reply_frame(&mut self, frame: &[u8]) -> Result<Option<Reply>, Refusal> {
        let reply = Reply::read(frame)?;
        if reply.client != self.id() {
            return Ok(None);
        }
        let answers = self.on_reply(reply.request, reply.view)?;
        Ok(answers.then_some(reply))
    }

    /// A Reply came for this request number, of this view: whether it answers the request that
    /// waits. The client follows a later view also where it doesn't.
    ///
    /// As in vsr-rs no client id is handed over, so the caller must know that the Reply is this
    /// client's: one of another desk with the same number, handed over by mistake, clears a charge
    /// that still waits. [`Client::on_reply_frame`] looks at the id.
    pub fn on_reply(&mut self, number: u64, view: u32) -> Result<bool, Refusal> {
        let (refusal, answers) = raw::client_reply(&mut self.record, number, view);
        Refusal::check(refusal).map(|()| answers)
    }

    /// No Reply came for a while: the request that waits, to every replica; nothing where none
    /// waits.
    pub fn on_idle(&mut self) -> Result<Messages<'_>, Refusal> {
        let (refusal, written) = raw::client_idle(&self.record, &mut self.area);
        Refusal::check(refusal)?;
        Ok(Messages(Frames::new(&self.area[..written])))
    }

    /// Its id.
    pub fn id(&self) -> u64 {
        u64_at(&self.record, 1)
    }

    /// The latest view that it heard of.
    pub fn view(&self) -> u32 {
        u32_at(&self.record, 9)
    }

    /// The number that the next request gets.
    pub fn next_number(&self) -> u64 {
        u64_at(&self.record, 13)
    }

    /// The number of the request that waits.
    pub fn pending(&self) -> Option<u64> {
        (self.record[21] == 1).then(|| u64_at(&self.record, 30))
    }

    /// Its record: what an owner keeps of it.
    pub fn record(&self) -> &[u8; raw::CLIENT] {
        &self.record
    }
}

/// Its numbers, not its bytes.
impl fmt::Debug for Client {
    fn fmt(&self, f: &mut fmt::Formatter<'_>) -> fmt::Result {
        f.debug_struct("Client")
            .field("id", &self.id())
            .field("view", &self.view())
            .field("next_number", &self.next_number())
            .field("pending", &self.pending())
            .finish_non_exhaustive()
    }
}

/// Number and addressee, not the frame's bytes.
impl fmt::Debug for Requested<'_> {
    fn fmt(&self, f: &mut fmt::Formatter<'_>) -> fmt::Result {
        f.debug_struct("Requested")
            .field("number", &self.number)
            .field("to", &self.to)
            .finish_non_exhaustive()
    }
}
