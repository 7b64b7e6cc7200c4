//! What is timed: Whitherhaul; vsr-rs as it is, structs handed over; and vsr-rs with the same frames written and read around it.

use std::marker::PhantomData;
use vsr_rs::Message;
use whitherhaul::{addressee, raw, Frames, Refusal, Setup};
use wire::fees::{Charge, Outcome, Totals};
use wire::frames::{read, write_frame, write_reply};

/// How all replicas are made: with the most room and the most members that there are.
pub const ROOM: u32 = 4_096;
pub const MEMBERS: u32 = 4_096;

/// The setup of a replica, one of so many.
pub fn setup(replicas: u8, id: u8) -> Setup {
    Setup {
        replicas: replicas.into(),
        id: id.into(),
        timeout: 3,
        room: ROOM,
        members: MEMBERS,
    }
}

/// What shows whether two sides did the same: view, op number, commit number, the sum of all totals.
pub type Standing = (u64, u64, u64, u64);

/// One of the three that are timed. A wire holds what is under way, messages and replies.
pub trait Side {
    type Replica;
    type Wire: Default;

    /// A new replica.
    fn new(setup: &Setup) -> Self::Replica;
    /// The same replica, started anew in the memory that it has.
    fn renew(replica: &mut Self::Replica, setup: &Setup);
    /// The same, back from a crash in view 0; what it asks goes to the wire.
    fn recover(replica: &mut Self::Replica, setup: &Setup, nonce: u64, wire: &mut Self::Wire);
    /// These frames, as this side's messages.
    fn load(wire: &mut Self::Wire, frames: &[u8]);
    /// Delivers all that is on the wire; what comes of it is on `next`, which is cleared first.
    fn pass(replicas: &mut [Self::Replica], wire: &mut Self::Wire, next: &mut Self::Wire);
    /// Delivers a frame that has to be refused; none on a side that knows no refusals, which leaves it.
    fn refused(replicas: &mut [Self::Replica], frame: &[u8]) -> Option<Refusal>;
    /// A tick of a replica; what it sends is on `next`, which is cleared first.
    fn tick(replica: &mut Self::Replica, next: &mut Self::Wire);
    /// All members' totals together.
    fn takings(replica: &Self::Replica) -> u64;
    /// How many messages and replies are on the wire.
    fn count(wire: &Self::Wire) -> (usize, usize);
    fn standing(replica: &Self::Replica) -> Standing;
}

/// Messages and replies as bytes, frame behind frame.
#[derive(Default)]
pub struct Bytes {
    messages: Vec<u8>,
    replies: Vec<u8>,
}

/// Whitherhaul.
pub struct Ours;

impl Side for Ours {
    type Replica = whitherhaul::Replica;
    type Wire = Bytes;

    fn new(setup: &Setup) -> Self::Replica {
        whitherhaul::Replica::new(setup).expect("a setup inside the sizes")
    }

    fn renew(replica: &mut Self::Replica, setup: &Setup) {
        assert_eq!(raw::create(setup, replica.parts_mut()), 0);
    }

    fn recover(replica: &mut Self::Replica, setup: &Setup, nonce: u64, wire: &mut Bytes) {
        wire.clear();
        let length = 20 * (setup.replicas as usize - 1);
        wire.messages.resize(length, 0);
        let memory = replica.parts_mut();
        let (number, written) = raw::recover(setup, 0, nonce, memory, &mut wire.messages);
        assert_eq!((number, written), (0, length));
    }

    fn load(wire: &mut Bytes, frames: &[u8]) {
        wire.clear();
        wire.load(frames);
    }

    fn pass(replicas: &mut [Self::Replica], wire: &mut Bytes, next: &mut Bytes) {
        next.clear();
        for frame in Frames::new(&wire.messages) {
            let to = usize::from(addressee(frame).expect("a whole frame"));
            let sent = replicas[to].on_message(frame).expect("a good frame");
            next.messages.extend_from_slice(sent.message_bytes());
            next.replies.extend_from_slice(sent.reply_bytes());
        }
    }

    fn refused(replicas: &mut [Self::Replica], frame: &[u8]) -> Option<Refusal> {
        let to = usize::from(addressee(frame).expect("a whole frame"));
        let taken = replicas[to].on_message(frame);
        Some(taken.expect_err("a frame that is refused"))
    }

    fn tick(replica: &mut Self::Replica, next: &mut Bytes) {
        next.clear();
        let sent = replica.on_idle().expect("a tick that isn't refused");
        next.messages.extend_from_slice(sent.message_bytes());
        next.replies.extend_from_slice(sent.reply_bytes());
    }

    fn takings(replica: &Self::Replica) -> u64 {
        replica.takings().expect("a state that calls produced")
    }

    fn count(wire: &Bytes) -> (usize, usize) {
        wire.count()
    }

    fn standing(replica: &Self::Replica) -> Standing {
        (
            u64::from(replica.view()),
            u64::from(replica.op_number()),
            u64::from(replica.commit_number()),
            (0..MEMBERS).map(|member| replica.total(member)).sum(),
        )
    }
}

type Vsr = vsr_rs::Replica<Totals>;

/// What is under way between replicas of vsr-rs.
pub trait Parcels: Default {
    fn clear(&mut self);
    /// Adds these frames.
    fn load(&mut self, frames: &[u8]);
    /// Adds what the replica wants sent.
    fn drain(&mut self, replica: &mut Vsr);
    /// Delivers all messages; what comes of it is added to `next`.
    fn pass(&mut self, replicas: &mut [Vsr], next: &mut Self);
    fn count(&self) -> (usize, usize);
}

/// vsr-rs, with its messages in this form.
pub struct Theirs<P>(PhantomData<P>);

/// vsr-rs as it is.
pub type AsItIs = Theirs<Structs>;

/// vsr-rs with frames around it.
pub type Framed = Theirs<Bytes>;

impl<P: Parcels> Side for Theirs<P> {
    type Replica = Vsr;
    type Wire = P;

    fn new(setup: &Setup) -> Vsr {
        let totals = Totals::new(setup.members as usize);
        let config = wire::config(setup.replicas as usize);
        Vsr::new(setup.id as usize, config, totals)
    }

    fn renew(replica: &mut Vsr, setup: &Setup) {
        *replica = Self::new(setup);
    }

    fn recover(replica: &mut Vsr, setup: &Setup, nonce: u64, wire: &mut P) {
        let totals = Totals::new(setup.members as usize);
        let config = wire::config(setup.replicas as usize);
        *replica = Vsr::recover(setup.id as usize, config, totals, 0, nonce);
        wire.clear();
        wire.drain(replica);
    }

    fn load(wire: &mut P, frames: &[u8]) {
        wire.clear();
        wire.load(frames);
    }

    fn pass(replicas: &mut [Vsr], wire: &mut P, next: &mut P) {
        next.clear();
        wire.pass(replicas, next);
    }

    fn refused(_: &mut [Vsr], _: &[u8]) -> Option<Refusal> {
        None
    }

    fn tick(replica: &mut Vsr, next: &mut P) {
        next.clear();
        replica.on_idle();
        next.drain(replica);
    }

    fn takings(replica: &Vsr) -> u64 {
        replica.state_machine().0.iter().sum()
    }

    fn count(wire: &P) -> (usize, usize) {
        wire.count()
    }

    fn standing(replica: &Vsr) -> Standing {
        (
            replica.view_number() as u64,
            replica.op_number() as u64,
            replica.commit_number() as u64,
            replica.state_machine().0.iter().sum(),
        )
    }
}

/// Messages and replies as structs.
#[derive(Default)]
pub struct Structs {
    messages: Vec<(usize, Message<Charge>)>,
    replies: Vec<vsr_rs::Reply<Outcome>>,
}

impl Parcels for Structs {
    fn clear(&mut self) {
        self.messages.clear();
        self.replies.clear();
    }

    fn load(&mut self, frames: &[u8]) {
        self.messages.extend(Frames::new(frames).map(|frame| {
            let to = addressee(frame).expect("a whole frame");
            (usize::from(to), read(frame).expect("a good frame"))
        }));
    }

    fn drain(&mut self, replica: &mut Vsr) {
        self.messages.extend(replica.drain_messages());
        self.replies.extend(replica.drain_replies());
    }

    fn pass(&mut self, replicas: &mut [Vsr], next: &mut Structs) {
        for (to, message) in self.messages.drain(..) {
            replicas[to].on_message(message);
            next.drain(&mut replicas[to]);
        }
    }

    fn count(&self) -> (usize, usize) {
        (self.messages.len(), self.replies.len())
    }
}

impl Parcels for Bytes {
    fn clear(&mut self) {
        self.messages.clear();
        self.replies.clear();
    }

    fn load(&mut self, frames: &[u8]) {
        self.messages.extend_from_slice(frames);
    }

    fn drain(&mut self, replica: &mut Vsr) {
        for (to, message) in replica.drain_messages() {
            write_frame(&mut self.messages, to, &message);
        }
        for reply in replica.drain_replies() {
            write_reply(&mut self.replies, &reply);
        }
    }

    fn pass(&mut self, replicas: &mut [Vsr], next: &mut Bytes) {
        for frame in Frames::new(&self.messages) {
            let to = usize::from(addressee(frame).expect("a whole frame"));
            let message = read(frame).expect("a good frame");
            replicas[to].on_message(message);
            next.drain(&mut replicas[to]);
        }
    }

    fn count(&self) -> (usize, usize) {
        let count = |bytes| Frames::new(bytes).count();
        (count(&self.messages), count(&self.replies))
    }
}
