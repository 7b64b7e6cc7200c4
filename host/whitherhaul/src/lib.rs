//! A replicated ledger of club fees, for its owner: the safe side of a library whose every function
//! is proved to do what its contract says. Three to seven replicas agree on each charge
//! (Viewstamped Replication), and a charge that is sent again isn't taken again.
//!
//! The library does no input or output, keeps no clock and starts no thread. The owner hands a
//! [`Replica`] the frames that arrive and tells it when time has passed, and delivers what it
//! sends; a [`Client`] likewise. A call that can't be done is refused by a [`Refusal`] and changes
//! nothing.
//!
//! # A charge
//!
//! Three replicas and a desk that charges 45.00 to member 3. The network here is a list of frames:
//!
//! ```
//! # #[cfg(feature = "replica")]
//! # fn main() -> Result<(), whitherhaul::Refusal> {
//! use whitherhaul::{Client, Frames, Operation, Outcome, Replica, Setup};
//!
//! let replica = |id| {
//!     let timeout = whitherhaul::DEFAULT_TIMEOUT;
//!     Replica::new(&Setup { replicas: 3, id, timeout, room: 8, members: 8 })
//! };
//! let mut replicas = [replica(0)?, replica(1)?, replica(2)?];
//! let mut desk = Client::new(3, 7)?;
//!
//! let charge = desk.on_request(Operation::Fee, 3, 4_500)?;
//! let mut network = vec![(charge.to, charge.frame.to_vec())];
//! let mut for_desks = Vec::new();
//! while let Some((to, frame)) = network.pop() {
//!     let sent = replicas[usize::from(to)].on_message(&frame)?;
//!     network.extend(sent.messages().map(|(to, frame)| (to, frame.to_vec())));
//!     for_desks.extend(Frames::new(sent.reply_bytes()).map(<[u8]>::to_vec));
//! }
//!
//! let answer = desk.on_reply_frame(&for_desks[0])?;
//! let reply = answer.expect("two of three hold the charge");
//! assert_eq!((reply.outcome, reply.total), (Outcome::Fee, 4_500));
//! assert_eq!(desk.pending(), None);
//! assert_eq!((replicas[0].total(3), replicas[0].takings()?), (4_500, 4_500));
//! # Ok(())
//! # }
//! # #[cfg(not(feature = "replica"))]
//! # fn main() {}
//! ```
//!
//! Where the desk is in the same process, [`Sent::replies`] hands it each [`Reply`] by value.
//! [`Replica::takings`] is the sum over all members, kept up to date, so that it may be asked for
//! as often as one likes.
//!
//! # A refusal
//!
//! A refused call says why, and leaves everything as it was. Of a frame that is malformed it says
//! which byte is wrong, counted from 0, so that its line in a log is enough to find it:
//!
//! ```
//! # #[cfg(feature = "replica")]
//! # {
//! use whitherhaul::{Refusal, Replica, Setup};
//!
//! let setup = Setup { replicas: 3, id: 0, timeout: 3, room: 8, members: 8 };
//! let mut replica = Replica::new(&setup).expect("inside the sizes");
//! let before = replica.parts().clone();
//! let commit = [0, 0, 0, 11, 1, 3, 0, 0, 0, 0, 0, 0, 0, 0, 0]; // a Commit's kind is 4
//! let refusal = replica.on_message(&commit).unwrap_err();
//! assert_eq!(refusal, Refusal::Malformed { offset: 5, length: 15 });
//! assert_eq!(refusal.to_string(), "refusal 2: malformed frame: byte 5 of 15 is wrong");
//! assert_eq!(*replica.parts(), before);
//!
//! let two = Setup { replicas: 2, ..setup };
//! assert_eq!(Replica::new(&two).unwrap_err().number(), 1);
//! # }
//! ```
//!
//! # A crash
//!
//! After a crash the owner has the view that it kept, and a nonce that was never used. What the
//! replica asks the others is there at once:
//!
//! ```
//! # #[cfg(feature = "replica")]
//! # {
//! use whitherhaul::{Replica, Setup, Status};
//!
//! let setup = Setup { replicas: 3, id: 1, timeout: 3, room: 8, members: 8 };
//! let replica = Replica::recover(&setup, 4, 99).expect("inside the sizes");
//! assert_eq!((replica.status(), replica.view()), (Status::Recovering, 4));
//!
//! let asked: Vec<u8> = replica.sent().messages().map(|(to, _)| to).collect();
//! assert_eq!(asked, [0, 2]);
//! # }
//! ```
//!
//! # A journal
//!
//! What is applied can be kept on disk, a frame of 50 bytes for each entry. After a call the owner
//! appends the frames behind those that he has. Whoever reads them back gets the entries and, by the
//! fee rules, the totals; a file that isn't what these rules give is refused at its first bad frame
//! ([`Fault`] says what is wrong with it). Here with a file in memory, and a charge that one other
//! replica holds too:
//!
//! ```
//! # #[cfg(feature = "replica")]
//! # fn main() -> Result<(), whitherhaul::Refusal> {
//! use whitherhaul::{Client, Journal, Operation, Replica, Setup};
//!
//! let setup = Setup { replicas: 3, id: 0, timeout: 3, room: 8, members: 8 };
//! let mut replica = Replica::new(&setup)?;
//! let mut desk = Client::new(3, 7)?;
//! replica.on_message(desk.on_request(Operation::Fee, 3, 4_500)?.frame)?;
//! replica.on_message(&[0, 0, 0, 12, 1, 3, 0, 0, 0, 0, 0, 0, 0, 0, 1, 1])?; // PrepareOk of 1
//!
//! let mut file = Vec::new();
//! file.extend(replica.journal_since(0)?);
//! file.extend(replica.journal_since(1)?); // nothing new
//! let journal = Journal::read(setup.members, &file)?;
//! assert_eq!(journal.entries(), [replica.entry(1)]);
//! assert_eq!((journal.total(3), journal.takings()), (4_500, 4_500));
//! # Ok(())
//! # }
//! # #[cfg(not(feature = "replica"))]
//! # fn main() {}
//! ```
//!
//! # A spreadsheet
//!
//! Entries go to a treasurer's spreadsheet and back as CSV ([`csv`]). A row that was imported can be
//! sent as a Request ([`Entry::request`]). Client and number are those of the row, so that a row
//! that is sent again isn't taken again:
//!
//! ```
//! # #[cfg(feature = "replica")]
//! # fn main() -> Result<(), whitherhaul::Refusal> {
//! use whitherhaul::{csv, Entry, Operation, Replica, Setup};
//!
//! let fee = Entry { client: 7, request: 0, operation: Operation::Fee, member: 3, cents: 4_500 };
//! let refund = Entry { request: 1, operation: Operation::Refund, cents: 500, ..fee };
//! let table = csv::export(&[fee, refund])?;
//! let rows = csv::import(&table)?;
//! assert_eq!(rows, [fee, refund]);
//!
//! let setup = Setup { replicas: 3, id: 0, timeout: 3, room: 8, members: 8 };
//! let mut primary = Replica::new(&setup)?;
//! for row in [rows[0], rows[1], rows[1]] {
//!     primary.on_message(&row.request(0))?;
//! }
//! assert_eq!(primary.op_number(), 2);
//! assert_eq!([primary.entry(1), primary.entry(2)], [fee, refund]);
//! # Ok(())
//! # }
//! # #[cfg(not(feature = "replica"))]
//! # fn main() {}
//! ```
//!
//! A table that isn't one is refused at its first bad row ([`Refusal::BadRow`]), which says which
//! field of it is bad and where in the file that begins.
//!
//! # What is linked
//!
//! The proved library is three archives, which `tools/native-archive whitherhaul`,
//! `tools/native-archive whitherhaul_journal` and `tools/native-archive whitherhaul_csv` write to
//! `target/staticlib/native` of the repository: `libwhitherhaul.a`, for journals
//! `libwhitherhaul_journal.a`, and for tables `libwhitherhaul_csv.a`. The build takes them from
//! there, or from the folder that the environment variable `WHITHERHAUL_ARCHIVE_DIR` names by an
//! absolute path. `cargo check` and `cargo doc` work without them, with a warning; a build fails.
//!
//! A program that has to do with journals and tables alone takes this crate with
//! `default-features = false`. Then [`Journal`], [`journal`], [`csv`] and their calls in [`raw`] are
//! there, and only the second and the third archive are linked. Everything else is of the feature
//! `replica`.
//!
//! # Where the rules are
//!
//! Wire bytes, fee rules, sizes and refusals are in `docs/RULES.md` of the repository, the layouts
//! of lent memory in `docs/PROMISES.md`. Other pages call the rules' source "document 01". For who
//! comes from vsr-rs, `docs/FROM-VSR-RS.md` says what is called what. Who keeps the memory himself
//! uses [`raw`].

#![deny(missing_docs)]
#![deny(missing_debug_implementations)]
#![deny(unsafe_code)]

#[cfg(feature = "replica")]
mod client;
pub mod csv;
mod entries;
mod fault;
#[cfg(feature = "replica")]
mod frames;
pub mod journal;
#[allow(unsafe_code)]
pub mod raw;
mod refusal;
#[cfg(feature = "replica")]
mod replica;
#[cfg(feature = "replica")]
mod reply;

#[cfg(feature = "replica")]
pub use client::{Client, Requested};
pub use entries::{Entry, Operation, Outcome};
pub use fault::Fault;
#[cfg(feature = "replica")]
pub use frames::{addressee, kind, Frames, Messages, Replies, Sent};
pub use journal::{Journal, JournalFrame};
#[cfg(feature = "replica")]
#[doc(inline)]
pub use raw::Counts;
pub use refusal::Refusal;
#[cfg(feature = "replica")]
pub use replica::{Replica, Setup, Status, DEFAULT_TIMEOUT};
#[cfg(feature = "replica")]
pub use reply::Reply;
