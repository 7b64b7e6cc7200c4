//! A frame, explained: its fields, and where it is malformed (refusal 2) the first wrong byte and
//! what could stand there.
//!
//! Written from the rules alone (`docs/RULES.md`, "Frames"), with no look at the library: the
//! offset is the place of the first byte such that no well-formed frame begins with the bytes up to
//! and including it, or the number of bytes where only bytes are missing. [`rules::allowed`] says
//! which bytes can stand behind good ones; the offset and the words both come from it.

#![deny(missing_docs)]
#![forbid(unsafe_code)]

pub mod input;
pub mod options;
pub mod rules;
pub mod shapes;
pub mod show;
pub mod tell;
pub mod words;
