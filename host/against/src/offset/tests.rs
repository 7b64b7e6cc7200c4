//! The offset against order 1's own list, and against its sentence.

use super::*;
use crate::counts::Counts;
use crate::damage::damaged;
use crate::parse::parse;
use crate::replay::bytes_of;
use crate::sweep;
use schedules::adversary::Adversary;
use schedules::rust::{Call, Rust, Setup, Start};
use wire::fees::{Entry, FEE, MOST_CENTS};
use wire::frames::{entry_bytes, frame};
use wire::random::Random;

/// Order 1's list: `O frame offset`, or `ok` in place of the offset, and a column of a later order.
const LIST: &str = "../../../shared/vectors/orders/order01-offsets.txt";
/// So many lines it has at least.
const LINES: usize = 597;

#[test]
fn is_that_of_the_list() {
    let file = std::path::Path::new(env!("CARGO_MANIFEST_DIR")).join(LIST);
    let text = std::fs::read_to_string(file).expect("order 1's list");
    let mut lines = 0;
    for line in text.lines().filter(|line| line.starts_with("O ")) {
        let words: Vec<&str> = line.split(' ').collect();
        let bytes = bytes_of(words[1]).expect("hex");
        let given = match parse(&bytes) {
            Some(_) => String::from("ok"),
            None => of_frame(&bytes).to_string(),
        };
        assert_eq!(given, words[2], "{line}");
        let library = sweep::given(bytes, &mut Counts::default());
        assert!(library.is_ok(), "the library on {line}");
        lines += 1;
    }
    assert!(lines >= LINES, "{lines} lines");
}

/// Well-formed frames: those of the sweep, and any of an adversary.
fn good() -> Vec<Vec<u8>> {
    let setup = Setup {
        n: 3,
        id: 1,
        timeout: 3,
        room: 8,
        members: 4,
    };
    let mut random = Random::new(5);
    let mut rust = Rust::new(setup, Start::New).0;
    let mut frames = sweep::frames();
    for _ in 0..3000 {
        let mut adversary = Adversary {
            random: &mut random,
            rust: &rust,
            clients: &[0, 7, u64::MAX],
        };
        let call = adversary.call();
        if let Call::Frame { addressee, message } = &call {
            frames.push(frame(*addressee, message));
        }
        rust.attempt(&call);
    }
    frames
}

/// Where this holds, what is put behind a front is enough: a front that doesn't go on so doesn't go on at all.
#[test]
fn every_front_of_a_frame_starts_one() {
    for frame in good() {
        assert!(parse(&frame).is_some());
        for end in 0..=frame.len() {
            assert!(starts_frame(&frame[..end]), "{end} of {frame:02x?}");
        }
    }
    for reply in sweep::replies() {
        for end in 0..=reply.len() {
            assert!(starts_reply(&reply[..end]), "{end} of {reply:02x?}");
        }
    }
}

/// Every number of cents up to 1,048,576, a Fee's: the place where it can no longer be 1 to 1,000,000.
#[test]
fn cents_go_on_as_they_may() {
    let cents_at = 7 + ENTRY - 8;
    let request = |cents| {
        let entry = Entry {
            operation: FEE,
            cents,
            ..Entry::default()
        };
        [&[0, 0, 0, 35, 1, 1, 0], &entry_bytes(&entry)[..]].concat()
    };
    for cents in 0..=0x10_0000_u64 {
        let bytes = request(cents);
        let well = (1..=MOST_CENTS).contains(&cents);
        assert_eq!(parse(&bytes).is_some(), well);
        let due = match cents {
            0 => 7,
            1..=MOST_CENTS => 8,
            0x10_0000.. => 5,
            0xf_4300.. => 6,
            _ => 7,
        };
        assert_eq!(of_frame(&bytes), cents_at + due, "{cents}");
    }
}

#[test]
fn entries_that_are_counted_are_as_good_as_written_ones() {
    let ask = entry_bytes(&Entry {
        operation: ASK,
        ..Entry::default()
    });
    for frame in sweep::frames() {
        for end in 0..frame.len() {
            let mut whole = Whole::of_kind(&frame[..end], frame[5]);
            let well = whole.is_well_formed();
            for _ in 0..whole.more {
                whole.bytes.extend(ask);
            }
            assert_eq!(parse(&whole.bytes).is_some(), well);
        }
    }
}

#[test]
fn halving_finds_the_first_wrong_byte() {
    let mut random = Random::new(6);
    let mut malformed = 0;
    for frame in good() {
        let bytes = damaged(&mut random, frame);
        if parse(&bytes).is_some() {
            continue;
        }
        let first = (0..bytes.len()).find(|place| !starts_frame(&bytes[..=*place]));
        assert_eq!(of_frame(&bytes), first.unwrap_or(bytes.len()));
        malformed += 1;
    }
    assert!(malformed > 1000, "{malformed}");
}
