//! What is said of a frame below the table of its fields.

mod common;

use common::{bytes, good, REPLY};
use explain::rules::{allowed, judge, Verdict};
use explain::shapes::Reader;
use explain::show::Shown;
use explain::tell::{guessed, tell};
use std::collections::BTreeSet;

/// A frame, who reads it, and what has to be said.
struct Case {
    reader: Reader,
    frame: Vec<u8>,
    words: String,
}

/// The frames of `words.txt`.
fn cases() -> Vec<Case> {
    let text = include_str!("words.txt");
    let blocks = text.split("\n\n").filter(|block| block.contains("\n  "));
    blocks.map(case).collect()
}

fn case(block: &str) -> Case {
    let mut lines = block.lines().filter(|line| !line.starts_with('#'));
    let head = lines.next().expect("a frame");
    let (reader, frame) = head.split_once(' ').unwrap_or((head, ""));
    let words = lines.map(|line| line.strip_prefix("  ").expect("two blanks"));
    Case {
        reader: match reader {
            "replica" => Reader::Replica,
            "desk" => Reader::Desk,
            other => panic!("{other}"),
        },
        frame: bytes(frame),
        words: words.map(|line| format!("{line}\n")).collect(),
    }
}

/// What is said below the table.
fn said(reader: Reader, frame: &[u8]) -> String {
    let text = tell(&Shown::new(reader, frame, false));
    let (_, below) = text.rsplit_once("\n\n").expect("a table");
    String::from(below)
}

#[test]
fn each_frame_gets_its_words() {
    for Case {
        reader,
        frame,
        words,
    } in cases()
    {
        assert_eq!(said(reader, &frame), words, "{frame:02X?}");
    }
}

/// The fields that can be wrong are wrong in one of the frames each; the others take any byte.
#[test]
fn each_rule_has_a_frame() {
    let mut wrong = BTreeSet::new();
    for Case { reader, frame, .. } in cases() {
        if let Verdict::Wrong(place) = judge(reader, &frame) {
            let field = allowed(reader, &frame[..place]).field;
            wrong.insert(field.map_or("too many", |field| field.name.words()));
        }
    }
    let expected = [
        "addressee",
        "cents",
        "end",
        "kind",
        "length",
        "mark",
        "op number o",
        "operation",
        "outcome",
        "start",
        "three zero bytes",
        "too many",
        "version",
    ];
    assert_eq!(wrong, BTreeSet::from(expected));
}

#[test]
fn the_first_line_says_how_many_bytes_there_are() {
    for (frame, line) in [
        ("", "0 bytes."),
        ("00", "1 byte."),
        ("0000000B", "4 bytes; with length 11 a frame has 15."),
        (
            "FFFFFFFF",
            "4 bytes; with length 4,294,967,295 a frame has 4,294,967,299.",
        ),
        ("00000008 010701 00000004 02", "12 bytes."),
    ] {
        let text = tell(&Shown::new(Reader::Replica, &bytes(frame), false));
        assert_eq!(text.lines().next(), Some(line));
    }
}

#[test]
fn a_good_frame_is_named() {
    for frame in good() {
        let said = said(Reader::Replica, &frame);
        let begins = format!("Well formed: {} ", frame[5]);
        assert!(said.starts_with(&begins), "{said}");
    }
}

#[test]
fn only_what_can_be_a_reply_is_taken_for_one() {
    assert_eq!(guessed(&bytes(REPLY)), Reader::Desk);
    assert_eq!(guessed(&bytes("00000020 010C")), Reader::Desk);
    for text in [
        "",
        "00000020",
        "00000020 0104",
        "0000000B 010C",
        "00000020 020C",
    ] {
        assert_eq!(guessed(&bytes(text)), Reader::Replica, "{text}");
    }
    assert!(good().iter().all(|frame| guessed(frame) == Reader::Replica));
}
