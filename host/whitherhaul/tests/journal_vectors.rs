//! The recorded calls of `../shared/vectors/orders/order03-journal.txt`, whose form is described in
//! `FORMAT.md` beside it.

mod common;

use common::lent::{self, Read};
use common::model;
use common::vectors::{self, entries, hex, shortened, shown};

/// The calls of the vectors: of writing, and of reading. Fewer mean that some were lost.
const CALLS: [usize; 2] = [125, 274];

/// The longest area that is lent, which is longer than any journal and any run of entries. Some
/// calls have a room of 2^30 bytes.
const LONGEST: usize = 300_000;

/// `host/check` leaves this one out, and says so, where the vectors aren't there.
#[test]
fn shared_journal_calls_answer_the_same() {
    let mut calls = [0; 2];
    for (call, answer) in vectors::calls(&vectors::text("order03-journal.txt")) {
        let (kind, given) = answered(call);
        assert_eq!(given, answer, "{}", shortened(call));
        calls[kind] += 1;
    }
    assert!(calls[0] >= CALLS[0] && calls[1] >= CALLS[1], "{calls:?}");
}

/// Which of the two kinds a call is, and what the library answers to it.
fn answered(call: &str) -> (usize, String) {
    let words: Vec<&str> = call.split(' ').collect();
    let [kind, members, room, given] = words[..] else {
        panic!("no call: {}", shortened(call));
    };
    let members: u32 = members.parse().expect("M");
    let room = room.parse::<usize>().expect("room").min(LONGEST);
    match kind {
        "W" => (0, writing(members, room, given)),
        "R" => (1, reading(members, room, given)),
        _ => panic!("no call: {}", shortened(call)),
    }
}

fn writing(members: u32, room: usize, list: &str) -> String {
    let (number, bytes) = lent::write(members, &entries(list), room);
    format!("= {number} {}", shown(&bytes))
}

fn reading(members: u32, room: usize, file: &str) -> String {
    let Read {
        number,
        offset,
        fault,
        entries,
        totals,
    } = lent::read(members, &self::file(file), room);
    assert_eq!(fault != 0, number == 12, "a fault goes with 12 alone");
    let totals = totals.chunks(8).map(model::number).enumerate();
    let above_0 = totals.filter(|(_, total)| *total > 0);
    let totals: Vec<String> = above_0.map(|(m, total)| format!("{m}:{total}")).collect();
    let totals = if totals.is_empty() {
        String::from("-")
    } else {
        totals.join(",")
    };
    format!("= {number} {offset} {} {totals}", shown(&entries))
}

/// The bytes of a file.
fn file(given: &str) -> Vec<u8> {
    let (parts, over) = match given.split_once('@') {
        Some((parts, over)) => (parts, Some(over)),
        None => (given, None),
    };
    let mut file: Vec<u8> = parts.split('+').flat_map(part).collect();
    if let Some((place, bytes)) = over.map(|over| over.split_once('=').expect("place=hex")) {
        let (place, bytes) = (place.parse::<usize>().expect("a place"), hex(bytes));
        file[place..place + bytes.len()].copy_from_slice(&bytes);
    }
    file
}

/// A part of a file: hexadecimal, or the journal of a list.
fn part(part: &str) -> Vec<u8> {
    let Some(journal) = part.strip_prefix('J') else {
        return hex(part);
    };
    let (members, list) = journal.split_once(':').expect("M:list");
    model::write(members.parse().expect("M"), &entries(list))
}
