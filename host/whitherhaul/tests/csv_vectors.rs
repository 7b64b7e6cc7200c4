//! The recorded calls of `../shared/vectors/orders/order05-csv.txt`, whose form is described in
//! `FORMAT.md` beside it. The tests' own reading of the rules has to answer them too.

mod common;

use common::lent::{self, Imported};
use common::table;
use common::vectors::{self, entries, shortened, shown, shown_as};

/// The calls of the vectors: of export, and of import. Fewer mean that some were lost.
const CALLS: [usize; 2] = [109, 366];

/// The longest area that is lent, which is longer than any table and any run of entries here. Some
/// calls have a room of 2^30 bytes.
const LONGEST: usize = 300_000;

/// `host/check` leaves this one out, and says so, where the vectors aren't there.
#[test]
fn shared_csv_calls_answer_the_same() {
    let mut calls = [0; 2];
    for (call, answer) in vectors::calls(&vectors::text("order05-csv.txt")) {
        let (kind, given) = answered(call);
        assert_eq!(given, answer, "{}", shortened(call));
        calls[kind] += 1;
    }
    assert!(calls[0] >= CALLS[0] && calls[1] >= CALLS[1], "{calls:?}");
}

/// Which of the two kinds a call is, and what the library answers to it.
fn answered(call: &str) -> (usize, String) {
    let words: Vec<&str> = call.split(' ').collect();
    let [kind, room, given] = words[..] else {
        panic!("no call: {}", shortened(call));
    };
    let room = room.parse::<usize>().expect("room").min(LONGEST);
    match kind {
        "X" => (0, exporting(room, &entries(given))),
        "I" => (1, importing(room, &bytes(given))),
        _ => panic!("no call: {}", shortened(call)),
    }
}

fn exporting(room: usize, run: &[u8]) -> String {
    let given = lent::export(run, room);
    assert_eq!(given, table::exported(run, room));
    format!("= {} {}", given.0, shown_as(&given.1, text))
}

fn importing(room: usize, file: &[u8]) -> String {
    let given = lent::import(file, room);
    let due = match table::import(file) {
        Err(bad) => Imported::refused(13, bad),
        Ok(run) if room < run.len() => Imported::refused(9, [0; 4]),
        Ok(run) => Imported::done(run),
    };
    assert_eq!(given, due, "{}", text(file));
    let [row, ..] = given.bad;
    format!("= {} {row} {}", given.number, shown(&given.entries))
}

/// A text as the vectors have it, which isn't empty.
fn text(bytes: &[u8]) -> String {
    let shown = |byte: &u8| match byte {
        b'%' => String::from("%25"),
        0x21..=0x7e => char::from(*byte).to_string(),
        _ => format!("%{byte:02X}"),
    };
    match bytes {
        b"-" => String::from("%2D"),
        _ => bytes.iter().map(shown).collect(),
    }
}

/// The bytes of such a text, `-` where there are none.
fn bytes(text: &str) -> Vec<u8> {
    if text == "-" {
        return Vec::new();
    }
    let mut parts = text.split('%');
    let mut bytes = parts.next().expect("a first part").as_bytes().to_vec();
    for part in parts {
        let (code, plain) = part.split_at(2);
        bytes.extend(u8::from_str_radix(code, 16));
        bytes.extend(plain.as_bytes());
    }
    bytes
}
