//! Frames for the tests.

// Each test program takes a part of this.
#![allow(dead_code)]

/// The bytes of a text in hex.
pub fn bytes(text: &str) -> Vec<u8> {
    explain::input::bytes(text.as_bytes(), false).expect("hex")
}

/// An entry of client 7: its request's number, operation and cents, of member 3.
pub fn entry(request: u64, operation: u8, cents: u64) -> Vec<u8> {
    let mut entry = 7u64.to_be_bytes().to_vec();
    entry.extend(request.to_be_bytes());
    entry.extend([operation, 0, 0, 0]);
    entry.extend(3u32.to_be_bytes());
    entry.extend(cents.to_be_bytes());
    entry
}

/// A frame: its length, version 1, kind and addressee before these fields.
pub fn frame(kind: u8, addressee: u8, fields: &[u8]) -> Vec<u8> {
    let mut frame = (fields.len() as u32 + 3).to_be_bytes().to_vec();
    frame.extend([1, kind, addressee]);
    frame.extend(fields);
    frame
}

/// Fields of four bytes each.
pub fn fours(numbers: &[u32]) -> Vec<u8> {
    numbers.iter().flat_map(|n| n.to_be_bytes()).collect()
}

/// A StartView of view 1 with so many entries, all of them committed.
pub fn start_view(entries: u32) -> Vec<u8> {
    let mut fields = fours(&[1, entries, entries]);
    for number in 0..entries {
        fields.extend(entry(u64::from(number), 1, 4_500));
    }
    frame(9, 1, &fields)
}

/// A well-formed frame of every kind, of the kinds with a log also one without and one with two
/// entries, and of RecoveryResponse one with the mark 0.
pub fn good() -> Vec<Vec<u8>> {
    let one = entry(0, 1, 4_500);
    let two = [one.clone(), entry(1, 3, 0)].concat();
    let with = |kind: u8, fields: &[u8], log: &[u8]| frame(kind, 1, &[fields, log].concat());
    let numbers = |o: u32| fours(&[1, o, 0]);
    let change = |o: u32| [fours(&[1]), vec![2], fours(&[0, o, 0])].concat();
    let answer = |mark: u8| [fours(&[1]), vec![9; 8], vec![2, mark]].concat();
    let state = |o: u32| [answer(1), fours(&[o, 0])].concat();
    vec![
        with(1, &[], &one),
        with(2, &numbers(5), &one),
        with(3, &[fours(&[1, 5]), vec![2]].concat(), &[]),
        with(4, &fours(&[1, 5]), &[]),
        with(5, &[vec![2], fours(&[1, 5])].concat(), &[]),
        with(6, &fours(&[1, 5, 5, 4]), &[]),
        with(6, &fours(&[1, 5, 7, 4]), &two),
        with(7, &[fours(&[1]), vec![2]].concat(), &[]),
        with(8, &change(0), &[]),
        with(8, &change(2), &two),
        with(9, &numbers(0), &[]),
        with(9, &numbers(2), &two),
        with(10, &[vec![2], vec![9; 8], fours(&[1])].concat(), &[]),
        with(11, &answer(0), &[]),
        with(11, &state(0), &[]),
        with(11, &state(2), &two),
    ]
}

/// The Reply of document 01's first example.
pub const REPLY: &str =
    "00000020 010C00 00000000 0000000000000007 0000000000000000 01 0000000000001194";
