//! Which byte of a malformed frame is wrong: frames by the recorded offsets, Replies by a definition
//! of their own.

use std::fs;
use std::path::Path;
use whitherhaul::raw::{self, Memory};
use whitherhaul::{Refusal, Replica, Reply, Setup, DEFAULT_TIMEOUT};

/// How many frames the recorded offsets have, so that none is left out unnoticed.
const RECORDED: usize = 597;

/// The lines `O frame a b` of `shared/vectors/orders/order01-offsets.txt`, each as its frame and its
/// word a: `ok`, or the offset. None where there is no folder `shared` beside the repository.
fn recorded() -> Option<Vec<(Vec<u8>, String)>> {
    let shared = Path::new(env!("CARGO_MANIFEST_DIR")).join("../../../shared");
    if !shared.exists() {
        return None;
    }
    let file = shared.join("vectors/orders/order01-offsets.txt");
    let text = fs::read_to_string(&file).expect("the recorded offsets");
    let lines = text.lines();
    let said = lines.filter(|line| !line.is_empty() && !line.starts_with('#'));
    Some(said.map(line).collect())
}

fn line(line: &str) -> (Vec<u8>, String) {
    let words: Vec<&str> = line.split(' ').collect();
    let ["O", frame, a, _] = words[..] else {
        panic!("no line of offsets: {line}");
    };
    (bytes(frame), String::from(a))
}

/// The bytes of a run in hexadecimal, `-` where it is empty.
fn bytes(run: &str) -> Vec<u8> {
    if run == "-" {
        return Vec::new();
    }
    let pairs = (0..run.len()).step_by(2).map(|at| &run[at..at + 2]);
    let byte = |pair| u8::from_str_radix(pair, 16).expect("two digits");
    pairs.map(byte).collect()
}

/// Replicas of different setups, for one of which most frames are, and in different statuses.
fn replicas() -> Vec<Replica> {
    let of = |replicas, id, room| Setup {
        replicas,
        id,
        timeout: DEFAULT_TIMEOUT,
        room,
        members: 8,
    };
    vec![
        Replica::new(&of(3, 0, 8)).unwrap(),
        Replica::new(&of(7, 6, 1)).unwrap(),
        Replica::recover(&of(3, 1, 8), 4, 9).unwrap(),
    ]
}

/// What the call gives for a frame, with areas in which everything fits: number and offset.
fn given(replica: &Replica, frame: &[u8]) -> (u8, usize) {
    let mut memory: Memory = replica.parts().clone();
    let mut out = vec![0; replica.setup().longest_messages()];
    let mut reps = vec![0; replica.setup().longest_replies()];
    let (number, _, offset) = raw::on_message(&mut memory, frame, &mut out, &mut reps);
    (number, offset)
}

#[test]
fn recorded_offsets() {
    let Some(recorded) = recorded() else {
        eprintln!("left out: there is no folder shared beside the repository");
        return;
    };
    assert!(recorded.len() >= RECORDED, "{} frames", recorded.len());
    for replica in replicas() {
        for (frame, due) in &recorded {
            let (number, offset) = given(&replica, frame);
            let length = frame.len();
            let safe = replica.clone().on_message(frame).map(|_| ()).err();
            if due == "ok" {
                assert!(
                    number != 2 && offset == 0,
                    "{number}, {offset}: {frame:02x?}"
                );
                assert_eq!(safe.map_or(0, Refusal::number), number, "{frame:02x?}");
                continue;
            }
            let due: usize = due.parse().expect("an offset");
            assert_eq!((number, offset), (2, due), "{frame:02x?}");
            let refusal = Refusal::Malformed { offset, length };
            assert_eq!(safe, Some(refusal), "{frame:02x?}");
            let lent = replica.clone().on_message_into(frame, &mut [], &mut []);
            assert_eq!(lent, Err(refusal), "{frame:02x?}");
        }
    }
}

/// A well-formed Reply: view 1, client 7, request 2, Fee, 4,500.
const GOOD: [u8; 36] = [
    0, 0, 0, 32, 1, 12, 0, 0, 0, 0, 1, 0, 0, 0, 0, 0, 0, 0, 7, 0, 0, 0, 0, 0, 0, 0, 2, 1, 0, 0, 0,
    0, 0, 0, 0x11, 0x94,
];

/// Document 01's Reply: length 32, version 1, kind 12, addressee 0; view (4), client (8) and request
/// (8); outcome 1 to 6; total (8).
fn well_formed(frame: &[u8]) -> bool {
    frame.len() == 36 && frame[..7] == [0, 0, 0, 32, 1, 12, 0] && (1..=6).contains(&frame[27])
}

/// Whether a well-formed Reply begins with these bytes. What a byte may be depends on no other one,
/// so where any continuation is a Reply, that of the good one is.
fn begins(front: &[u8]) -> bool {
    let rest = GOOD.get(front.len()..);
    rest.is_some_and(|rest| well_formed(&[front, rest].concat()))
}

/// The first byte with which no well-formed Reply begins, or the length where only bytes are missing.
fn offset_of(frame: &[u8]) -> usize {
    let wrong = (0..frame.len()).find(|last| !begins(&frame[..=*last]));
    wrong.unwrap_or(frame.len())
}

/// Reads these bytes as a Reply; whether it is one.
fn read(frame: &[u8]) -> bool {
    let (number, said, offset) = raw::read_reply(frame);
    let safe = Reply::read(frame);
    if well_formed(frame) {
        assert_eq!((number, offset), (0, 0), "{frame:02x?}");
        assert_eq!(safe.map(|reply| reply.total), Ok(said[4]), "{frame:02x?}");
        return true;
    }
    let due = offset_of(frame);
    assert_eq!((number, said, offset), (2, [0; 5], due), "{frame:02x?}");
    let length = frame.len();
    let refusal = Refusal::Malformed { offset, length };
    assert_eq!(safe, Err(refusal), "{frame:02x?}");
    false
}

#[test]
fn replies_cut_short_or_too_long() {
    for length in 0..GOOD.len() {
        assert_eq!(offset_of(&GOOD[..length]), length);
        assert!(!read(&GOOD[..length]));
    }
    assert!(read(&GOOD));
    for more in 1..40 {
        let longer = [&GOOD[..], &vec![0; more]].concat();
        assert_eq!(offset_of(&longer), GOOD.len());
        assert!(!read(&longer));
    }
}

/// Each byte of a Reply with each value, whole and cut at each place behind it.
#[test]
fn replies_with_another_byte() {
    let mut well = 0;
    for place in 0..GOOD.len() {
        for byte in 0..=255 {
            let mut frame = GOOD;
            frame[place] = byte;
            for length in place + 1..GOOD.len() {
                assert!(!read(&frame[..length]));
            }
            well += usize::from(read(&frame));
        }
    }
    // 20 bytes of view, client and request and 8 of the total are free, the outcome is one of six, and
    // the seven bytes in front have one value each.
    assert_eq!(well, 28 * 256 + 6 + 7);
}

/// Of two wrong bytes the first is named.
#[test]
fn replies_with_two_other_bytes() {
    for first in 0..GOOD.len() {
        for second in first + 1..GOOD.len() {
            for byte in [0x00, 0x07, 0x80, 0xff] {
                let mut frame = GOOD;
                (frame[first], frame[second]) = (byte, byte);
                read(&frame);
            }
        }
    }
}
