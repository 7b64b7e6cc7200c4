//! The offset: by the vectors beside the repository, and by the sentence that it is defined by.

mod common;

use common::{bytes, good, REPLY};
use explain::rules::{allowed, judge, Bytes, Verdict};
use explain::shapes::Reader;
use std::path::Path;
use wire::random::Random;

/// The lines of the vectors. Fewer mean that some were lost.
const LINES: usize = 597;

/// `host/check` leaves this one out, and says so, where the vectors aren't there.
#[test]
fn shared_offsets_are_the_same() {
    let path = Path::new(env!("CARGO_MANIFEST_DIR"))
        .join("../../../shared/vectors/orders/order01-offsets.txt");
    let text = std::fs::read_to_string(&path).unwrap_or_else(|fault| panic!("{path:?}: {fault}"));
    let mut tried = 0;
    for line in text.lines().filter(|line| line.starts_with("O ")) {
        let words: Vec<&str> = line.split(' ').collect();
        let [_, frame, expected, _] = words[..] else {
            panic!("{line}");
        };
        let frame = bytes(frame.trim_matches('-'));
        let offset = judge(Reader::Replica, &frame).offset();
        let offset = offset.map_or(String::from("ok"), |offset| offset.to_string());
        assert_eq!(offset, expected, "{line}");
        tried += 1;
    }
    assert!(tried >= LINES, "{tried} lines");
}

#[test]
fn every_beginning_of_a_good_frame_lacks_bytes_only() {
    let replies = [(Reader::Desk, bytes(REPLY))];
    let frames = good().into_iter().map(|frame| (Reader::Replica, frame));
    for (reader, frame) in frames.chain(replies) {
        for end in 0..frame.len() {
            assert_eq!(judge(reader, &frame[..end]), Verdict::Missing(end));
        }
        assert_eq!(judge(reader, &frame), Verdict::WellFormed, "{frame:?}");
        let longer = [&frame[..], &[0]].concat();
        assert_eq!(judge(reader, &longer), Verdict::Wrong(frame.len()));
    }
}

/// A frame is well formed: written from the table of frames with the whole frame at hand, and with
/// no look at the rules for single bytes.
fn is_well_formed(frame: &[u8]) -> bool {
    let [a, b, c, d, 1, kind, _, fields @ ..] = frame else {
        return false;
    };
    let four = |place: usize| {
        let number = fields.get(place..place + 4)?;
        Some(u32::from_be_bytes(number.try_into().ok()?) as usize)
    };
    let log = |place: usize, count: Option<usize>| {
        let entries = fields.get(place..).unwrap_or(&[]);
        let is_whole = count.is_some_and(|count| fields.len() == place + 32 * count);
        is_whole && entries.chunks(32).all(is_good_entry)
    };
    let length = u32::from_be_bytes([*a, *b, *c, *d]) as usize;
    length == frame.len() - 4
        && match kind {
            1 => log(0, Some(1)),
            2 => log(12, Some(1)),
            3 | 5 => fields.len() == 9,
            4 => fields.len() == 8,
            6 => log(16, four(8).zip(four(4)).and_then(|(e, s)| e.checked_sub(s))),
            7 => fields.len() == 5,
            8 => log(17, four(9)),
            9 => log(12, four(4)),
            10 => fields.len() == 13,
            11 => match fields.get(13) {
                Some(0) => fields.len() == 14,
                Some(1) => log(22, four(14)),
                _ => false,
            },
            _ => false,
        }
}

fn is_good_entry(entry: &[u8]) -> bool {
    let cents = u64::from_be_bytes(entry[24..].try_into().expect("32 bytes"));
    match entry[16..20] {
        [1 | 2, 0, 0, 0] => (1..=1_000_000).contains(&cents),
        [3, 0, 0, 0] => cents == 0,
        _ => false,
    }
}

/// One of the bytes of a set, now and then its least or its greatest.
fn pick(random: &mut Random, set: &Bytes) -> Option<u8> {
    let bytes: Vec<u8> = (0..=u8::MAX).filter(|&byte| set.takes(byte)).collect();
    match random.below(4) {
        0 => bytes.first().copied(),
        1 => bytes.last().copied(),
        _ => (!bytes.is_empty()).then(|| random.pick(&bytes)),
    }
}

/// What is allowed goes on to a well-formed frame. So no wrong byte is let pass: a byte that no
/// well-formed frame has there would lead to a frame that isn't one.
#[test]
fn what_is_allowed_goes_on_to_a_well_formed_frame() {
    let mut random = Random::new(1);
    for _ in 0..2_000 {
        // The lengths of up to 255 bytes, so that the frames stay short.
        let mut frame = vec![0, 0, 0];
        while let Some(byte) = pick(&mut random, &allowed(Reader::Replica, &frame).bytes) {
            frame.push(byte);
        }
        assert!(is_well_formed(&frame), "{frame:?}");
    }
}

/// A frame is malformed exactly where a byte is wrong or missing, also where a byte of it was
/// changed. So no good byte is called wrong.
#[test]
fn changed_frames_are_judged_as_the_table_says() {
    let mut random = Random::new(2);
    let mut counts = [0; 2];
    for frame in good() {
        for place in 0..frame.len() {
            let near = [1, 2, u8::MAX].map(|by| frame[place].wrapping_add(by));
            let any: [u8; 12] = std::array::from_fn(|_| random.number() as u8);
            for byte in [0, 1, 2, 3].into_iter().chain(near).chain(any) {
                let mut changed = frame.clone();
                changed[place] = byte;
                let verdict = judge(Reader::Replica, &changed);
                let is_good = is_well_formed(&changed);
                assert_eq!(verdict == Verdict::WellFormed, is_good, "{changed:?}");
                counts[usize::from(is_good)] += 1;
            }
        }
        let mut long = frame.clone();
        long.extend((0..random.below(40)).map(|_| 0));
        let is_good = judge(Reader::Replica, &long) == Verdict::WellFormed;
        assert_eq!(is_good, is_well_formed(&long), "{long:?}");
    }
    assert!(counts.iter().all(|&count| count > 1_000), "{counts:?}");
}

#[test]
fn a_reply_is_judged_by_its_own_table() {
    let reply = bytes(REPLY);
    for place in 0..reply.len() {
        for byte in 0..=u8::MAX {
            let mut changed = reply.clone();
            changed[place] = byte;
            let is_good = match place {
                0..=6 => byte == reply[place],
                27 => (1..=6).contains(&byte),
                _ => true,
            };
            let verdict = match is_good {
                true => Verdict::WellFormed,
                false => Verdict::Wrong(place),
            };
            assert_eq!(judge(Reader::Desk, &changed), verdict, "{place}: {byte}");
        }
    }
    assert_eq!(judge(Reader::Replica, &reply), Verdict::Wrong(3));
}
