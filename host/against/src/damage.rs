//! Frames, damaged: bits, lengths, counts, entries; and frames that more than one refusal looks at.

use wire::random::Random;

/// Where a kind's count of entries stands: o, or end of a NewState.
pub fn count_place(kind: u8) -> Option<usize> {
    match kind {
        2 | 3 | 9 => Some(11),
        5 => Some(12),
        6 => Some(15),
        8 => Some(16),
        11 => Some(21),
        _ => None,
    }
}

/// Where a kind's sender stands.
fn sender_place(kind: u8) -> Option<usize> {
    match kind {
        3 => Some(15),
        5 | 10 => Some(7),
        7 | 8 => Some(11),
        11 => Some(19),
        _ => None,
    }
}

/// Where a kind's commit number stands that refusal 5 bounds.
fn commit_place(kind: u8) -> Option<usize> {
    match kind {
        6 => Some(19),
        8 => Some(20),
        9 => Some(15),
        11 => Some(25),
        _ => None,
    }
}

/// Adds to the big-endian number of 4 bytes at a place, if it is there.
pub fn add(frame: &mut [u8], at: usize, more: u32) {
    if let Some(bytes) = frame.get_mut(at..at + 4) {
        let number = u32::from_be_bytes([bytes[0], bytes[1], bytes[2], bytes[3]]);
        bytes.copy_from_slice(&number.wrapping_add(more).to_be_bytes());
    }
}

/// The frame with its length put right.
fn measured(mut frame: Vec<u8>) -> Vec<u8> {
    let length = (frame.len() as u32).wrapping_sub(4);
    if let Some(bytes) = frame.get_mut(..4) {
        bytes.copy_from_slice(&length.to_be_bytes());
    }
    frame
}

/// The frame, damaged once, or now and then twice.
pub fn damaged(random: &mut Random, frame: Vec<u8>) -> Vec<u8> {
    let frame = once(random, frame);
    if random.chance(20) {
        return once(random, frame);
    }
    frame
}

fn once(random: &mut Random, mut frame: Vec<u8>) -> Vec<u8> {
    if frame.is_empty() {
        return vec![random.number() as u8];
    }
    match random.below(10) {
        0..=2 => flip(random, &mut frame),
        3 => frame.truncate(random.below(frame.len())),
        4 => {
            let more = random.pick(&[1, 1, 4, 31, 32, 33]);
            let byte = random.pick(&[0, 1, 255]);
            frame.resize(frame.len() + more, byte);
        }
        5 => {
            frame.truncate(random.below(frame.len()));
            return measured(frame);
        }
        6 => {
            let more = random.pick(&[1, 4, 31, 32, 32, 33]);
            let byte = random.pick(&[0, 1, 255]);
            frame.resize(frame.len() + more, byte);
            if random.chance(50) {
                count(random, &mut frame);
            }
            return measured(frame);
        }
        7 => count(random, &mut frame),
        8 => {
            let place = random.below(frame.len());
            frame[place] = random.pick(&[0, 1, 2, 3, 4, 127, 255]);
        }
        _ => repeat(random, &mut frame),
    }
    frame
}

/// Flips a bit, often of the head.
fn flip(random: &mut Random, frame: &mut [u8]) {
    let most = if random.chance(30) {
        frame.len().min(8)
    } else {
        frame.len()
    };
    let place = random.below(most);
    frame[place] ^= 1 << random.below(8);
}

/// Changes the count of entries.
fn count(random: &mut Random, frame: &mut [u8]) {
    let kind = frame.get(5).copied().unwrap_or(0);
    if let Some(place) = count_place(kind) {
        let more = random.pick(&[1, 1, 1, u32::MAX, u32::MAX, 8, 1 << 27, 1 << 31]);
        add(frame, place, more);
    }
}

/// The last 32 bytes again, some times, with count and length put right: a log that doesn't rise, or has no room.
fn repeat(random: &mut Random, frame: &mut Vec<u8>) {
    if frame.len() < 39 {
        return flip(random, frame);
    }
    let times = random.pick(&[1, 1, 2, 9, 50]);
    let entry = frame[frame.len() - 32..].repeat(times);
    frame.extend(entry);
    let kind = frame[5];
    if let (6 | 8 | 9 | 11, Some(place)) = (kind, count_place(kind)) {
        add(frame, place, times as u32);
    }
    *frame = measured(std::mem::take(frame));
}

/// The frame with some of what refusals 2 to 6 look at made wrong at once, so that their order shows.
pub fn spoiled(random: &mut Random, mut frame: Vec<u8>) -> Vec<u8> {
    let kind = frame.get(5).copied().unwrap_or(0);
    if random.chance(40) {
        repeat(random, &mut frame);
    }
    if random.chance(40) {
        frame[6] = random.pick(&[0, 1, 6, 7, 255]);
    }
    if let (Some(place), true) = (sender_place(kind), random.chance(50)) {
        frame[place] = random.pick(&[2, 3, 6, 7, 8, 255]);
    }
    if let (Some(place), true) = (commit_place(kind), random.chance(50)) {
        add(&mut frame, place, random.pick(&[1, 9, 100, u32::MAX]));
    }
    if random.chance(15) {
        let place = frame.len() - 1 - random.below(frame.len().min(32));
        frame[place] ^= 1 << random.below(8);
    }
    frame
}
