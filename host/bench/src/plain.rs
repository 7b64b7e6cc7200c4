//! A journal in plain Rust, as one would write it: the yardstick of the library's calls. It takes and gives the same bytes,
//! and keeps the totals as numbers.

const FRAME: usize = 50;
const ENTRY: usize = 32;
const RESULT: usize = 9;
const MOST: usize = 4096;

/// The number of a refusal, 0 where it is done, and how many bytes were written.
pub type Written = (u8, usize);

/// The number of a refusal, then how many entries were read, and with 12 the offset and the fault of the first bad frame.
pub type ReadBack = (u8, [u64; 3]);

struct Entry {
    operation: u8,
    member: usize,
    cents: u64,
}

impl Entry {
    /// The entry of 32 bytes; none where they are outside the entry rules.
    fn of(bytes: &[u8; ENTRY]) -> Option<Entry> {
        let (operation, cents) = (bytes[16], u64_at(bytes, 24));
        let good = match operation {
            1 | 2 => (1..=1_000_000).contains(&cents),
            3 => cents == 0,
            _ => false,
        };
        (good && bytes[17..20] == [0; 3]).then(|| Entry {
            operation,
            member: u32_at(bytes, 20) as usize,
            cents,
        })
    }

    /// Outcome and total by the fee rules.
    fn apply(&self, totals: &mut [u64]) -> (u8, u64) {
        let Some(total) = totals.get_mut(self.member) else {
            return (4, 0);
        };
        let outcome = match self.operation {
            1 if *total + self.cents > 1_000_000_000 => 5,
            2 if *total < self.cents => 6,
            operation => operation,
        };
        match outcome {
            1 => *total += self.cents,
            2 => *total -= self.cents,
            _ => {}
        }
        (outcome, *total)
    }
}

fn put(frame: &mut [u8; FRAME], op: u32, entry: &[u8; ENTRY], result: &[u8; RESULT]) {
    frame[..4].copy_from_slice(&46_u32.to_be_bytes());
    frame[4] = 1;
    frame[5..9].copy_from_slice(&op.to_be_bytes());
    frame[9..41].copy_from_slice(entry);
    frame[41..].copy_from_slice(result);
}

/// The journal of a run of entries into the area.
pub fn write(members: u32, run: &[u8], area: &mut [u8]) -> Written {
    if !(1..=4096).contains(&members) {
        return (1, 0);
    }
    let (entries, rest) = run.as_chunks();
    if !rest.is_empty() || entries.iter().any(|entry| Entry::of(entry).is_none()) {
        return (2, 0);
    }
    if entries.len() > MOST {
        return (4, 0);
    }
    if area.len() < FRAME * entries.len() {
        return (9, 0);
    }
    let mut totals = vec![0; members as usize];
    let (frames, _) = area.as_chunks_mut();
    for (op, (bytes, frame)) in (1..).zip(entries.iter().zip(frames)) {
        let Some(entry) = Entry::of(bytes) else {
            return (2, 0);
        };
        let (outcome, total) = entry.apply(&mut totals);
        let mut result = [outcome; RESULT];
        result[1..].copy_from_slice(&total.to_be_bytes());
        put(frame, op, bytes, &result);
    }
    (0, FRAME * entries.len())
}

/// The frames of ops from + 1 to `to` into the area.
pub fn append(from: u32, to: u32, log: &[u8], results: &[u8], area: &mut [u8]) -> Written {
    let (first, last) = (from as usize, to as usize);
    if first > last || last > MOST || log.len() < ENTRY * last || results.len() < RESULT * last {
        return (1, 0);
    }
    if area.len() < FRAME * (last - first) {
        return (9, 0);
    }
    let (entries, _) = log[ENTRY * first..ENTRY * last].as_chunks();
    let (results, _) = results[RESULT * first..RESULT * last].as_chunks();
    let (frames, _) = area.as_chunks_mut();
    let ops = from + 1..;
    for (op, ((entry, result), frame)) in ops.zip(entries.iter().zip(results).zip(frames)) {
        put(frame, op, entry, result);
    }
    (0, FRAME * (last - first))
}

/// What is wrong with a frame that has to have this op number, or 0.
fn fault(op: usize, frame: &[u8; FRAME], totals: &mut [u64]) -> u64 {
    if op > MOST {
        return 8;
    }
    if u32_at(frame, 0) != 46 {
        return 2;
    }
    if frame[4] != 1 {
        return 3;
    }
    if u32_at(frame, 5) as usize != op {
        return 4;
    }
    let Some(entry) = frame[9..].first_chunk().and_then(Entry::of) else {
        return 5;
    };
    let (outcome, total) = entry.apply(totals);
    if frame[41] != outcome {
        return 6;
    }
    if u64_at(frame, 42) != total {
        return 7;
    }
    0
}

/// A file's entries into the area, and the members' totals.
pub fn read(members: u32, file: &[u8], area: &mut [u8], run: &mut [u8]) -> ReadBack {
    if !(1..=4096).contains(&members) || run.len() != 8 * members as usize {
        return (1, [0; 3]);
    }
    let mut totals = vec![0; members as usize];
    let (frames, rest) = file.as_chunks();
    let bad = |before: usize, fault| (12, [0, (FRAME * before) as u64, fault]);
    for (before, frame) in frames.iter().enumerate() {
        match fault(before + 1, frame, &mut totals) {
            0 => {}
            fault => return bad(before, fault),
        }
    }
    if !rest.is_empty() {
        return bad(frames.len(), if frames.len() == MOST { 8 } else { 1 });
    }
    if area.len() < ENTRY * frames.len() {
        return (9, [0; 3]);
    }
    for (frame, entry) in frames.iter().zip(area.chunks_exact_mut(ENTRY)) {
        entry.copy_from_slice(&frame[9..41]);
    }
    for (total, bytes) in totals.iter().zip(run.chunks_exact_mut(8)) {
        bytes.copy_from_slice(&total.to_be_bytes());
    }
    (0, [frames.len() as u64, 0, 0])
}

fn u32_at(bytes: &[u8], at: usize) -> u32 {
    u32::from_be_bytes(*bytes[at..].first_chunk().expect("four bytes"))
}

fn u64_at(bytes: &[u8], at: usize) -> u64 {
    u64::from_be_bytes(*bytes[at..].first_chunk().expect("eight bytes"))
}
