//! The journal and the fee rules a second time, written from their rules with no look at the
//! library, so that it can judge what the library does.

/// What a frame begins with: length 46, version 1.
const FRONT: [u8; 5] = [0, 0, 0, 46, 1];

/// The fee rules: outcome and total that an entry gives, on the members' totals.
fn apply(totals: &mut [u64], entry: &[u8]) -> (u8, u64) {
    let (operation, cents) = (entry[16], number(&entry[24..]));
    let Some(total) = totals.get_mut(number(&entry[20..24]) as usize) else {
        return (4, 0);
    };
    let outcome = match operation {
        1 if *total + cents > 1_000_000_000 => 5,
        2 if cents > *total => 6,
        _ => operation,
    };
    match outcome {
        1 => *total += cents,
        2 => *total -= cents,
        _ => {}
    }
    (outcome, *total)
}

/// Whether 32 bytes are an entry.
pub fn is_entry(entry: &[u8]) -> bool {
    let cents = number(&entry[24..]);
    let fits = match entry[16] {
        1 | 2 => (1..=1_000_000).contains(&cents),
        3 => cents == 0,
        _ => false,
    };
    fits && entry[17..20] == [0, 0, 0]
}

/// What is wrong with the form of the frame that `before` good ones stand in front of; 0 where
/// nothing is.
fn form_fault(before: usize, frame: &[u8]) -> u8 {
    match frame {
        _ if before == 4096 => 8,
        _ if frame.len() < 50 => 1,
        _ if frame[..4] != FRONT[..4] => 2,
        _ if frame[4] != FRONT[4] => 3,
        _ if number(&frame[5..9]) != before as u64 + 1 => 4,
        _ if !is_entry(&frame[9..41]) => 5,
        _ => 0,
    }
}

/// The same by the fee rules too, on the members' totals.
fn fault(before: usize, frame: &[u8], totals: &mut [u64]) -> u8 {
    let form = form_fault(before, frame);
    if form != 0 {
        return form;
    }
    let (outcome, total) = apply(totals, &frame[9..41]);
    match (frame[41] == outcome, number(&frame[42..]) == total) {
        (false, _) => 6,
        (true, false) => 7,
        (true, true) => 0,
    }
}

/// A file that is good: its entries, and the totals after them.
#[derive(Debug, PartialEq)]
pub struct Good {
    pub entries: Vec<u8>,
    pub totals: Vec<u64>,
}

/// Reads a file; offset and fault of its first bad frame where it has one.
pub fn read(members: u32, file: &[u8]) -> Result<Good, (usize, u8)> {
    let mut totals = vec![0; members as usize];
    let mut entries = Vec::new();
    for (before, frame) in file.chunks(50).enumerate() {
        match fault(before, frame, &mut totals) {
            0 => entries.extend(&frame[9..41]),
            fault => return Err((50 * before, fault)),
        }
    }
    Ok(Good { entries, totals })
}

/// The journal of a run of entries that keep the rules, however many.
pub fn write(members: u32, run: &[u8]) -> Vec<u8> {
    let mut totals = vec![0; members as usize];
    let mut file = Vec::new();
    for (op, entry) in (1_u32..).zip(run.chunks(32)) {
        let (outcome, total) = apply(&mut totals, entry);
        file.extend(FRONT);
        file.extend(op.to_be_bytes());
        file.extend(entry);
        file.push(outcome);
        file.extend(total.to_be_bytes());
    }
    file
}

/// What writing answers for a run of entries and an area: the number, and the journal where it is 0.
pub fn written(members: u32, run: &[u8], room: usize) -> (u8, Vec<u8>) {
    let mut entries = run.chunks(32);
    let count = entries.len();
    let number = match members {
        0 | 4097.. => 1,
        _ if !entries.all(|entry| entry.len() == 32 && is_entry(entry)) => 2,
        _ if count > 4096 => 4,
        _ if room < 50 * count => 9,
        _ => return (0, write(members, run)),
    };
    (number, Vec::new())
}

/// The big-endian number of up to 8 bytes.
pub fn number(bytes: &[u8]) -> u64 {
    bytes.iter().fold(0, |n, byte| n << 8 | u64::from(*byte))
}

/// The 32 bytes of an entry.
pub fn entry(client: u64, request: u64, operation: u8, member: u32, cents: u64) -> Vec<u8> {
    let mut entry = Vec::new();
    entry.extend(client.to_be_bytes());
    entry.extend(request.to_be_bytes());
    entry.extend([operation, 0, 0, 0]);
    entry.extend(member.to_be_bytes());
    entry.extend(cents.to_be_bytes());
    entry
}
