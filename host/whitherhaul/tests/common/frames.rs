//! Frames for a replica, written from document 01's table.

/// A frame of this kind for replica `to`: length, version, kind, addressee, fields.
fn frame(kind: u8, to: u8, fields: &[&[u8]]) -> Vec<u8> {
    let fields = fields.concat();
    let mut frame = (3 + fields.len() as u32).to_be_bytes().to_vec();
    frame.extend([1, kind, to]);
    frame.extend(fields);
    frame
}

/// Numbers of four bytes each.
fn fours<const K: usize>(numbers: [u32; K]) -> Vec<u8> {
    numbers.map(u32::to_be_bytes).concat()
}

/// How many entries these bytes are.
fn count(entries: &[u8]) -> u32 {
    (entries.len() / 32) as u32
}

/// A Request, with its entry.
pub fn request(to: u8, entry: &[u8]) -> Vec<u8> {
    frame(1, to, &[entry])
}

/// A Prepare.
pub fn prepare(to: u8, view: u32, op: u32, commit: u32, entry: &[u8]) -> Vec<u8> {
    frame(2, to, &[&fours([view, op, commit]), entry])
}

/// A PrepareOk.
pub fn prepare_ok(to: u8, view: u32, op: u32, sender: u8) -> Vec<u8> {
    frame(3, to, &[&fours([view, op]), &[sender]])
}

/// A Commit.
pub fn commit(to: u8, view: u32, commit: u32) -> Vec<u8> {
    frame(4, to, &[&fours([view, commit])])
}

/// A NewState, with the entries behind `start`.
pub fn new_state(to: u8, view: u32, start: u32, commit: u32, entries: &[u8]) -> Vec<u8> {
    let end = start + count(entries);
    frame(6, to, &[&fours([view, start, end, commit]), entries])
}

/// A DoViewChange, with its whole log; the last normal view is 0.
pub fn do_view_change(to: u8, view: u32, sender: u8, commit: u32, log: &[u8]) -> Vec<u8> {
    let numbers = fours([0, count(log), commit]);
    frame(8, to, &[&fours([view]), &[sender], &numbers, log])
}

/// A StartView, with its whole log.
pub fn start_view(to: u8, view: u32, commit: u32, log: &[u8]) -> Vec<u8> {
    frame(9, to, &[&fours([view, count(log), commit]), log])
}

/// The primary's RecoveryResponse, with its whole log.
pub fn recovery_log(to: u8, view: u32, nonce: u64, sender: u8, commit: u32, log: &[u8]) -> Vec<u8> {
    let numbers = fours([count(log), commit]);
    let front = [&fours([view])[..], &nonce.to_be_bytes(), &[sender, 1]].concat();
    frame(11, to, &[&front, &numbers, log])
}

/// The RecoveryResponse of one who doesn't lead.
pub fn recovery_response(to: u8, view: u32, nonce: u64, sender: u8) -> Vec<u8> {
    frame(
        11,
        to,
        &[&fours([view]), &nonce.to_be_bytes(), &[sender, 0]],
    )
}
