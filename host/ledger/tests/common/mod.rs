//! Journals written by hand, byte for byte, with no look at the library.

/// A frame: op number, client, request, operation, member, cents, outcome and total.
pub fn frame(
    op: u32,
    [client, request]: [u64; 2],
    entry: (u8, u32, u64),
    end: (u8, u64),
) -> Vec<u8> {
    let (operation, member, cents) = entry;
    let (outcome, total) = end;
    let mut frame = vec![0, 0, 0, 46, 1];
    frame.extend(op.to_be_bytes());
    frame.extend(client.to_be_bytes());
    frame.extend(request.to_be_bytes());
    frame.extend([operation, 0, 0, 0]);
    frame.extend(member.to_be_bytes());
    frame.extend(cents.to_be_bytes());
    frame.push(outcome);
    frame.extend(total.to_be_bytes());
    frame
}

/// A good journal of a ledger with 8 members: five frames, and takings of 10,035.00.
pub fn journal() -> Vec<u8> {
    [
        frame(1, [7, 0], (1, 3, 4_500), (1, 4_500)),
        frame(2, [7, 1], (2, 3, 1_000), (2, 3_500)),
        frame(3, [12, 0], (3, 3, 0), (3, 3_500)),
        frame(4, [12, 1], (1, 5, 1_000_000), (1, 1_000_000)),
        frame(5, [12, 2], (1, 8, 2_000), (4, 0)),
    ]
    .concat()
}

/// The same with a byte changed.
pub fn with(place: usize, byte: u8) -> Vec<u8> {
    let mut journal = journal();
    assert_ne!(journal[place], byte, "no change");
    journal[place] = byte;
    journal
}
