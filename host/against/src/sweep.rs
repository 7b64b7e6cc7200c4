//! Bad input, all of it and not by chance: frames of every kind, and Replies, cut at every place, a byte too long, and with every
//! byte set to each of some values. Each is given to a fresh replica, compared as any other call, and read as a desk reads a Reply.
//! So are fronts of the longest frames there are.

use crate::case::{Lends, Step};
use crate::clients;
use crate::counts::Counts;
use crate::damage::{add, count_place};
use crate::pair::Pair;
use crate::play::{fault, Fault, Found};
use schedules::directed::{
    commit, do_view_change, new_state, prepare, prepare_ok, request, response, start_view,
    start_view_change, NEW,
};
use schedules::rust::Setup;
use vsr_rs::{Message, Reply};
use wire::fees::{Entry, Outcome, ASK, FEE, MOST_CENTS, REFUND};
use wire::frames::{frame, write_reply, Fees};

/// The replica that all are given to.
const SETUP: Setup = Setup {
    n: 3,
    id: 1,
    timeout: 3,
    room: 16,
    members: 4,
};

/// What a byte is set to, besides one more and one less than it is. The most cents are 0F 42 40.
const VALUES: [u8; 10] = [0x00, 0x01, 0x02, 0x0f, 0x10, 0x42, 0x43, 0x7f, 0x80, 0xff];

/// Plays all of it.
pub fn play(counts: &mut Counts) -> Result<(), Fault> {
    for good in frames().into_iter().chain(fronts()).chain(replies()) {
        for bytes in damaged(&good) {
            clients::read_alone(&bytes, counts)?;
            given(bytes, counts)?;
            counts.swept += 1;
        }
    }
    Ok(())
}

/// Gives a fresh replica a frame.
pub fn given(bytes: Vec<u8>, counts: &mut Counts) -> Result<(), Fault> {
    let (mut pair, _) = Pair::new(SETUP, NEW).map_err(|text| Fault {
        text,
        found: Found::Creation,
    })?;
    counts.creations += 1;
    let step = Step {
        frame: Some(bytes),
        lends: Lends::default(),
    };
    let done = pair.step(step, counts);
    done.map_err(|text| fault(text, &pair)).map(|_| ())
}

/// The frame cut at every place, with a byte more, and with each byte set to something else.
fn damaged(frame: &[u8]) -> Vec<Vec<u8>> {
    let mut all: Vec<Vec<u8>> = (0..=frame.len()).map(|end| frame[..end].to_vec()).collect();
    all.extend(VALUES.map(|value| [frame, &[value]].concat()));
    for (place, byte) in frame.iter().enumerate() {
        let beside = [byte.wrapping_add(1), byte.wrapping_sub(1)];
        for value in VALUES.into_iter().chain(beside) {
            let mut bytes = frame.to_vec();
            bytes[place] = value;
            all.push(bytes);
        }
    }
    all
}

/// Well-formed frames of every kind, with logs of 0, 1, 2 and 9 entries. A NewState's start is the least and the greatest there is.
pub fn frames() -> Vec<Vec<u8>> {
    let get_state = Message::GetState {
        replica_id: 2,
        view_number: 0,
        op_number: 0,
    };
    let recovery = Message::Recovery {
        replica_id: 2,
        nonce: 1,
        view_number: 0,
    };
    let mut messages: Vec<Fees> = vec![
        prepare_ok(0, 1, 2),
        commit(0, 0),
        get_state,
        start_view_change(1, 2),
        recovery,
        response(0, 2, None),
    ];
    for entry in log(4) {
        messages.extend([request(entry), prepare(0, 1, 0, entry)]);
    }
    for log in [0, 1, 2, 9].map(log) {
        messages.extend([
            new_state(0, 0, &log, 0),
            new_state(0, u32::MAX as usize - log.len(), &log, 0),
            do_view_change(1, 2, 0, &log, 0),
            start_view(1, &log, 0),
            response(0, 2, Some((&log, 0))),
        ]);
    }
    let frames = messages.iter().map(|message| frame(SETUP.id, message));
    frames.collect()
}

/// The first bytes of frames that call for as many entries as a length can, which only lack the others.
fn fronts() -> impl Iterator<Item = Vec<u8>> {
    const MOST: u32 = u32::MAX / 32;
    let log = log(1);
    let messages = [
        new_state(0, 0, &log, 0),
        new_state(0, (u32::MAX - MOST) as usize, &log, 0),
        do_view_change(1, 2, 0, &log, 0),
        start_view(1, &log, 0),
        response(0, 2, Some((&log, 0))),
    ];
    messages.into_iter().map(|message| {
        let mut bytes = frame(SETUP.id, &message);
        let count = count_place(bytes[5]).expect("a kind with entries");
        add(&mut bytes, 0, 32 * (MOST - 1));
        add(&mut bytes, count, MOST - 1);
        bytes
    })
}

/// So many entries, of each operation in turn.
fn log(entries: u64) -> Vec<Entry> {
    let charges = [(FEE, MOST_CENTS), (REFUND, 1), (ASK, 0), (FEE, 4_500)];
    let entries = (0..entries).zip(charges.into_iter().cycle());
    let entries = entries.map(|(place, (operation, cents))| Entry {
        client: 7,
        request: place,
        operation,
        member: place as u32,
        cents,
    });
    entries.collect()
}

/// A Reply of each outcome.
pub fn replies() -> impl Iterator<Item = Vec<u8>> {
    (1..=6).map(|code| {
        let reply = Reply {
            view_number: 1,
            client_id: 7,
            request_number: 2,
            result: Outcome { code, total: 4_500 },
        };
        let mut bytes = Vec::new();
        write_reply(&mut bytes, &reply);
        bytes
    })
}
