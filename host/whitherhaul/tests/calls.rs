//! Document 01's marked examples through the safe crate, and what the crate adds to the C calls.

use whitherhaul::raw::state;
use whitherhaul::{
    addressee, kind, Client, Frames, Operation, Outcome, Refusal, Replica, Reply, Setup, Status,
    DEFAULT_TIMEOUT,
};

const SETUP: Setup = Setup {
    replicas: 3,
    id: 0,
    timeout: DEFAULT_TIMEOUT,
    room: 8,
    members: 8,
};

/// A PrepareOk of view 0 for replica 0.
fn prepare_ok(op: u8, sender: u8) -> [u8; 16] {
    [0, 0, 0, 12, 1, 3, 0, 0, 0, 0, 0, 0, 0, 0, op, sender]
}

/// The first request of client 7: Fee, member 3, 4,500 cents.
fn request() -> Vec<u8> {
    let mut client = Client::new(3, 7).unwrap();
    let asked = client.on_request(Operation::Fee, 3, 4500).unwrap();
    asked.frame.to_vec()
}

#[test]
fn first_tick() {
    let mut replica = Replica::new(&SETUP).unwrap();
    let first = [0, 0, 0, 0x0b, 1, 4, 1, 0, 0, 0, 0, 0, 0, 0, 0];
    let mut due = first.to_vec();
    due.extend(first);
    due[21] = 2;
    let sent = replica.on_idle().unwrap();
    assert_eq!(sent.message_bytes(), due);
    assert_eq!(sent.reply_bytes(), []);
    let messages: Vec<_> = sent.messages().collect();
    assert_eq!(messages, [(1, &due[..15]), (2, &due[15..])]);

    let mut out = [0xa5; 31];
    let before = replica.parts().clone();
    let short = replica.on_idle_into(&mut out[..29], &mut []);
    assert_eq!(short, Err(Refusal::MessagesDontFit));
    assert_eq!((out, replica.parts()), ([0xa5; 31], &before));
    assert_eq!(replica.sent().message_bytes(), []);
    let counts = replica.on_idle_into(&mut out, &mut []).unwrap();
    assert_eq!((counts.messages, counts.replies), (30, 0));
    assert_eq!((&out[..30], out[30]), (&due[..], 0xa5));
}

#[test]
fn a_fee_is_charged_once() {
    let mut replica = Replica::new(&SETUP).unwrap();
    assert_eq!(
        replica.on_message(&request()).unwrap().messages().count(),
        2
    );
    assert_eq!((replica.op_number(), replica.commit_number()), (1, 0));
    assert_eq!(replica.outcome(1), None);
    let sent = replica.on_message(&prepare_ok(1, 1)).unwrap();
    let reply = Reply::read(sent.reply_bytes()).unwrap();
    let due = Reply {
        view: 0,
        client: 7,
        request: 0,
        outcome: Outcome::Fee,
        total: 4500,
    };
    assert_eq!(reply, due);
    let before = replica.parts().clone();
    let sent = replica.on_message(&prepare_ok(1, 2)).unwrap();
    assert_eq!(sent.reply_bytes(), []);
    let sent = replica.on_message(&request()).unwrap();
    assert_eq!(sent.replies().collect::<Vec<_>>(), [due]);
    assert_eq!(*replica.parts(), before);
    assert_eq!((replica.total(3), replica.log().count()), (4500, 1));
    assert_eq!(replica.outcome(1), Some((Outcome::Fee, 4500)));
    let entry = replica.entry(1);
    assert_eq!((entry.client, entry.member, entry.cents), (7, 3, 4500));
    assert_eq!(entry.operation, Operation::Fee);
}

#[test]
fn views_begin_at_ticks() {
    let mut replica = Replica::new(&Setup { id: 1, ..SETUP }).unwrap();
    let mut begun = Vec::new();
    for tick in 1..=25 {
        let view = replica.view();
        replica.on_idle().unwrap();
        if replica.view() != view {
            begun.push(tick);
        }
    }
    assert_eq!(begun, [4, 7, 13, 25]);
    assert_eq!((replica.status(), replica.view()), (Status::ViewChange, 4));
    assert_eq!(
        (replica.last_normal_view(), replica.is_primary()),
        (0, true)
    );
}

#[test]
fn a_full_log_refuses_and_still_answers() {
    let mut replica = Replica::new(&Setup { room: 1, ..SETUP }).unwrap();
    replica.on_message(&request()).unwrap();
    let mut other = request();
    other[14] = 8;
    assert_eq!(replica.on_message(&other).unwrap_err(), Refusal::PastRoom);
    replica.on_message(&prepare_ok(1, 2)).unwrap();
    assert_eq!(replica.on_message(&request()).unwrap().replies().count(), 1);
}

#[test]
fn every_call_fits_the_areas() {
    let setup = Setup {
        replicas: 7,
        ..SETUP
    };
    let mut replica = Replica::new(&setup).unwrap();
    for client in 0..8 {
        let mut frame = request();
        frame[14] = client;
        replica.on_message(&frame).unwrap();
    }
    let ticked = replica.on_idle().unwrap().message_bytes().len();
    assert_eq!(ticked, setup.longest_messages());
}

#[test]
fn setups_outside_the_sizes() {
    let of = |replicas| Setup { replicas, ..SETUP };
    let named = |id| Setup { id, ..SETUP };
    let waiting = |timeout| Setup { timeout, ..SETUP };
    let with_room = |room| Setup { room, ..SETUP };
    let with_members = |members| Setup { members, ..SETUP };
    let outside = [
        [2, 8, 259, u32::MAX].map(of),
        [3, 255, 256, u32::MAX].map(named),
        [0, 65_536, 65_539, u32::MAX].map(waiting),
        [0, 4097, 65_544, u32::MAX].map(with_room),
        [0, 4097, 65_544, u32::MAX].map(with_members),
    ];
    for setup in outside.into_iter().flatten() {
        assert_eq!(Replica::new(&setup).unwrap_err(), Refusal::OutsideSizes);
        assert_eq!(
            Replica::recover(&setup, 1, 1).unwrap_err(),
            Refusal::OutsideSizes
        );
    }
}

#[test]
fn a_run_of_another_length() {
    let mut replica = Replica::new(&SETUP).unwrap();
    replica.parts_mut().table.pop();
    assert_eq!(replica.on_idle().unwrap_err(), Refusal::OutsideSizes);
    replica.parts_mut().table.push(0);
    assert!(replica.on_idle().is_ok());
}

/// Each place of the state run with a byte that has no meaning there: what a fresh replica holds is
/// refused, and left as it is.
#[test]
fn a_byte_without_meaning() {
    for (place, byte) in [
        (12, 4),
        (21, 2),
        (38, 8),
        (49, 1),
        (53, 1),
        (90, 1),
        (145, 1),
    ] {
        let mut replica = Replica::new(&SETUP).unwrap();
        replica.parts_mut().state[place] = byte;
        let before = replica.parts().clone();
        assert_eq!(replica.on_idle().unwrap_err(), Refusal::OutsideSizes);
        assert_eq!(
            replica.on_message(&request()).unwrap_err(),
            Refusal::OutsideSizes
        );
        assert_eq!(replica.parts(), &before, "byte {byte} at {place}");
    }
}

/// Bits of ids that aren't below n stay in a set of acks, and count for nothing.
#[test]
fn acks_of_no_replica() {
    let mut replica = Replica::new(&SETUP).unwrap();
    replica.on_message(&request()).unwrap();
    replica.parts_mut().acks[0] |= 0x80;
    replica.on_message(&prepare_ok(1, 1)).unwrap();
    assert_eq!(replica.commit_number(), 1);
}

/// A StartViewChange of view 2 for replica 1.
fn start_view_change(sender: u8) -> [u8; 12] {
    [0, 0, 0, 8, 1, 7, 1, 0, 0, 0, 2, sender]
}

/// The kinds of the messages that a replica sends on a StartViewChange.
fn kinds_sent(replica: &mut Replica, sender: u8) -> Vec<Option<u8>> {
    let sent = replica.on_message(&start_view_change(sender)).unwrap();
    sent.messages().map(|(_, frame)| kind(frame)).collect()
}

/// The own id never joins the set of those who sent StartViewChange. In a lent state in which it stands all the same it isn't
/// refused, and counts: of five, one other is enough beside it, and two are without it.
#[test]
fn our_own_id_among_the_starts() {
    let of_five = Setup {
        replicas: 5,
        id: 1,
        ..SETUP
    };
    for (lent, after_one, after_two) in [(0, vec![], vec![Some(8)]), (2, vec![Some(8)], vec![])] {
        let mut replica = Replica::new(&of_five).unwrap();
        assert_eq!(kinds_sent(&mut replica, 1), [Some(7); 4]);
        assert_eq!(replica.parts().state[state::STARTS], 0);
        replica.parts_mut().state[state::STARTS] |= lent;
        assert_eq!(kinds_sent(&mut replica, 0), after_one);
        assert_eq!(kinds_sent(&mut replica, 3), after_two);
        assert_eq!(replica.parts().state[state::STARTS], lent | 0b1001);
    }
}

/// A row whose mark is no outcome keeps no reply, so that none is sent.
#[test]
fn a_mark_that_is_no_outcome() {
    let mut replica = Replica::new(&SETUP).unwrap();
    replica.on_message(&request()).unwrap();
    replica.on_message(&prepare_ok(1, 1)).unwrap();
    let again = replica.on_message(&request()).unwrap();
    assert_eq!(again.replies().count(), 1);
    replica.parts_mut().table[16] = 9;
    let again = replica.on_message(&request()).unwrap();
    assert_eq!(again.reply_bytes(), []);
    assert_eq!(replica.op_number(), 1);
}

#[test]
fn a_part_of_a_frame_is_not_handed_out() {
    let mut bytes = request();
    bytes.extend(&request()[..20]);
    assert_eq!(Frames::new(&bytes).collect::<Vec<_>>(), [request()]);
    assert_eq!(Frames::new(&bytes[..3]).count(), 0);
    assert_eq!((kind(&bytes[..5]), addressee(&bytes[..6])), (None, None));
    let no_reply = Refusal::Malformed {
        offset: 3,
        length: 39,
    };
    assert_eq!(Reply::read(&request()), Err(no_reply));
}

/// Every call is lent the same areas, and what it sent is handed out where it stands.
#[test]
fn nothing_is_copied() {
    let mut replica = Replica::new(&SETUP).unwrap();
    let area = replica.on_idle().unwrap().message_bytes().as_ptr();
    let sent = replica.on_message(&request()).unwrap();
    let bytes = sent.message_bytes();
    assert_eq!(bytes.as_ptr(), area);
    let places: Vec<_> = sent.messages().map(|(_, f)| f.as_ptr_range()).collect();
    let second = bytes[51..].as_ptr();
    assert_eq!(places, [area..second, second..bytes.as_ptr_range().end]);
}

#[test]
fn replies_are_read_and_their_frames_are_there() {
    let mut replica = Replica::new(&SETUP).unwrap();
    replica.on_message(&request()).unwrap();
    let sent = replica.on_message(&prepare_ok(1, 1)).unwrap();
    let frames: Vec<_> = Frames::new(sent.reply_bytes()).collect();
    let read: Vec<_> = frames.iter().map(|frame| Reply::read(frame)).collect();
    assert_eq!(read, sent.replies().map(Ok).collect::<Vec<_>>());
    assert_eq!(
        (frames.len(), frames[0].len(), kind(frames[0])),
        (1, 36, Some(12))
    );
    assert_eq!(sent.messages().count(), 0);
}
