//! The client: its numbers, and the Reply frames that it takes, refuses or leaves alone.

use whitherhaul::{addressee, Client, Operation, Outcome, Refusal, Reply};

/// A Reply that a fee was charged, after which the member's total is 4,500.
fn reply(client: u64, request: u64, view: u32) -> [u8; 36] {
    let mut frame = [0; 36];
    frame[3..6].copy_from_slice(&[32, 1, 12]);
    frame[7..11].copy_from_slice(&view.to_be_bytes());
    frame[11..19].copy_from_slice(&client.to_be_bytes());
    frame[19..27].copy_from_slice(&request.to_be_bytes());
    frame[27] = 1;
    frame[28..].copy_from_slice(&4500u64.to_be_bytes());
    frame
}

/// Client 7 of three replicas, whose request 0 waits.
fn waiting() -> Client {
    let mut client = Client::new(3, 7).unwrap();
    client.on_request(Operation::Fee, 3, 4500).unwrap();
    client
}

#[test]
fn requests_and_their_numbers() {
    let mut client = Client::new(5, 9).unwrap();
    assert_eq!(client.on_idle().unwrap().count(), 0);
    assert_eq!(
        client.on_request(Operation::Fee, 1, 0).unwrap_err(),
        Refusal::OutsideEntryRules
    );
    let asked = client.on_request(Operation::Ask, 1, 0).unwrap();
    assert_eq!((asked.number, asked.to, asked.frame.len()), (0, 0, 39));
    let frame = asked.frame.to_vec();
    let again: Vec<_> = client.on_idle().unwrap().collect();
    assert_eq!(again[0], (0, &frame[..]));
    let to: Vec<_> = again.into_iter().map(|(to, _)| to).collect();
    assert_eq!(to, [0, 1, 2, 3, 4]);
    assert!(!client.on_reply(1, 7).unwrap());
    assert_eq!((client.view(), client.pending()), (7, Some(0)));
    assert!(client.on_reply(0, 6).unwrap());
    assert_eq!(
        (client.view(), client.pending(), client.next_number()),
        (7, None, 1)
    );
    let asked = client.on_request(Operation::Refund, 1, 5).unwrap();
    assert_eq!((asked.number, asked.to), (1, 2));
    assert_eq!(addressee(asked.frame), Some(2));
}

#[test]
fn records_that_were_kept() {
    let mut record = *Client::new(5, 9).unwrap().record();
    record[13..21].fill(255);
    let mut last = Client::from_record(record).unwrap();
    assert_eq!(
        last.on_request(Operation::Ask, 1, 0).unwrap_err(),
        Refusal::NumbersUsedUp
    );
    assert_eq!(last.id(), 9);
    record[21] = 2;
    assert_eq!(
        Client::from_record(record).unwrap_err(),
        Refusal::OutsideSizes
    );
    for replicas in [2, 8, 259, 65_539] {
        assert_eq!(Client::new(replicas, 9).unwrap_err(), Refusal::OutsideSizes);
    }
}

#[test]
fn a_reply_that_answers() {
    let mut client = waiting();
    let due = Reply {
        view: 4,
        client: 7,
        request: 0,
        outcome: Outcome::Fee,
        total: 4500,
    };
    assert_eq!(client.on_reply_frame(&reply(7, 0, 4)), Ok(Some(due)));
    assert_eq!((client.view(), client.pending()), (4, None));
    assert_eq!(client.on_reply_frame(&reply(7, 0, 4)), Ok(None));
}

/// All desks count from 0, so the number alone doesn't tell whose Reply it is.
#[test]
fn a_reply_of_another_desk() {
    let mut client = waiting();
    let before = *client.record();
    for other in [0, 8, 7 << 32] {
        assert_eq!(client.on_reply_frame(&reply(other, 0, 9)), Ok(None));
        assert_eq!(*client.record(), before, "a Reply for client {other}");
    }
    assert_eq!(client.pending(), Some(0));
    assert!(client.on_reply(0, 9).unwrap());
}

#[test]
fn an_older_reply_of_its_own() {
    let mut client = waiting();
    let number = client.on_request(Operation::Ask, 3, 0).unwrap().number;
    assert_eq!(client.on_reply_frame(&reply(7, 0, 5)), Ok(None));
    assert_eq!((client.view(), client.pending()), (5, Some(number)));
    let sooner = client.on_reply_frame(&reply(7, number, 2)).unwrap();
    assert_eq!(sooner.map(|reply| reply.request), Some(number));
    assert_eq!((client.view(), client.pending()), (5, None));
}

#[test]
fn a_malformed_reply() {
    let mut client = waiting();
    let before = *client.record();
    let good = reply(7, 0, 9);
    let with = |place: usize, byte| {
        let mut frame = good.to_vec();
        frame[place] = byte;
        (frame, place)
    };
    let mut longer = good.to_vec();
    longer.push(0);
    let bad = [
        (vec![], 0),
        (good[..35].to_vec(), 35),
        (longer, 36),
        with(3, 33),
        with(4, 2),
        with(5, 11),
        with(6, 1),
        with(27, 0),
        with(27, 7),
    ];
    for (frame, offset) in bad {
        let length = frame.len();
        let answer = client.on_reply_frame(&frame);
        assert_eq!(
            answer,
            Err(Refusal::Malformed { offset, length }),
            "{frame:?}"
        );
        assert_eq!(*client.record(), before, "{frame:?}");
    }
    assert!(client.on_reply_frame(&good).unwrap().is_some());
}
