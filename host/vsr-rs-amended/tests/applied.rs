//! Which patches are applied, and what each of them changes.

use vsr_rs_amended::{patches, Config, LogEntry, Message, Replica, StateMachine};

/// A state machine that adds up what it is given, and answers the sum.
struct Sum(u64);

impl StateMachine for Sum {
    type Input = u64;
    type Output = u64;

    fn apply(&mut self, more: u64) -> u64 {
        self.0 += more;
        self.0
    }
}

/// Replica 1 of so many.
fn replica(n: usize) -> Replica<Sum> {
    let mut config = Config::new();
    for _ in 0..n {
        config.add_replica();
    }
    Replica::new(1, config, Sum(0))
}

/// Gives it a StartViewChange of view 2 from this sender: the addressees of its StartViewChanges and of its DoViewChanges.
fn asked(replica: &mut Replica<Sum>, sender: usize) -> (Vec<usize>, Vec<usize>) {
    replica.on_message(Message::StartViewChange {
        view_number: 2,
        replica_id: sender,
    });
    let (mut starts, mut reports) = (Vec::new(), Vec::new());
    for (to, message) in replica.drain_messages() {
        match message {
            Message::StartViewChange { .. } => starts.push(to),
            Message::DoViewChange { .. } => reports.push(to),
            other => panic!("{other:?} to {to}"),
        }
    }
    (starts, reports)
}

#[test]
fn the_patches() {
    assert_eq!(
        patches(),
        [
            "patches/own-id-in-start-view-change.patch",
            "patches/reply-of-last-committed-entry.patch",
        ],
        "each patch has a test here"
    );
}

#[test]
fn the_own_id_never_joins_the_set() {
    let mut of_three = replica(3);
    assert_eq!(asked(&mut of_three, 1), (vec![0, 2], vec![]));
    assert_eq!(asked(&mut of_three, 1), (vec![], vec![]));
    assert_eq!(asked(&mut of_three, 0), (vec![], vec![2]));
    let mut of_four = replica(4);
    assert_eq!(asked(&mut of_four, 0), (vec![0, 2, 3], vec![]));
    assert_eq!(asked(&mut of_four, 1), (vec![], vec![]));
    assert_eq!(asked(&mut of_four, 3), (vec![], vec![2]));
}

/// An entry of this client and number.
fn entry(client_id: usize, request_number: usize, op: u64) -> LogEntry<u64> {
    LogEntry {
        client_id,
        request_number,
        op,
    }
}

/// The sums that go out when this client and number are asked for: the request numbers and results of the replies.
fn told(replica: &mut Replica<Sum>, client_id: usize, request_number: usize) -> Vec<(usize, u64)> {
    replica.on_message(Message::Request {
        client_id,
        request_number,
        op: 0,
    });
    let replies = replica.drain_replies();
    replies
        .map(|reply| (reply.request_number, reply.result))
        .collect()
}

#[test]
fn an_install_keeps_the_reply_to_the_last_committed_entry() {
    let log = [entry(7, 5, 100), entry(8, 0, 50), entry(7, 6, 1)];
    let mut backup = replica(3);
    for (place, entry) in log.iter().enumerate() {
        backup.on_message(Message::Prepare {
            view_number: 0,
            op_number: place + 1,
            client_id: entry.client_id,
            request_number: entry.request_number,
            op: entry.op,
            commit_number: place,
        });
    }
    backup.on_message(Message::StartView {
        view_number: 1,
        log: log[..2].to_vec(),
        op_number: 2,
        commit_number: 2,
    });
    assert_eq!(told(&mut backup, 7, 4), []);
    assert_eq!(told(&mut backup, 7, 5), [(5, 100)]);
    assert_eq!(told(&mut backup, 8, 0), [(0, 150)]);
    assert_eq!(told(&mut backup, 7, 6), []);
    assert_eq!(told(&mut backup, 7, 5), []);
}
