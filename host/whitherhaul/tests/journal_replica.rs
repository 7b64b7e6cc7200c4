//! The journals of three replicas, taken piece by piece after each call.

use whitherhaul::raw::state;
use whitherhaul::{Client, Frames, Journal, Operation, Outcome, Refusal, Replica, Setup};

const MEMBERS: u32 = 4;

fn setup(id: u32) -> Setup {
    Setup {
        replicas: 3,
        id,
        timeout: 3,
        room: 16,
        members: MEMBERS,
    }
}

/// A replica and what its owner has on disk of it.
struct Machine {
    replica: Replica,
    file: Vec<u8>,
}

impl Machine {
    fn new(id: u32) -> Machine {
        Machine {
            replica: Replica::new(&setup(id)).unwrap(),
            file: Vec::new(),
        }
    }

    /// Appends what was committed since the last time; how many frames.
    fn append(&mut self) -> usize {
        let piece = self
            .replica
            .journal_since((self.file.len() / 50) as u32)
            .unwrap();
        self.file.extend(&piece);
        piece.len() / 50
    }

    /// Its journal is what all pieces make, and is read as the replica's own entries and totals.
    fn holds(&self) {
        let replica = &self.replica;
        assert_eq!(replica.journal_since(0), Ok(self.file.clone()));
        let journal = Journal::read(MEMBERS, &self.file).unwrap();
        let committed = replica.log().take(replica.commit_number() as usize);
        assert_eq!(journal.entries(), committed.collect::<Vec<_>>());
        let totals: Vec<u64> = (0..MEMBERS).map(|member| replica.total(member)).collect();
        assert_eq!(journal.totals(), totals);
    }
}

/// Delivers these frames and all that follow from them, and appends after each call. What the
/// replies say, and the longest piece.
fn deliver(machines: &mut [Machine; 3], first: Vec<(u8, Vec<u8>)>) -> (Vec<Outcome>, usize) {
    let mut network = first;
    let (mut outcomes, mut longest) = (Vec::new(), 0);
    while let Some((to, frame)) = network.pop() {
        let machine = &mut machines[usize::from(to)];
        let sent = machine.replica.on_message(&frame).unwrap();
        network.extend(sent.messages().map(|(to, frame)| (to, frame.to_vec())));
        outcomes.extend(sent.replies().map(|reply| reply.outcome));
        longest = longest.max(machine.append());
        machine.holds();
    }
    (outcomes, longest)
}

/// The primary's tick, so that the others hear what is committed.
fn heartbeat(machines: &mut [Machine; 3]) {
    let sent = machines[0].replica.on_idle().unwrap();
    let frames = Frames::new(sent.message_bytes()).map(|frame| (frame[6], frame.to_vec()));
    let frames = frames.collect();
    deliver(machines, frames);
}

#[test]
fn pieces_make_the_journal() {
    let mut machines = [Machine::new(0), Machine::new(1), Machine::new(2)];
    let mut desk = Client::new(3, 7).unwrap();
    let day = [
        (Operation::Fee, 0, 4500, Outcome::Fee),
        (Operation::Fee, 3, 1_000_000, Outcome::Fee),
        (Operation::Refund, 0, 1500, Outcome::Refund),
        (Operation::Ask, 3, 0, Outcome::Ask),
        (Operation::Fee, MEMBERS, 1, Outcome::NoMember),
        (Operation::Refund, 0, 3001, Outcome::PastTotal),
    ];
    for (operation, member, cents, outcome) in day {
        let asked = desk.on_request(operation, member, cents).unwrap();
        let frame = vec![(asked.to, asked.frame.to_vec())];
        assert_eq!(deliver(&mut machines, frame), (vec![outcome], 1));
    }
    heartbeat(&mut machines);
    for machine in &machines {
        assert_eq!(machine.file, machines[0].file);
        assert_eq!(machine.file.len(), 50 * day.len());
    }
}

/// A machine that missed everything gets it at once, and so appends one long piece.
#[test]
fn a_long_piece() {
    let mut machines = [Machine::new(0), Machine::new(1), Machine::new(2)];
    let mut desk = Client::new(3, 7).unwrap();
    for _ in 0..5 {
        let asked = desk.on_request(Operation::Fee, 1, 100).unwrap();
        machines[0].replica.on_message(asked.frame).unwrap();
        assert_eq!(machines[0].append(), 0, "nothing is committed yet");
    }
    let sent = machines[0].replica.on_idle().unwrap();
    let frames = Frames::new(sent.message_bytes()).filter(|frame| frame[6] == 1);
    let frames: Vec<_> = frames.map(|frame| (1, frame.to_vec())).collect();
    // The network hands out the last first: the Prepares in their order, then.
    let (outcomes, _) = deliver(&mut machines, frames.into_iter().rev().collect());
    assert_eq!(outcomes, [Outcome::Fee; 5]);
    let sent = machines[0].replica.on_idle().unwrap();
    let commit = sent.messages().find(|(to, _)| *to == 1).unwrap();
    let commit = vec![(1, commit.1.to_vec())];
    assert_eq!(deliver(&mut machines, commit).1, 5);
    assert_eq!(machines[1].file, machines[0].file);
}

#[test]
fn pieces_that_are_refused() {
    let mut machines = [Machine::new(0), Machine::new(1), Machine::new(2)];
    let mut desk = Client::new(3, 7).unwrap();
    let asked = desk.on_request(Operation::Fee, 1, 100).unwrap();
    deliver(&mut machines, vec![(0, asked.frame.to_vec())]);
    let replica = &machines[0].replica;
    assert_eq!(replica.journal_since(1), Ok(vec![]));
    for op in [2, 4096, 4097, u32::MAX] {
        assert_eq!(replica.journal_since(op), Err(Refusal::OutsideSizes));
    }
    let mut area = [0xa5; 60];
    let short = replica.journal_since_into(0, &mut area[..49]);
    assert_eq!((short, area), (Err(Refusal::MessagesDontFit), [0xa5; 60]));
    assert_eq!(replica.journal_since_into(0, &mut area), Ok(50));
    assert_eq!(
        (&area[..50], &area[50..]),
        (&machines[0].file[..], &[0xa5; 10][..])
    );
}

/// A commit number that no call produced takes no memory for what isn't there.
#[test]
fn a_commit_number_past_the_log() {
    let mut replica = Replica::new(&setup(0)).unwrap();
    replica.parts_mut().state[state::COMMIT_NUMBER..][..4].fill(0xff);
    assert_eq!(replica.journal_since(0), Err(Refusal::OutsideSizes));
}
