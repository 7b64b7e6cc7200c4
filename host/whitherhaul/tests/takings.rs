//! The takings that a replica keeps, held against the addition of all totals after each call.
//! `takings_lent.rs` has those of memory that no call produced.

mod common;

use common::frames::{
    commit, do_view_change, new_state, prepare, prepare_ok, recovery_log, recovery_response,
    request, start_view,
};
use common::model::entry;
use whitherhaul::raw::{self, state, Memory};
use whitherhaul::{Client, Operation, Outcome, Refusal, Replica, Setup, Status};

const MEMBERS: u32 = 4;
const FEE: u8 = 1;
const REFUND: u8 = 2;
const ASK: u8 = 3;

fn setup(id: u32) -> Setup {
    Setup {
        replicas: 3,
        id,
        timeout: 3,
        room: 16,
        members: MEMBERS,
    }
}

/// A replica whose takings are asked for after each call.
struct Machine(Replica);

impl Machine {
    fn new(id: u32) -> Machine {
        let machine = Machine(Replica::new(&setup(id)).unwrap());
        machine.holds();
        machine
    }

    /// They are the addition of all totals, by the call and in the state's last bytes, and asking
    /// changes nothing.
    fn holds(&self) {
        let before = self.0.parts().clone();
        let members = 0..self.0.setup().members;
        let added: u64 = members.map(|member| self.0.total(member)).sum();
        assert_eq!(self.0.takings(), Ok(added));
        assert_eq!(before.state[state::TAKINGS..], added.to_be_bytes());
        assert!(*self.0.parts() == before, "asking changes a byte");
    }

    /// Hands it a frame that is refused or not; what it sent to others.
    fn given(&mut self, frame: &[u8]) -> Result<Vec<(u8, Vec<u8>)>, Refusal> {
        let sent = self.0.on_message(frame);
        let sent = sent.map(|sent| sent.messages().map(|(to, m)| (to, m.to_vec())).collect());
        self.holds();
        sent
    }

    /// Hands it frames that it takes, one after another; the takings after each.
    fn takings_after<const K: usize>(&mut self, frames: [Vec<u8>; K]) -> [u64; K] {
        frames.map(|frame| {
            self.given(&frame).unwrap();
            self.0.takings().unwrap()
        })
    }

    /// A tick; what it sent to others.
    fn tick(&mut self) -> Vec<(u8, Vec<u8>)> {
        let sent = self.0.on_idle().unwrap();
        let sent = sent.messages().map(|(to, m)| (to, m.to_vec())).collect();
        self.holds();
        sent
    }
}

#[test]
fn nothing_at_a_creation() {
    let spoiled = || {
        let mut memory = Memory::of(&setup(1));
        memory.state.fill(0xa5);
        memory.totals.fill(0xa5);
        memory
    };
    let (mut first, mut again) = (spoiled(), spoiled());
    assert_eq!(raw::create(&setup(1), &mut first), 0);
    assert_eq!(
        raw::recover(&setup(1), 4, 9, &mut again, &mut [0; 40]),
        (0, 40)
    );
    for memory in [first, again] {
        assert_eq!(raw::takings(&memory.state), (0, 0));
        assert_eq!(memory.state[state::TAKINGS..], [0; 8]);
    }
}

/// Fees and refunds that take effect change them, and nothing else does.
#[test]
fn a_primary() {
    let mut machine = Machine::new(0);
    let day = [
        (FEE, 0, 4500, Outcome::Fee, 4500),
        (FEE, 1, 250, Outcome::Fee, 4750),
        (REFUND, 0, 1500, Outcome::Refund, 3250),
        (ASK, 1, 0, Outcome::Ask, 3250),
        (FEE, MEMBERS, 100, Outcome::NoMember, 3250),
        (REFUND, u32::MAX, 100, Outcome::NoMember, 3250),
        (REFUND, 1, 251, Outcome::PastTotal, 3250),
        (REFUND, 1, 250, Outcome::Refund, 3000),
        (REFUND, 0, 3000, Outcome::Refund, 0),
        (REFUND, 0, 1, Outcome::PastTotal, 0),
        (FEE, 3, 1_000_000, Outcome::Fee, 1_000_000),
    ];
    let mut before = 0;
    for (op, (operation, member, cents, outcome, after)) in (1..).zip(day) {
        let asked = request(0, &entry(7, op.into(), operation, member, cents));
        assert_eq!(machine.takings_after([asked.clone()]), [before]);
        machine.given(&prepare_ok(0, 0, op, 1)).unwrap();
        assert_eq!(machine.0.outcome(op).unwrap().0, outcome);
        let again = [asked, prepare_ok(0, 0, op, 2), commit(0, 0, op)];
        assert_eq!(machine.takings_after(again), [after; 3]);
        before = after;
    }
    machine.tick();
}

#[test]
fn calls_that_are_refused() {
    let mut machine = Machine::new(0);
    let fee = request(0, &entry(7, 0, FEE, 0, 4500));
    machine.given(&fee).unwrap();
    let short = machine
        .0
        .on_message_into(&prepare_ok(0, 0, 1, 1), &mut [], &mut [0; 35]);
    assert_eq!(short, Err(Refusal::RepliesDontFit));
    machine.holds();
    assert_eq!(machine.0.takings(), Ok(0));
    machine.given(&prepare_ok(0, 0, 1, 1)).unwrap();
    let length = fee.len() - 1;
    let cut = Refusal::Malformed {
        offset: length,
        length,
    };
    let altered = start_view(0, 1, 1, &entry(7, 0, FEE, 0, 4501));
    for (frame, refusal) in [
        (&fee[..length], cut),
        (&prepare_ok(1, 0, 1, 2), Refusal::WrongReplica),
        (&prepare_ok(0, 0, 17, 1), Refusal::PastRoom),
        (&altered, Refusal::CommittedAltered),
    ] {
        assert_eq!(machine.given(frame), Err(refusal));
        assert_eq!(machine.0.takings(), Ok(4500));
    }
}

/// Entries that are replaced were never counted; the committed ones stay counted, once.
#[test]
fn an_install() {
    let mut machine = Machine::new(2);
    let [first, lost, kept] = [100, 50, 70].map(|cents| entry(cents, 0, FEE, 1, cents));
    let log = [first.clone(), kept].concat();
    let frames = [
        prepare(2, 0, 1, 0, &first),
        prepare(2, 0, 2, 1, &lost),
        start_view(2, 1, 1, &log),
        commit(2, 1, 2),
        start_view(2, 4, 2, &log),
    ];
    assert_eq!(machine.takings_after(frames), [0, 100, 100, 170, 170]);
}

/// A total at its limit: 1,000 fees that one frame commits, then one that is refused by the rules.
#[test]
fn past_the_limit() {
    let room = 1002;
    let mut machine = Machine(Replica::new(&Setup { room, ..setup(2) }).unwrap());
    let fees: Vec<u8> = (0..1000)
        .flat_map(|number| entry(7, number, FEE, 0, 1_000_000))
        .collect();
    let frames = [
        start_view(2, 1, 1000, &fees),
        prepare(2, 1, 1001, 1001, &entry(7, 1000, FEE, 0, 1)),
        prepare(2, 1, 1002, 1002, &entry(7, 1001, FEE, 1, 1)),
    ];
    let full = 1_000_000_000;
    assert_eq!(machine.takings_after(frames), [full, full, full + 1]);
    assert_eq!(machine.0.outcome(1001), Some((Outcome::PastLimit, full)));
}

/// State transfer, with both uses of a NewState: a gap that is filled, and a view that has begun.
#[test]
fn a_transfer() {
    let mut machine = Machine::new(1);
    let [a, b, c] = [1, 2, 4].map(|cents| entry(cents, 0, FEE, 2, cents));
    let frames = [
        prepare(1, 0, 2, 1, &b),
        new_state(1, 0, 0, 2, &[a.clone(), b].concat()),
        commit(1, 2, 2),
        new_state(1, 2, 2, 3, &c),
    ];
    assert_eq!(machine.takings_after(frames), [0, 3, 3, 7]);
    assert_eq!(machine.0.status(), Status::Normal);
}

/// A quorum of DoViewChanges installs a log and commits what was committed elsewhere.
#[test]
fn a_quorum() {
    let mut machine = Machine::new(1);
    let [a, b] = [1, 2].map(|cents| entry(cents, 0, FEE, 2, cents));
    let log = [a.clone(), b].concat();
    let votes = [
        do_view_change(1, 1, 0, 2, &log),
        do_view_change(1, 1, 2, 1, &a),
    ];
    assert_eq!(machine.takings_after(votes), [0, 3]);
    assert_eq!(machine.0.status(), Status::Normal);
}

/// 0 as long as nothing is committed, then what the others have.
#[test]
fn a_recovery() {
    let mut machine = Machine(Replica::recover(&setup(1), 3, 9).unwrap());
    machine.holds();
    machine.tick();
    let log: Vec<u8> = [(0, FEE, 900), (1, REFUND, 200), (2, FEE, 5)]
        .into_iter()
        .flat_map(|(number, operation, cents)| entry(7, number, operation, 3, cents))
        .collect();
    let frames = [
        recovery_response(1, 3, 9, 2),
        recovery_log(1, 3, 9, 0, 2, &log),
        commit(1, 3, 3),
    ];
    assert_eq!(machine.takings_after(frames), [0, 700, 705]);
}

/// Delivers these frames and all that follow from them; what goes to `down` is lost.
fn deliver(machines: &mut [Machine; 3], first: Vec<(u8, Vec<u8>)>, down: Option<u8>) {
    let mut network = first;
    while let Some((to, frame)) = network.pop() {
        if Some(to) != down {
            network.extend(machines[usize::from(to)].given(&frame).unwrap());
        }
    }
}

/// Three machines: the leader crashes and comes back, and a charge is sent again.
#[test]
fn a_day_with_a_crash() {
    let mut machines = [Machine::new(0), Machine::new(1), Machine::new(2)];
    let mut desk = Client::new(3, 7).unwrap();
    for (operation, cents) in [(Operation::Fee, 4500), (Operation::Refund, 500)] {
        let asked = desk.on_request(operation, 3, cents).unwrap();
        let asked = vec![(asked.to, asked.frame.to_vec())];
        deliver(&mut machines, asked, None);
    }
    machines[0] = Machine(Replica::recover(&setup(0), 0, 9).unwrap());
    machines[0].holds();
    for _ in 0..4 {
        let sent = machines[1].tick();
        deliver(&mut machines, sent, Some(0));
    }
    assert_eq!(
        (machines[1].0.status(), machines[1].0.view()),
        (Status::Normal, 1)
    );
    let recovering = machines[0].tick();
    deliver(&mut machines, recovering, None);
    let again = desk.on_idle().unwrap();
    let again = again.map(|(to, frame)| (to, frame.to_vec())).collect();
    deliver(&mut machines, again, None);
    let heartbeat = machines[1].tick();
    deliver(&mut machines, heartbeat, None);
    let takings = [0, 1, 2].map(|id| machines[id].0.takings());
    assert_eq!(takings, [Ok(4000); 3]);
}
