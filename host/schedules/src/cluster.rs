//! A cluster under a bad network: loss, repeats, reordering, replicas cut off for a while, crashes with recovery.

use crate::adversary::cents;
use crate::run::{Answer, Call, Run, Setup, Start};
use wire::fees::{Entry, ASK, FEE, REFUND};
use wire::frames::{request, Fees};
use wire::random::Random;

const ROOM: usize = 8;
const MEMBERS: usize = 4;
const CLIENTS: usize = 3;

/// The cluster and what is under way in it.
struct Cluster<'a> {
    random: &'a mut Random,
    replicas: Vec<Run>,
    ended: Vec<Run>,
    network: Vec<(usize, Fees)>,
    requests: [Option<Entry>; CLIENTS],
    cut_off: Option<usize>,
    nonce: u64,
}

/// Plays a cluster of `n` for so many steps; hands back the run of each replica, and of each that crashed.
pub fn cluster(random: &mut Random, n: usize, steps: usize) -> Vec<Run> {
    let timeout = 1 + random.below(3);
    let new = |id| {
        let setup = Setup {
            n,
            id,
            timeout,
            room: ROOM,
            members: MEMBERS,
        };
        Run::new(setup, Start::New).0
    };
    let mut cluster = Cluster {
        random,
        replicas: (0..n).map(new).collect(),
        ended: Vec::new(),
        network: Vec::new(),
        requests: [None; CLIENTS],
        cut_off: None,
        nonce: 0,
    };
    for _ in 0..steps {
        cluster.step();
    }
    let Cluster {
        mut ended,
        replicas,
        ..
    } = cluster;
    ended.extend(replicas);
    ended
}

impl Cluster<'_> {
    /// One thing that happens.
    fn step(&mut self) {
        match self.random.below(100) {
            0..=5 => self.ask(),
            6..=15 => self.tick(),
            16 => self.crash(),
            17..=18 => self.cut(),
            _ if self.network.is_empty() => self.tick(),
            _ => self.deliver(),
        }
    }

    /// Some replica.
    fn some(&mut self) -> usize {
        self.random.below(self.replicas.len())
    }

    /// A client sends a new request, or its latest one again, to every replica.
    fn ask(&mut self) {
        let client = self.random.below(CLIENTS);
        let again = self.random.chance(40);
        let entry = match self.requests[client] {
            Some(entry) if again => entry,
            latest => self.request(client, latest),
        };
        self.requests[client] = Some(entry);
        for id in 0..self.replicas.len() {
            self.network.push((id, request(entry.logged())));
        }
    }

    /// A new request of a client.
    fn request(&mut self, client: usize, latest: Option<Entry>) -> Entry {
        let operation = self.random.pick(&[FEE, FEE, REFUND, ASK]);
        Entry {
            client: 7 + client as u64,
            request: latest.map_or(0, |entry| entry.request + 1),
            operation,
            member: self.random.below(MEMBERS + 1) as u32,
            cents: cents(self.random, operation),
        }
    }

    /// Some replica is told that time has passed.
    fn tick(&mut self) {
        let id = self.some();
        let answer = self.replicas[id].call(Call::Tick);
        self.send(id, answer);
    }

    /// Some replica loses its memory but for the view number, and recovers.
    fn crash(&mut self) {
        let id = self.some();
        self.nonce += 1;
        let view = self.replicas[id].rust.replica.view_number();
        let start = Start::Back {
            view,
            nonce: self.nonce,
        };
        let (run, answer) = Run::new(self.replicas[id].rust.setup, start);
        self.ended
            .push(std::mem::replace(&mut self.replicas[id], run));
        self.send(id, answer);
    }

    /// Another replica is cut off, or none.
    fn cut(&mut self) {
        let id = self.some();
        self.cut_off = if self.cut_off.is_some() {
            None
        } else {
            Some(id)
        };
    }

    /// Any message of the network arrives; one in ten is lost, one in eight stays to arrive again.
    fn deliver(&mut self) {
        let place = self.random.below(self.network.len());
        let (id, message) = if self.random.chance(12) {
            self.network[place].clone()
        } else {
            self.network.swap_remove(place)
        };
        if self.random.chance(10) || self.cut_off == Some(id) {
            return;
        }
        let answer = self.replicas[id].frame(message);
        self.send(id, answer);
    }

    /// What replica `id` sends goes to the network, unless it is cut off. Old messages give way to new ones.
    fn send(&mut self, id: usize, answer: Answer) {
        if self.cut_off != Some(id) {
            self.network.extend(answer.messages);
        }
        while self.network.len() > 6 * self.replicas.len() {
            let place = self.random.below(self.network.len());
            self.network.swap_remove(place);
        }
    }
}
