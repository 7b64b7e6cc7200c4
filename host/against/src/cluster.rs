//! A cluster under a bad network: loss, repeats, reordering, replicas cut off for a while, crashes with recovery. Every replica is a
//! pair, and the frames are those that the library wrote. Of a damaged cluster some frames are damaged on their way.

use crate::counts::Counts;
use crate::damage::damaged;
use crate::pair::Pair;
use crate::play::{clients, end, give, sizes, Fault, Found};
use schedules::adversary::cents;
use schedules::rust::{Setup, Start};
use whitherhaul::Frames;
use wire::fees::{Entry, ASK, FEE, REFUND};
use wire::frames::{frame, request};
use wire::random::Random;

/// The cluster and what is under way in it.
struct Cluster<'a> {
    random: &'a mut Random,
    counts: &'a mut Counts,
    replicas: Vec<Pair>,
    network: Vec<Vec<u8>>,
    clients: Vec<u64>,
    requests: Vec<Option<Entry>>,
    cut_off: Option<usize>,
    nonce: u64,
    damage: usize,
    lost: usize,
}

/// Plays one; so many of a hundred frames are damaged.
pub fn play(random: &mut Random, counts: &mut Counts, damage: usize) -> Result<(), Fault> {
    let setup = sizes(random);
    let mut replicas = Vec::new();
    for id in 0..setup.n {
        replicas.push(made(Setup { id, ..setup }, Start::New)?.0);
        counts.creations += 1;
    }
    let lost = random.pick(&[0, 5, 10, 20]);
    let mut clients = clients(random);
    clients.sort();
    clients.dedup();
    let mut cluster = Cluster {
        random,
        counts,
        replicas,
        network: Vec::new(),
        requests: vec![None; clients.len()],
        clients,
        cut_off: None,
        nonce: 0,
        damage,
        lost,
    };
    let steps = if setup.room > 8 { 200 } else { 50 };
    for _ in 0..steps * setup.n {
        cluster.step()?;
    }
    let Cluster {
        random,
        counts,
        mut replicas,
        ..
    } = cluster;
    for pair in &mut replicas {
        end(random, pair, counts)?;
    }
    Ok(())
}

fn made(setup: Setup, start: Start) -> Result<(Pair, Vec<u8>), Fault> {
    Pair::new(setup, start).map_err(|text| Fault {
        text: format!("{text} ({setup:?}, {start:?})"),
        found: Found::Creation,
    })
}

impl Cluster<'_> {
    /// One thing that happens.
    fn step(&mut self) -> Result<(), Fault> {
        match self.random.below(200) {
            0..=13 => {
                self.ask();
                Ok(())
            }
            14..=30 => self.tick(),
            31 => self.crash(),
            32..=34 => {
                self.cut();
                Ok(())
            }
            _ if self.network.is_empty() => self.tick(),
            _ => self.deliver(),
        }
    }

    fn some(&mut self) -> usize {
        self.random.below(self.replicas.len())
    }

    /// A client sends a new request, or its latest one again, to every replica.
    fn ask(&mut self) {
        let client = self.random.below(self.clients.len());
        let again = self.random.chance(40);
        let entry = match self.requests[client] {
            Some(entry) if again => entry,
            latest => self.request(client, latest),
        };
        self.requests[client] = Some(entry);
        let request = request(entry.logged());
        for id in 0..self.replicas.len() {
            self.network.push(frame(id, &request));
        }
    }

    /// A new request of a client.
    fn request(&mut self, client: usize, latest: Option<Entry>) -> Entry {
        let operation = self.random.pick(&[FEE, FEE, REFUND, ASK]);
        let members = self.replicas[0].case.setup.members;
        Entry {
            client: self.clients[client],
            request: latest.map_or(0, |entry| entry.request + 1),
            operation,
            member: self.random.below(members + 1) as u32,
            cents: cents(self.random, operation),
        }
    }

    fn tick(&mut self) -> Result<(), Fault> {
        let id = self.some();
        self.give(id, None)
    }

    /// A call of a replica; what it sends goes to the network unless it is cut off. Old messages give way to new ones.
    fn give(&mut self, id: usize, frame: Option<Vec<u8>>) -> Result<(), Fault> {
        give(self.random, &mut self.replicas[id], frame, self.counts)?;
        if self.cut_off != Some(id) {
            let sent = Frames::new(self.replicas[id].sent());
            self.network.extend(sent.map(<[u8]>::to_vec));
        }
        self.thin();
        Ok(())
    }

    fn thin(&mut self) {
        while self.network.len() > 8 * self.replicas.len() {
            let place = self.random.below(self.network.len());
            self.network.swap_remove(place);
        }
    }

    /// Some replica loses its memory but for the view number, and recovers.
    fn crash(&mut self) -> Result<(), Fault> {
        let id = self.some();
        self.nonce += 1;
        let view = self.replicas[id].rust.replica.view_number();
        let nonce = self.nonce;
        let (pair, sent) = made(self.replicas[id].case.setup, Start::Back { view, nonce })?;
        self.counts.creations += 1;
        let mut ended = std::mem::replace(&mut self.replicas[id], pair);
        self.network.extend(Frames::new(&sent).map(<[u8]>::to_vec));
        self.thin();
        end(self.random, &mut ended, self.counts)
    }

    /// Another replica is cut off, or none.
    fn cut(&mut self) {
        let id = self.some();
        self.cut_off = match self.cut_off {
            Some(_) => None,
            None => Some(id),
        };
    }

    /// Any message of the network arrives, or is lost; some stay to arrive again.
    fn deliver(&mut self) -> Result<(), Fault> {
        let place = self.random.below(self.network.len());
        let mut frame = if self.random.chance(12) {
            self.network[place].clone()
        } else {
            self.network.swap_remove(place)
        };
        let id = usize::from(frame[6]);
        if self.random.chance(self.lost) || self.cut_off == Some(id) {
            return Ok(());
        }
        if self.random.chance(self.damage) {
            frame = damaged(self.random, frame);
        }
        self.give(id, Some(frame))
    }
}
