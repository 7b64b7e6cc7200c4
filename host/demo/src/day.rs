//! The day: desks send the renewal list to three replicas over a bad network, and machines crash and come back.
//!
//! Time goes in steps. Every choice comes from one generator, so a library that sends the same gets the same day.

use crate::clubs::{Charge, List};
use crate::damage::Damage;
use crate::journals::Journals;
use crate::library::{Library, Standing};
use crate::machines::Machine;
use crate::network::{Network, Traffic};
use crate::tally::Tally;
use crate::teller::Teller;
use crate::words::{charges, count};
use demo_options::Options;
use std::collections::BTreeMap;
use whitherhaul::{Operation, Outcome, Reply};
use wire::random::Random;

pub const REPLICAS: u8 = 3;
/// Steps from one idle period of a replica to the next.
const IDLE: u64 = 4;
/// Steps that a desk waits for an answer before it sends its charge again.
const PATIENCE: u64 = 24;
/// How often a machine crashes, on a list that is long enough.
const CRASHES: u64 = 4;
/// Steps without a majority after which the day is given up.
const FORLORN: u64 = 2_000;
/// Steps after which it is said how far the day is, also where nothing happens.
const LONG: u64 = 20_000;

/// What goes over the network.
#[derive(Clone)]
pub enum Parcel<M> {
    Message(u8, M),
    /// A damaged copy of a message: for whom, what is wrong with it, what kind it was, and its bytes.
    Damaged(u8, Damage, &'static str, Vec<u8>),
    Reply(Reply),
}

/// A desk: its part of the list, how much of it is done, and which number it waits for since when.
struct Desk<L: Library> {
    side: L::Desk,
    charges: Vec<usize>,
    done: usize,
    waits: Option<(u64, u64)>,
}

/// What was counted.
#[derive(Clone, Default, PartialEq, Eq)]
pub struct Counts {
    pub steps: u64,
    pub traffic: Traffic,
    pub resent: u64,
    pub views: u64,
    pub crashes: u64,
    pub recoveries: u64,
    pub refused: u64,
}

/// A day in play.
pub struct Day<'a, L: Library> {
    pub options: &'a Options,
    list: &'a List,
    pub teller: Teller,
    pub machines: Vec<Machine<L>>,
    desks: Vec<Desk<L>>,
    pub network: Network<Parcel<L::Message>>,
    pub counts: Counts,
    pub tally: Tally,
    /// What damage takes from chance, so that the rest of a day is the same without it.
    pub ill_luck: Random,
    answered: usize,
    pub wrong: Vec<String>,
    /// At how many committed charges machines crash, the next one last.
    pub crashes: Vec<u64>,
    /// The most that any replica has committed, and its takings then.
    pub committed: u64,
    pub takings: u64,
    /// The last step at which a majority was there.
    majority: u64,
    pub asked_view: u32,
    pub begun_view: u32,
}

/// What is left of the day.
pub struct Evening<L: Library> {
    /// The replicas that run, with their ids.
    pub replicas: Vec<(usize, L::Replica)>,
    pub counts: Counts,
    pub tally: Tally,
    /// Which line of the list each charge is, by client and number.
    pub lines: BTreeMap<(u64, u64), usize>,
    /// What wasn't as it has to be, in words.
    pub wrong: Vec<String>,
}

/// Plays the day to its end, or until a large number of steps is over, or many without a majority. Where there are journals, each
/// machine keeps its own.
pub fn play<L: Library>(
    options: &Options,
    list: &List,
    teller: Teller,
    journals: Option<&Journals>,
) -> Evening<L> {
    let mut day = Day::<L>::new(options, list, teller, journals);
    let most = 100_000 + 2_000 * options.requests;
    while !day.over() && !day.forlorn() && day.counts.steps < most {
        day.step();
    }
    if !day.over() {
        day.missing();
    }
    day.evening()
}

impl<'a, L: Library> Day<'a, L> {
    fn new(
        options: &'a Options,
        list: &'a List,
        teller: Teller,
        journals: Option<&Journals>,
    ) -> Day<'a, L> {
        let mut random = Random::new(options.seed);
        let crashes = crashes(options.requests, &mut random);
        let desk = |place| desk(place, options.desks, list);
        let machine = |id| Machine::new(id, list, journals);
        Day {
            options,
            list,
            teller,
            machines: (0..REPLICAS).map(machine).collect(),
            desks: (0..options.desks).map(desk).collect(),
            network: Network::new(random, options.loss as usize),
            counts: Counts::default(),
            tally: Tally::default(),
            ill_luck: Random::new(!options.seed),
            answered: 0,
            wrong: Vec::new(),
            crashes,
            committed: 0,
            takings: 0,
            majority: 0,
            asked_view: 0,
            begun_view: 0,
        }
    }

    /// Whether every charge is answered, and committed by every replica.
    fn over(&self) -> bool {
        let settled = |standing: Standing| {
            standing.normal() && standing.commit_number == self.options.requests
        };
        let mut standings = self.machines.iter().map(Machine::standing);
        self.answered == self.list.charges.len() && standings.all(|s| s.is_some_and(settled))
    }

    /// Whether too few replicas have been there for too long. Those that recover need a majority that doesn't.
    fn forlorn(&self) -> bool {
        self.counts.steps - self.majority > FORLORN
    }

    /// Notes whether a majority is there.
    fn count_heads(&mut self) {
        let there = |machine: &&Machine<L>| machine.standing().is_some_and(|s| !s.recovering());
        if 2 * self.machines.iter().filter(there).count() > usize::from(REPLICAS) {
            self.majority = self.counts.steps;
        }
    }

    fn step(&mut self) {
        self.counts.steps += 1;
        while let Some(parcel) = self.network.arrived(self.counts.steps) {
            match parcel {
                Parcel::Message(to, message) => self.call(to, |r| L::on_message(r, &message)),
                Parcel::Damaged(to, damage, name, frame) => self.arrives(to, damage, name, &frame),
                Parcel::Reply(reply) => self.answer(&reply),
            }
        }
        for id in 0..REPLICAS {
            if self.counts.steps % IDLE == u64::from(id) {
                self.call(id, L::on_idle);
            }
        }
        for place in 0..self.desks.len() {
            self.desk(place);
        }
        self.come_back();
        self.crash();
        self.count_heads();
        if self.counts.steps % LONG == LONG - 1 {
            self.progress();
        }
        self.teller
            .alive(&self.counts, self.committed, self.options.requests);
    }

    pub fn send(&mut self, parcel: Parcel<L::Message>) {
        let now = self.counts.steps;
        let copy = self.copy_of(&parcel);
        self.network.send(now, parcel);
        if let Some(copy) = copy {
            self.network.send_beside(now, copy, &mut self.ill_luck);
        }
    }

    pub fn progress(&mut self) {
        let so_far = (self.committed, self.takings);
        self.teller
            .progress(&self.counts, so_far, self.options.requests);
    }

    /// A desk sends its next charge, or again the one that waits.
    fn desk(&mut self, place: usize) {
        let now = self.counts.steps;
        let desk = &mut self.desks[place];
        let Some(line) = desk.charges.get(desk.done) else {
            return;
        };
        let charge = &self.list.charges[*line];
        let messages = match desk.waits {
            None => {
                let (number, message) = L::request(&mut desk.side, charge);
                desk.waits = Some((number, now));
                vec![message]
            }
            Some((number, since)) if since + PATIENCE <= now => {
                desk.waits = Some((number, now));
                self.counts.resent += 1;
                self.teller.resent(&self.counts, place, number, charge);
                L::again(&mut desk.side)
            }
            Some(_) => return,
        };
        for (to, message) in messages {
            self.send(Parcel::Message(to, message));
        }
    }

    /// A reply comes to its desk. Of one charge every reply has to say the same, however often it comes.
    fn answer(&mut self, reply: &Reply) {
        let place = reply.client.wrapping_sub(1) as usize;
        let desk = self.desks.get_mut(place);
        let line = desk.as_ref().and_then(|desk| {
            let line = desk.charges.get(reply.request as usize);
            line.copied()
        });
        let (Some(desk), Some(line)) = (desk, line) else {
            self.wrong.push(format!("a reply to no charge: {reply:?}"));
            return;
        };
        let total = self.list.after[line];
        if !took(&self.list.charges[line], reply.outcome) || reply.total != total {
            let line = format!("line {line} of the list was answered {reply:?}, not total {total}");
            self.wrong.push(line);
        }
        if L::on_reply(&mut desk.side, reply) {
            desk.waits = None;
            desk.done += 1;
            self.answered += 1;
        }
    }

    /// Says what is missing at the end of the steps.
    fn missing(&mut self) {
        if self.forlorn() {
            let steps = count(FORLORN, "step", "steps");
            self.wrong.push(format!(
                "no majority is left: for {steps} most replicas were down or recovering"
            ));
        }
        self.wrong.push(format!(
            "the day was given up after {}: {} of {} answered",
            count(self.counts.steps, "step", "steps"),
            self.answered,
            charges(self.options.requests)
        ));
        self.wrong.extend(self.machines.iter().map(Machine::told));
    }

    fn evening(self) -> Evening<L> {
        let mut lines = BTreeMap::new();
        for (place, desk) in self.desks.iter().enumerate() {
            for (number, line) in desk.charges.iter().enumerate() {
                lines.insert((place as u64 + 1, number as u64), *line);
            }
        }
        let machines = self.machines.into_iter().enumerate();
        Evening {
            replicas: machines
                .filter_map(|(id, machine)| Some((id, machine.runs.ok()?)))
                .collect(),
            tally: self.tally,
            counts: Counts {
                traffic: self.network.traffic,
                ..self.counts
            },
            lines,
            wrong: self.wrong,
        }
    }
}

/// How often a machine crashes on a list of so many charges.
pub fn crashes_of(requests: u64) -> u64 {
    CRASHES.min(requests / 10)
}

/// At how many committed charges machines crash, the first one last.
fn crashes(requests: u64, random: &mut Random) -> Vec<u64> {
    let crashes = crashes_of(requests);
    let apart = requests / (crashes + 1);
    let within = (apart.max(2) / 2) as usize;
    let at = (1..=crashes).map(|k| k * apart + random.below(within) as u64);
    let mut at: Vec<u64> = at.collect();
    at.reverse();
    at
}

/// A desk takes the charges of its own members, so that those of one member go out in the list's order.
fn desk<L: Library>(place: u64, desks: u64, list: &List) -> Desk<L> {
    let own = |line: &usize| u64::from(list.charges[*line].member) % desks == place;
    Desk {
        side: L::desk(REPLICAS.into(), place + 1),
        charges: (0..list.charges.len()).filter(own).collect(),
        done: 0,
        waits: None,
    }
}

/// Whether this outcome says that the charge was taken.
fn took(charge: &Charge, outcome: Outcome) -> bool {
    outcome
        == match charge.operation {
            Operation::Fee => Outcome::Fee,
            Operation::Refund => Outcome::Refund,
            Operation::Ask => Outcome::Ask,
        }
}
