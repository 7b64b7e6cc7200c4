//! A bad network: what is sent arrives one to six steps later, or twice, or never, and so it also overtakes.

use std::collections::BTreeMap;
use wire::random::Random;

/// The most steps that something is under way.
const SLOWEST: usize = 6;
/// How much of what arrives arrives once more, in percent.
pub const REPEATED: usize = 5;

/// How much was sent, and what became of it.
#[derive(Clone, Default, PartialEq, Eq)]
pub struct Traffic {
    pub sent: u64,
    pub lost: u64,
    pub repeated: u64,
}

/// What is under way, by the step at which it arrives.
pub struct Network<P> {
    pub random: Random,
    pub traffic: Traffic,
    loss: usize,
    under_way: BTreeMap<(u64, u64), P>,
}

impl<P: Clone> Network<P> {
    /// A network that loses `loss` percent.
    pub fn new(random: Random, loss: usize) -> Network<P> {
        Network {
            random,
            traffic: Traffic::default(),
            loss,
            under_way: BTreeMap::new(),
        }
    }

    /// Sends something at step `now`.
    pub fn send(&mut self, now: u64, parcel: P) {
        self.traffic.sent += 1;
        if self.random.chance(self.loss) {
            self.traffic.lost += 1;
            return;
        }
        if self.random.chance(REPEATED) {
            self.traffic.repeated += 1;
            let due = self.due(now);
            self.put(due, 0, parcel.clone());
        }
        let due = self.due(now);
        self.put(due, 1, parcel);
    }

    /// Sends one more parcel beside the last one. Its chance is the caller's, so that all others arrive as they would without it.
    pub fn send_beside(&mut self, now: u64, parcel: P, chance: &mut Random) {
        let due = now + 1 + chance.below(SLOWEST) as u64;
        self.put(due, 2, parcel);
    }

    /// A step at which something that is sent now arrives.
    fn due(&mut self, now: u64) -> u64 {
        now + 1 + self.random.below(SLOWEST) as u64
    }

    /// `copy` parts what goes out at one sending.
    fn put(&mut self, due: u64, copy: u64, parcel: P) {
        let place = 3 * self.traffic.sent + copy;
        self.under_way.insert((due, place), parcel);
    }

    /// Something that has arrived by step `now`.
    pub fn arrived(&mut self, now: u64) -> Option<P> {
        let first = self.under_way.first_entry()?;
        (first.key().0 <= now).then(|| first.remove())
    }
}
