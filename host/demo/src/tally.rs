//! What damaged frames did to the replicas of a day, counted.

use crate::damage::Damage;
use crate::words::count;
use std::collections::BTreeMap;
use whitherhaul::Refusal;

/// What a damaged frame did.
#[derive(Clone, Copy, Debug, PartialEq, Eq, PartialOrd, Ord)]
pub enum Did {
    /// It was refused by this number, and no byte of the replica changed.
    Refused(u8),
    /// It was refused by this number, and the replica changed.
    Altered(u8),
    Stopped,
    /// The replica stands otherwise than before, or sent something.
    Acted,
    /// Neither.
    Passed,
    Dropped,
}

impl Did {
    /// For the table, behind a number.
    pub fn words(self) -> String {
        match self {
            Did::Refused(number) => format!("refused by {number}"),
            Did::Altered(number) => format!("by {number}, CHANGED"),
            Did::Stopped => String::from("stopped the machine"),
            Did::Acted => String::from("acted on"),
            Did::Passed => String::from("no effect seen"),
            Did::Dropped => String::from("dropped by the reader"),
        }
    }
}

/// The damaged frames that reached a running replica, and the calls that panicked.
#[derive(Default)]
pub struct Tally {
    pub did: BTreeMap<(Damage, Did), u64>,
    /// Calls that panicked though nothing was wrong with what they were given.
    pub later: u64,
    /// The first refusal of each number that changed no byte. One of a malformed frame says which byte is wrong.
    pub refusals: BTreeMap<u8, Refusal>,
    /// What the first panic of each damage said, and the first of the later ones.
    pub panics: BTreeMap<Option<Damage>, String>,
}

impl Tally {
    /// Counts a damaged frame; whether it is the first of which this is told.
    pub fn add(&mut self, damage: Damage, did: Did) -> bool {
        let times = self.did.entry((damage, did)).or_default();
        *times += 1;
        *times == 1
    }

    /// Notes why a damaged frame was refused.
    pub fn refused(&mut self, why: Refusal) {
        self.refusals.entry(why.number()).or_insert(why);
    }

    /// Notes why a machine stopped: at a damaged frame, or later.
    pub fn stopped(&mut self, damage: Option<Damage>, why: &str) {
        self.later += u64::from(damage.is_none());
        let first = self.panics.entry(damage);
        first.or_insert_with(|| String::from(why));
    }

    /// How many damaged frames reached a running replica.
    pub fn arrived(&self) -> u64 {
        self.did.values().sum()
    }

    /// How often a machine stopped.
    pub fn stops(&self) -> u64 {
        let at_once = self.did.iter().filter(|((_, did), _)| *did == Did::Stopped);
        at_once.map(|(_, times)| times).sum::<u64>() + self.later
    }

    /// What each damage did, and how often.
    pub fn of(&self, damage: Damage) -> impl Iterator<Item = (Did, u64)> + '_ {
        let of_it = self.did.iter().filter(move |((of, _), _)| *of == damage);
        of_it.map(|((_, did), times)| (*did, *times))
    }

    /// What a library that keeps to document 01 doesn't do: it refuses each damaged frame by its number and never stops.
    pub fn wrong(&self) -> Vec<String> {
        let mut wrong = Vec::new();
        for ((damage, did), times) in &self.did {
            if *did != Did::Refused(damage.refusal()) {
                let times = count(*times, "time", "times");
                let (words, did) = (damage.words(), did.words());
                wrong.push(format!("{times} a frame with {words}: {did}"));
            }
        }
        if self.later > 0 {
            let why = &self.panics[&None];
            let times = count(self.later, "time", "times");
            wrong.push(format!("a machine stopped {times}: {why}"));
        }
        wrong
    }
}

#[cfg(test)]
mod tests {
    use super::*;

    #[test]
    fn only_the_right_refusal_is_right() {
        let mut tally = Tally::default();
        assert!(tally.add(Damage::Op, Did::Refused(4)));
        assert!(!tally.add(Damage::Op, Did::Refused(4)));
        assert!(tally.wrong().is_empty());
        let others = [Did::Refused(5), Did::Altered(4), Did::Acted, Did::Passed];
        for did in others {
            assert!(tally.add(Damage::Op, did));
        }
        tally.add(Damage::Commit, Did::Stopped);
        tally.stopped(Some(Damage::Commit), "at once");
        tally.stopped(None, "later");
        assert_eq!(tally.wrong().len(), 6);
        assert_eq!((tally.arrived(), tally.stops()), (7, 2));
    }
}
