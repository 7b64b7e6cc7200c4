//! Whole days.

use crate::clubs::List;
use crate::day::{play, Evening};
use crate::ledgers::look;
use crate::library::Library;
use crate::ours::Whitherhaul;
use crate::teller::Teller;
use demo_options::Options;
use wire::random::Random;

fn evening<L: Library>(seed: u64, damage: u64) -> (Evening<L>, Vec<String>) {
    let options = Options {
        seed,
        loss: 10,
        desks: 3,
        requests: 60,
        damage,
        journal: None,
    };
    let list = List::new(options.requests, &mut Random::new(seed));
    let evening = play::<L>(&options, &list, Teller::new(L::NAME, false), None);
    let wrong = look(&list, &evening).wrong;
    (evening, wrong)
}

#[test]
fn every_machine_says_the_takings_of_the_list() {
    for seed in 1..=5 {
        let (evening, _) = evening::<Whitherhaul>(seed, 0);
        let list = List::new(60, &mut Random::new(seed));
        let due = list.totals.iter().sum();
        let said = evening
            .replicas
            .iter()
            .map(|(_, replica)| replica.takings());
        assert_eq!(said.collect::<Vec<_>>(), [Ok(due); 3]);
    }
}

#[test]
fn damage_changes_nothing_of_the_day() {
    for seed in 1..=5 {
        let (without, _) = evening::<Whitherhaul>(seed, 0);
        let (with, wrong) = evening::<Whitherhaul>(seed, 50);
        assert!(with.tally.arrived() > 100);
        assert_eq!(wrong, [""; 0]);
        assert_eq!(with.tally.wrong(), [""; 0]);
        assert!(with.counts == without.counts);
        for (one, other) in with.replicas.iter().zip(&without.replicas) {
            assert_eq!(one.1.parts(), other.1.parts());
        }
    }
}

#[cfg(feature = "vsr-rs")]
#[test]
fn both_days_are_the_same_without_damage() {
    for seed in 1..=5 {
        let (ours, wrong) = evening::<Whitherhaul>(seed, 0);
        let (theirs, _) = evening::<crate::theirs::VsrRs>(seed, 0);
        assert_eq!(wrong, [""; 0]);
        assert!(ours.counts == theirs.counts);
    }
}

#[cfg(feature = "vsr-rs")]
#[test]
fn a_damaged_day_of_vsr_rs_ends() {
    crate::stops::silence();
    let stops = |seed| evening::<crate::theirs::VsrRs>(seed, 50).0.tally.stops();
    assert!((1..=5).map(stops).sum::<u64>() > 0);
}
