//! What a call of a case takes on each side.

use crate::cases::Case;
use crate::cluster::{Cluster, Round};
use crate::sides::{AsItIs, Framed, Ours, Side};
use std::time::Duration;

/// Nanoseconds a call on one side; none where that side doesn't have the case.
pub type Time = Option<f64>;

/// Through Whitherhaul, vsr-rs as it is, and vsr-rs with frames around it.
pub type Times = [Time; 3];

/// All rounds of a case, the sides in turn, by clusters of so many replicas.
pub fn compared(replicas: u8, case: Case, rounds: usize) -> Times {
    let mut ours = Cluster::<Ours>::new(replicas);
    let mut as_it_is = Cluster::<AsItIs>::new(replicas);
    let mut framed = Cluster::<Framed>::new(replicas);
    let mut played: [Vec<Round>; 3] = Default::default();
    for _ in 0..rounds {
        let sides = [ours.round(case), as_it_is.round(case), framed.round(case)];
        let mut standings = sides.iter().flatten().map(|round| &round.standings);
        let first = standings.next();
        assert!(standings.all(|other| Some(other) == first));
        for (played, round) in played.iter_mut().zip(sides) {
            played.extend(round);
        }
    }
    played.map(|rounds| each(&rounds))
}

/// All rounds of a case through one side.
pub fn alone<S: Side>(case: Case, rounds: usize) -> Time {
    let mut cluster = Cluster::<S>::new(3);
    let rounds: Vec<Round> = (0..rounds).filter_map(|_| cluster.round(case)).collect();
    each(&rounds)
}

/// What a call takes: of each piece the median over the rounds, and of these the mean.
fn each(rounds: &[Round]) -> Time {
    let first = rounds.first()?;
    let pieces = first.pieces.len();
    let sum: Duration = (0..pieces)
        .map(|piece| median(rounds.iter().map(|round| round.pieces[piece]).collect()))
        .sum();
    Some(sum.as_nanos() as f64 / pieces as f64 / f64::from(first.calls))
}

/// The middle one of some times.
pub fn median(mut took: Vec<Duration>) -> Duration {
    took.sort();
    took[took.len() / 2]
}

#[cfg(test)]
mod tests {
    use super::*;

    #[test]
    fn every_number_of_replicas_commits_a_request_alike() {
        let case = Case::Request {
            clients: 16,
            later: true,
        };
        for replicas in 3..=7 {
            assert!(compared(replicas, case, 1).iter().all(Time::is_some));
        }
    }

    #[test]
    fn only_ours_refuses() {
        let (entries, clients) = (64, 16);
        for case in [
            Case::Refused { entries, clients },
            Case::Malformed { entries },
        ] {
            let [ours, as_it_is, framed] = compared(3, case, 1);
            assert!(ours.is_some());
            assert_eq!((as_it_is, framed), (None, None));
        }
    }

    #[test]
    fn a_call_takes_the_mean_of_its_pieces_medians() {
        let round = |pieces: [u64; 2]| Round {
            pieces: pieces.map(Duration::from_nanos).to_vec(),
            calls: 10,
            standings: Vec::new(),
        };
        let rounds = [round([100, 900]), round([200, 300]), round([9_000, 100])];
        assert_eq!(each(&rounds), Some(25.0));
        assert_eq!(each(&[]), None);
    }
}
