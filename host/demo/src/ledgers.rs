//! The ledgers of the evening, looked at: every charge of the list exactly once in each, and the totals of plain addition.

use crate::clubs::{club_of, List, CLUBS};
use crate::day::{Evening, REPLICAS};
use crate::library::Library;
use crate::words::{count, money};
use std::collections::BTreeMap;
use whitherhaul::{Entry, Refusal};

/// What the three ledgers come to.
pub struct Ledgers {
    /// Takings of each club of `CLUBS`, by the first replica's ledger.
    pub takings: [u64; CLUBS.len()],
    /// All takings, as the first replica answers them.
    pub together: u64,
    /// The members' totals, and the applied entries, by the first replica's ledger.
    pub totals: Vec<u64>,
    pub applied: Vec<Entry>,
    /// What isn't as it has to be.
    pub wrong: Vec<String>,
}

/// Looks at every ledger that is there.
pub fn look<L: Library>(list: &List, evening: &Evening<L>) -> Ledgers {
    let mut wrong = evening.wrong.clone();
    if evening.replicas.len() != usize::from(REPLICAS) {
        let run = evening.replicas.len() as u64;
        let run = count(run, "replica runs", "replicas run");
        wrong.push(format!("only {run}"));
    }
    let ledgers: Vec<_> = evening
        .replicas
        .iter()
        .map(|(id, replica)| {
            let members = 0..list.members;
            let totals: Vec<u64> = members.map(|member| L::total(replica, member)).collect();
            (*id, L::applied(replica), totals)
        })
        .collect();
    let together = together(list, evening, &mut wrong);
    for (id, applied, totals) in &ledgers {
        once(list, &evening.lines, *id, applied, &mut wrong);
        added(list, *id, totals, &mut wrong);
        let (first, of_first, _) = &ledgers[0];
        if applied != of_first {
            wrong.push(format!(
                "replica {id} applied in another order than replica {first}"
            ));
        }
    }
    let (_, applied, totals) = ledgers.into_iter().next().unwrap_or_default();
    Ledgers {
        takings: takings(&totals),
        together,
        totals,
        applied,
        wrong,
    }
}

/// Each charge of the list is applied exactly once, as its desk sent it, and nothing else is.
fn once(
    list: &List,
    lines: &BTreeMap<(u64, u64), usize>,
    id: usize,
    applied: &[Entry],
    wrong: &mut Vec<String>,
) {
    let mut times = vec![0; list.charges.len()];
    for entry in applied {
        let sent = lines.get(&(entry.client, entry.request));
        let same = sent.filter(|line| {
            let charge = &list.charges[**line];
            (charge.operation, charge.member, charge.cents)
                == (entry.operation, entry.member, entry.cents)
        });
        match same {
            Some(line) => times[*line] += 1,
            None => wrong.push(format!("replica {id} applied what no desk sent: {entry:?}")),
        }
    }
    for (line, times) in times.iter().enumerate().filter(|(_, times)| **times != 1) {
        wrong.push(format!(
            "replica {id} applied line {line} of the list {times} times"
        ));
    }
}

/// The totals are those of plain addition.
fn added(list: &List, id: usize, totals: &[u64], wrong: &mut Vec<String>) {
    for (member, (has, due)) in totals.iter().zip(&list.totals).enumerate() {
        if has != due {
            wrong.push(format!(
                "replica {id} has {} for member {member}, the list comes to {due}",
                count(*has, "cent", "cents")
            ));
        }
    }
}

/// All takings as the first replica answers them, 0 where there is none or it refuses; those of each are looked at.
fn together<L: Library>(list: &List, evening: &Evening<L>, wrong: &mut Vec<String>) -> u64 {
    let mut first = None;
    for (id, replica) in &evening.replicas {
        let answered = L::takings(replica);
        taken(list, *id, answered, wrong);
        first.get_or_insert(answered.unwrap_or(0));
    }
    first.unwrap_or(0)
}

/// The takings that a replica answers are what the list comes to.
fn taken(list: &List, id: usize, takings: Result<u64, Refusal>, wrong: &mut Vec<String>) {
    let due = list.totals.iter().sum();
    match takings {
        Ok(has) if has == due => {}
        Ok(has) => wrong.push(format!(
            "replica {id} says that its takings are {}, the list comes to {}",
            money(has),
            money(due)
        )),
        Err(why) => wrong.push(format!("replica {id} doesn't say its takings: {why}")),
    }
}

/// Each club's takings.
pub fn takings(totals: &[u64]) -> [u64; CLUBS.len()] {
    let mut takings = [0; CLUBS.len()];
    for (member, total) in totals.iter().enumerate() {
        takings[club_of(member as u32)] += total;
    }
    takings
}

#[cfg(test)]
mod tests {
    use super::*;
    use wire::random::Random;

    /// A list of 20 charges, all sent by desk 1, and the entries of them in order.
    fn sent() -> (List, BTreeMap<(u64, u64), usize>, Vec<Entry>) {
        let list = List::new(20, &mut Random::new(7));
        let lines = (0..20).map(|line| ((1, line as u64), line)).collect();
        let entries = list.charges.iter().enumerate().map(|(line, charge)| Entry {
            client: 1,
            request: line as u64,
            operation: charge.operation,
            member: charge.member,
            cents: charge.cents,
        });
        let entries = entries.collect();
        (list, lines, entries)
    }

    fn wrong_with(change: impl FnOnce(&mut Vec<Entry>)) -> Vec<String> {
        let (list, lines, mut applied) = sent();
        change(&mut applied);
        let mut wrong = Vec::new();
        once(&list, &lines, 0, &applied, &mut wrong);
        wrong
    }

    #[test]
    fn the_list_as_it_was_sent_is_right() {
        assert!(wrong_with(|_| {}).is_empty());
    }

    #[test]
    fn a_charge_taken_twice_is_noticed() {
        let wrong = wrong_with(|applied| applied.push(applied[3]));
        assert_eq!(wrong, ["replica 0 applied line 3 of the list 2 times"]);
    }

    #[test]
    fn a_lost_charge_is_noticed() {
        let wrong = wrong_with(|applied| {
            applied.remove(5);
        });
        assert_eq!(wrong, ["replica 0 applied line 5 of the list 0 times"]);
    }

    #[test]
    fn an_altered_charge_is_noticed() {
        assert_eq!(wrong_with(|applied| applied[2].cents += 1).len(), 2);
    }

    #[test]
    fn a_wrong_total_is_noticed() {
        let (list, ..) = sent();
        let mut totals = list.totals.clone();
        let mut wrong = Vec::new();
        added(&list, 1, &totals, &mut wrong);
        assert!(wrong.is_empty());
        totals[0] += 1;
        added(&list, 1, &totals, &mut wrong);
        assert_eq!(wrong.len(), 1);
    }

    #[test]
    fn wrong_takings_are_noticed() {
        let (list, ..) = sent();
        let due = list.totals.iter().sum();
        let wrong_at = |takings| {
            let mut wrong = Vec::new();
            taken(&list, 2, takings, &mut wrong);
            wrong
        };
        assert_eq!(wrong_at(Ok(due)), [""; 0]);
        let less = format!(
            "replica 2 says that its takings are {}, the list comes to {}",
            money(due - 1),
            money(due)
        );
        assert_eq!(wrong_at(Ok(due - 1)), [less]);
        assert_eq!(wrong_at(Err(Refusal::OutsideSizes)).len(), 1);
    }
}
