//! What damaged frames did to each library, as a table of at most 80 columns.

use crate::damage::Damage;
use crate::tally::{Did, Tally};

/// What a panic is told by that no damaged frame was given to.
const LATER: &str = "later, at a good call";

/// A row of the table: what arrived, and what each library did with it.
fn row(name: &str, ours: &str, theirs: &str) -> String {
    let line = format!("{name:<30}{ours:<20}{theirs}");
    String::from(line.trim_end())
}

/// One damage: as many rows as either library did different things with it.
fn rows(name: &str, ours: &[(Did, u64)], theirs: &[(Did, u64)]) -> Vec<String> {
    let told = |did: Option<&(Did, u64)>| {
        did.map_or(String::new(), |(did, times)| {
            format!("{times:>7} {}", did.words())
        })
    };
    let count = ours.len().max(theirs.len());
    let row_of = |place: usize| {
        let name = if place == 0 { name } else { "" };
        row(name, &told(ours.get(place)), &told(theirs.get(place)))
    };
    (0..count).map(row_of).collect()
}

/// The whole picture, a line each.
pub fn lines(ours: &Tally, theirs: Option<&Tally>) -> Vec<String> {
    let beside = theirs.map_or("", |_| "        vsr-rs");
    let mut lines = vec![row("Damaged frames with", "        Whitherhaul", beside)];
    for damage in Damage::ALL {
        let of_ours: Vec<_> = ours.of(damage).collect();
        let of_theirs: Vec<_> = theirs.into_iter().flat_map(|t| t.of(damage)).collect();
        lines.extend(rows(damage.words(), &of_ours, &of_theirs));
    }
    let later = |tally: &Tally| match tally.later {
        0 => vec![],
        times => vec![(Did::Stopped, times)],
    };
    let theirs_later = theirs.map(later).unwrap_or_default();
    lines.extend(rows(LATER, &later(ours), &theirs_later));
    lines.extend(refusals(ours));
    lines.extend(theirs.into_iter().flat_map(panics));
    lines
}

/// The first refusal of each number, in words.
fn refusals(ours: &Tally) -> Vec<String> {
    let mut lines = vec![String::from(
        "Whitherhaul's answers, which change no byte, the first of each number:",
    )];
    lines.extend(ours.refusals.values().map(|why| format!("  {why}")));
    lines
}

/// The reader of vsr-rs, and what stopped it.
fn panics(theirs: &Tally) -> Vec<String> {
    let mut lines = vec![
        String::from(
            "vsr-rs has no frames: the reader in front of it is this project's, and drops",
        ),
        String::from("what is malformed."),
    ];
    if !theirs.panics.is_empty() {
        lines.push(String::from(
            "The first panic of each kind that stopped a machine:",
        ));
    }
    for (damage, why) in &theirs.panics {
        let words = damage.map_or(LATER, Damage::words);
        lines.push(format!("  {words}:"));
        lines.push(format!("    {why:.76}"));
    }
    lines
}

#[cfg(test)]
mod tests {
    use super::*;
    use whitherhaul::Refusal;

    #[test]
    fn no_line_is_wider_than_eighty() {
        let (mut ours, mut theirs) = (Tally::default(), Tally::default());
        for damage in Damage::ALL {
            for did in [Did::Refused(damage.refusal()), Did::Altered(9)] {
                ours.did.insert((damage, did), 9_999_999);
            }
            for did in [Did::Stopped, Did::Acted, Did::Passed, Did::Dropped] {
                theirs.did.insert((damage, did), 9_999_999);
            }
            theirs.stopped(Some(damage), &"why ".repeat(40));
        }
        theirs.stopped(None, "why");
        ours.refused(Refusal::NotRising);
        ours.refused(Refusal::Malformed {
            offset: 131_090,
            length: 131_090,
        });
        let lines = lines(&ours, Some(&theirs));
        let widest = lines.iter().map(|line| line.chars().count()).max();
        assert_eq!(widest, Some(80));
        assert_eq!(lines.iter().filter(|line| line.contains(LATER)).count(), 2);
        let answers = lines.iter().filter(|line| line.starts_with("  refusal "));
        assert_eq!(answers.count(), 2);
    }
}
