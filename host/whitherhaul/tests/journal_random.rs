//! Random journals, and random damage to them, against a model of the rules.

mod common;

use common::lent::{read, write, Read};
use common::model::{self, entry};
use common::random::Random;
use whitherhaul::{Entry, Journal, Refusal};

/// How many journals are tried, each whole and with five damages.
const JOURNALS: usize = 3000;

/// Members that come again and again, also where there are many: the library takes them in groups
/// of 64, and these are at the groups' edges.
const OFTEN: [u32; 7] = [0, 62, 63, 64, 65, 127, 128];

impl Random {
    /// An entry that keeps the rules, of a member who often is there.
    fn entry(&mut self, members: u32) -> Vec<u8> {
        let (client, request) = (self.0, self.below(3) as u64);
        let beyond = self.of(&[members, members + 1, u32::MAX]);
        let member = match self.below(2) {
            0 => self.of(&OFTEN),
            _ => self.below(members as usize + 1) as u32,
        };
        let member = if member == members { beyond } else { member };
        let cents = self.of(&[1, 2, 255, 256, 4500, 999_999, 1_000_000]);
        match self.of(&[1, 1, 2, 3]) {
            3 => entry(client, request, 3, member, 0),
            operation => entry(client, request, operation, member, cents),
        }
    }

    /// A run of entries. One in twenty begins with Fees that bring a member near the limit.
    fn run(&mut self, members: u32) -> Vec<u8> {
        let near = if self.below(20) == 0 { 999 } else { 0 };
        let mut run = entry(1, 0, 1, 0, 1_000_000).repeat(near);
        for _ in 0..self.below(24) {
            run.extend(self.entry(members));
        }
        run
    }
}

/// Damages a journal in one of eight ways.
fn damaged(random: &mut Random, file: &[u8]) -> Vec<u8> {
    let mut file = file.to_vec();
    let frames = file.len() / 50;
    if frames == 0 {
        return vec![random.of(&[0, 46]); 1 + random.below(120)];
    }
    let (one, other) = (50 * random.below(frames), 50 * random.below(frames));
    let byte = random.of(&[0, 1, 2, 3, 4, 5, 6, 7, 45, 46, 47, 255]);
    let place = random.below(50);
    match random.below(8) {
        0 => file.truncate(one + place),
        1 => file[one + place] = byte,
        2 => file[one + 41] = byte,
        3 => file[one + 49] = file[one + 49].wrapping_add(random.of(&[1, 255])),
        4 => (0..50).for_each(|at| file.swap(one + at, other + at)),
        5 => drop(file.drain(one..one + 50)),
        6 => file.extend(vec![byte; 1 + place]),
        _ => file.extend_from_within(one..one + 50),
    }
    file
}

/// What reading has to give for an area of so many bytes.
fn due(members: u32, file: &[u8], room: usize) -> Read {
    match model::read(members, file) {
        Err((offset, fault)) => Read::refused(12, offset, fault),
        Ok(good) if room < good.entries.len() => Read::refused(9, 0, 0),
        Ok(good) => Read {
            entries: good.entries,
            totals: good.totals.iter().flat_map(|t| t.to_be_bytes()).collect(),
            ..Read::refused(0, 0, 0)
        },
    }
}

/// Reads a file, with areas of several lengths; the number of the first fault, 0 where it is good.
fn tried(random: &mut Random, members: u32, file: &[u8]) -> usize {
    let needed = file.len() / 50 * 32;
    for room in [
        needed,
        needed + 32,
        needed.saturating_sub(1 + random.below(40)),
        0,
    ] {
        let due = due(members, file, room);
        assert_eq!(read(members, file, room), due, "M {members}, {file:02x?}");
    }
    safely(members, file);
    model::read(members, file).map_or_else(|(_, fault)| usize::from(fault), |_| 0)
}

/// The same by the safe crate; what it reads, it writes.
fn safely(members: u32, file: &[u8]) {
    match (Journal::read(members, file), model::read(members, file)) {
        (Ok(journal), Ok(good)) => {
            assert_eq!(journal.totals(), good.totals);
            assert_eq!(journal.takings(), good.totals.iter().sum::<u64>());
            let shown =
                |e: &Entry| entry(e.client, e.request, e.operation as u8, e.member, e.cents);
            let entries: Vec<u8> = journal.entries().iter().flat_map(shown).collect();
            assert_eq!(entries, good.entries);
            let again = Journal::write(members, journal.entries());
            assert_eq!(again.as_deref(), Ok(file));
        }
        (Err(Refusal::BadFrame { offset, fault }), Err(due)) => {
            assert_eq!((offset, fault.number()), due);
        }
        (safe, model) => panic!("{safe:?}, {model:?}: {file:02x?}"),
    }
}

/// Every fault but the eighth, which takes 4,097 frames, is met more than twenty times.
#[test]
fn random_journals_and_damage() {
    let mut random = Random(0x5eed_0001);
    let mut met = [0; 8];
    for _ in 0..JOURNALS {
        let members = random.of(&[1, 2, 3, 8, 63, 64, 65, 129, 4096]);
        let file = model::write(members, &random.run(members));
        met[tried(&mut random, members, &file)] += 1;
        for _ in 0..5 {
            let damaged = damaged(&mut random, &file);
            let members = if random.below(8) == 0 {
                random.of(&[1, 2, 3, 9, 64, 128])
            } else {
                members
            };
            met[tried(&mut random, members, &damaged)] += 1;
        }
    }
    assert_eq!(met.iter().sum::<usize>(), 6 * JOURNALS);
    assert!(met.iter().all(|times| *times > 20), "{met:?}");
}

/// Runs of entries, some with a byte changed: written, or refused by their number.
#[test]
fn random_runs_of_entries() {
    let mut random = Random(0x5eed_0002);
    let mut met = [0; 10];
    for _ in 0..JOURNALS {
        let members = random.of(&[0, 1, 2, 3, 8, 63, 64, 65, 129, 4096, 4097]);
        let mut run = random.run(members.clamp(1, 4096));
        if !run.is_empty() && random.below(3) == 0 {
            let place = random.below(run.len());
            run[place] ^= random.of(&[1, 2, 128, 255]);
        }
        let needed = run.len() / 32 * 50;
        for room in [needed, needed + 7, needed.saturating_sub(1), 0] {
            let due = model::written(members, &run, room);
            assert_eq!(write(members, &run, room), due, "M {members}, {run:02x?}");
            met[usize::from(due.0)] += 1;
        }
    }
    for number in [0, 1, 2, 9] {
        assert!(met[number] > 100, "{met:?}");
    }
}
