//! A journal read, written and appended to, beside plain Rust that does the same.

use crate::measure::median;
use crate::plain::{self, ReadBack, Written};
use crate::stopwatch::took;
use crate::table;
use std::hint::black_box;
use std::time::Duration;
use whitherhaul::raw;

/// How many entries a journal can have, and members a ledger.
const MOST: usize = 4096;

/// The entries of a ledger with so many members, their journal, and what a replica that applied
/// them holds of it.
struct Day {
    members: u32,
    run: Vec<u8>,
    file: Vec<u8>,
    results: Vec<u8>,
}

impl Day {
    /// So many entries, each with the operation, member and cents that are said of its place.
    fn of(members: u32, entries: usize, said: impl Fn(usize) -> (u8, usize, u64)) -> Day {
        let mut run = Vec::new();
        for place in 0..entries {
            let (operation, member, cents) = said(place);
            run.extend(
                (place as u64 % 16)
                    .wrapping_mul(0x9e37_79b9_7f4a_7c15)
                    .to_be_bytes(),
            );
            run.extend((place as u64 / 16).to_be_bytes());
            run.extend([operation, 0, 0, 0]);
            run.extend((member as u32).to_be_bytes());
            run.extend(cents.to_be_bytes());
        }
        let mut file = vec![0; 50 * entries];
        assert_eq!(plain::write(members, &run, &mut file), (0, file.len()));
        let results = file.chunks(50).flat_map(|frame| &frame[41..]).copied();
        let results = results.collect();
        Day {
            members,
            run,
            file,
            results,
        }
    }

    /// Fees, refunds and asks of so many members in turn.
    fn mixed(members: usize) -> Day {
        Day::of(members as u32, MOST, |place| {
            let member = place * 7 % members;
            match place % 8 {
                6 => (2, member, 500),
                7 => (3, member, 0),
                _ => (1, member, 4_500),
            }
        })
    }

    /// A Fee of each member.
    fn each_once() -> Day {
        Day::of(MOST as u32, MOST, |place| (1, place, 4_500))
    }

    /// So many Fees of one member.
    fn of_one(entries: usize) -> Day {
        Day::of(MOST as u32, entries, |_| (1, 7, 4_500))
    }
}

/// What a call works on, and what it left: looked at before anything is timed.
#[derive(PartialEq)]
struct Lent {
    area: Vec<u8>,
    totals: Vec<u8>,
}

impl Lent {
    fn new(members: u32) -> Lent {
        Lent {
            area: vec![0xa5; 50 * MOST],
            totals: vec![0xa5; 8 * members as usize],
        }
    }
}

type Write = fn(u32, &[u8], &mut [u8]) -> Written;
type Append = fn(u32, u32, &[u8], &[u8], &mut [u8]) -> Written;
type Read = fn(u32, &[u8], &mut [u8], &mut [u8]) -> ReadBack;

/// The calls of one side.
struct Side {
    write: Write,
    append: Append,
    read: Read,
}

const OURS: Side = Side {
    write: raw::journal_write,
    append: raw::journal_append,
    read: raw::journal_read,
};

const PLAIN: Side = Side {
    write: plain::write,
    append: plain::append,
    read: plain::read,
};

/// One case.
#[derive(Clone, Copy)]
enum Call {
    Read,
    Write,
    /// From this op number on, to the last.
    Append(usize),
}

/// The call of a case through one side; its answer as numbers.
fn call(side: &Side, case: Call, day: &Day, lent: &mut Lent) -> (u8, [u64; 3]) {
    let (members, ops) = (day.members, (day.run.len() / 32) as u32);
    let as_numbers = |(number, bytes): Written| (number, [bytes as u64, 0, 0]);
    let area = &mut lent.area;
    match case {
        Call::Read => (side.read)(members, &day.file, area, &mut lent.totals),
        Call::Write => as_numbers((side.write)(members, &day.run, area)),
        Call::Append(from) => as_numbers((side.append)(
            from as u32,
            ops,
            &day.run,
            &day.results,
            area,
        )),
    }
}

/// What so many calls of a case take through one side.
fn timed(side: &Side, case: Call, day: &Day, calls: u32) -> Duration {
    let mut lent = Lent::new(day.members);
    // The first call finds the memory as the others do.
    call(side, case, day, &mut lent);
    took(false, || {
        for _ in 0..calls {
            black_box(call(side, case, black_box(day), &mut lent));
        }
    })
}

/// Nanoseconds a call through ours and through plain Rust, the sides in turn. Both leave the same, or the program stops.
fn compared(case: Call, day: &Day, calls: u32, rounds: usize) -> [Option<f64>; 2] {
    let left = [OURS, PLAIN].map(|side| {
        let mut lent = Lent::new(day.members);
        (call(&side, case, day, &mut lent), lent)
    });
    assert!(left[0] == left[1], "both sides give the same");
    assert_eq!(left[0].0 .0, 0, "the call is done");
    let mut played: [Vec<Duration>; 2] = Default::default();
    for _ in 0..rounds {
        for (side, played) in [OURS, PLAIN].iter().zip(&mut played) {
            played.push(timed(side, case, day, calls));
        }
    }
    played.map(|took| Some(median(took).as_nanos() as f64 / f64::from(calls)))
}

/// All cases, each with its name and how many calls make a piece of some microseconds.
fn cases() -> Vec<(&'static str, Call, Day, u32)> {
    use Call::{Append, Read, Write};
    vec![
        ("read, 4,096 entries", Read, Day::mixed(MOST), 1),
        ("read, 4,096 members once", Read, Day::each_once(), 1),
        ("read, one member 4,096 times", Read, Day::of_one(MOST), 1),
        ("read, 4,096 entries, M = 240", Read, Day::mixed(240), 1),
        ("read, 1 entry", Read, Day::of_one(1), 20),
        ("write, 4,096 entries", Write, Day::mixed(MOST), 1),
        ("write, 4,096 members once", Write, Day::each_once(), 1),
        ("write, one member 4,096 times", Write, Day::of_one(MOST), 1),
        ("write, 4,096 entries, M = 240", Write, Day::mixed(240), 1),
        (
            "append, 1 of 4,096 ops",
            Append(MOST - 1),
            Day::mixed(MOST),
            1000,
        ),
        ("append, 4,096 ops", Append(0), Day::mixed(MOST), 1),
    ]
}

/// Measures all cases and prints them.
pub fn compare(rounds: usize) {
    table::beside_plain_heading();
    for (name, case, day, calls) in cases() {
        table::beside_plain(name, compared(case, &day, calls, rounds));
    }
}

#[cfg(test)]
mod tests {
    use super::*;

    #[test]
    fn every_case_is_done_alike() {
        for (name, case, day, _) in cases() {
            let times = compared(case, &day, 1, 1);
            assert!(times.iter().all(Option::is_some), "{name}");
        }
    }

    /// A file that is damaged, cut or too long, and areas that are too short: both sides answer and leave the same.
    #[test]
    fn what_is_refused_is_refused_alike() {
        let alike = |case, day: &Day| {
            let [ours, plain] = [OURS, PLAIN].map(|side| {
                let mut lent = Lent::new(day.members);
                (call(&side, case, day, &mut lent), lent)
            });
            assert!(ours == plain);
            ours.0
        };
        for place in 0..50 {
            let mut day = Day::of_one(9);
            day.file[200 + place] ^= 0x80;
            let named = (9..25).contains(&place);
            let (number, [_, offset, _]) = alike(Call::Read, &day);
            assert_eq!((number, offset), if named { (0, 0) } else { (12, 200) });
            day.file.truncate(251);
            alike(Call::Read, &day);
        }
        let mut day = Day::mixed(MOST);
        day.file.push(0);
        assert_eq!(alike(Call::Read, &day), (12, [0, 204_800, 8]));
        day.run.push(0);
        assert_eq!(alike(Call::Write, &day).0, 2);
        day.results.pop();
        assert_eq!(alike(Call::Append(0), &day).0, 1);
        day.run.truncate(32 * MOST);
        day.run.extend_from_within(..32);
        assert_eq!(alike(Call::Write, &day).0, 4);
        assert_eq!(alike(Call::Append(0), &day).0, 1);
    }
}
