//! The treasurer's table exported and imported, beside plain Rust that does the same.

use crate::measure::{median, Time};
use crate::plain_csv;
use crate::stopwatch::took;
use crate::table;
use std::hint::black_box;
use std::time::Duration;
use whitherhaul::raw;

/// A call through one side, on what it is given.
#[derive(Clone, Copy)]
enum Call {
    Export,
    Import,
}

/// What a case is: a run of entries and its table, the room that is lent, and whether plain Rust can
/// read that table.
struct Case {
    name: String,
    call: Call,
    run: Vec<u8>,
    file: Vec<u8>,
    room: usize,
    plain: bool,
}

/// What the sides write into, long enough before anything is timed.
#[derive(Default)]
struct Areas {
    ours: Vec<u8>,
    run: Vec<u8>,
    text: String,
}

/// The entries of a day: six desks, 240 members, every twelfth a refund. `wide`: ids of 20 figures.
fn day(entries: usize, wide: bool) -> Vec<u8> {
    const FEES: [u64; 8] = [18_000, 14_500, 9_600, 7_200, 6_400, 4_500, 3_000, 2_400];
    let mut run = Vec::new();
    for place in 0..entries {
        let (desk, request) = (1 + place as u64 % 6, place as u64 / 6);
        let from = if wide { u64::MAX - 99_999 } else { 0 };
        let member = place * 7 % 240;
        run.extend((from + desk).to_be_bytes());
        run.extend((from + request).to_be_bytes());
        run.extend([if place % 12 == 11 { 2 } else { 1 }, 0, 0, 0]);
        run.extend((member as u32).to_be_bytes());
        run.extend(FEES[member % 8].to_be_bytes());
    }
    run
}

fn exported(run: &[u8]) -> Vec<u8> {
    let mut text = String::new();
    assert_eq!(plain_csv::export(run, &mut text), 0);
    text.into_bytes()
}

/// A table with every field in quotes.
fn quoted(file: &[u8]) -> Vec<u8> {
    let text = String::from_utf8_lossy(file);
    let rows = text.trim_end().split("\r\n");
    let rows = rows.map(|row| format!("\"{}\"\r\n", row.replace(',', "\",\"")));
    rows.collect::<String>().into_bytes()
}

/// The header, and a megabyte in one quoted field.
fn hostile() -> Vec<u8> {
    let header = exported(&[]);
    [&header[..], b"\"", &[b'7'; 1 << 20], b"\"\r\n"].concat()
}

impl Case {
    /// A day's table of so many rows, with this said behind their number.
    fn of(call: Call, rows: usize, wide: bool) -> Case {
        let word = match call {
            Call::Export => "export",
            Call::Import => "import",
        };
        let of = if wide { " of 20-figure ids" } else { "" };
        let grouped = match rows {
            ..1_000 => rows.to_string(),
            _ => format!("{},{:03}", rows / 1_000, rows % 1_000),
        };
        let run = day(rows, wide);
        Case {
            name: format!("{word}, {grouped} rows{of}"),
            call,
            file: exported(&run),
            // What an owner lends, so that no row is measured.
            room: 37 + 113 * rows,
            run,
            plain: true,
        }
    }

    /// The same export with not a byte more than its table has.
    fn in_just_its_room(rows: usize) -> Case {
        let case = Case::of(Call::Export, rows, false);
        Case {
            name: format!("{}, in just their room", case.name),
            room: case.file.len(),
            ..case
        }
    }

    /// A file that plain Rust doesn't read.
    fn ours_alone(name: &str, run: Vec<u8>, file: Vec<u8>) -> Case {
        Case {
            name: String::from(name),
            call: Call::Import,
            room: run.len(),
            run,
            file,
            plain: false,
        }
    }

    /// The call through ours: its number, and how many bytes or entries it gave.
    fn ours(&self, areas: &mut Areas) -> (u8, u64) {
        match self.call {
            Call::Export => {
                let (code, bytes) = raw::csv_export(&self.run, &mut areas.ours);
                (code, bytes as u64)
            }
            Call::Import => {
                let (code, answers) = raw::csv_import(&self.file, &mut areas.ours);
                (code, answers[0])
            }
        }
    }

    /// The same through plain Rust.
    fn plain(&self, areas: &mut Areas) -> (u8, u64) {
        match self.call {
            Call::Export => {
                let code = plain_csv::export(&self.run, &mut areas.text);
                (code, areas.text.len() as u64)
            }
            Call::Import => {
                let (code, _) = plain_csv::import(&self.file, &mut areas.run);
                (code, areas.run.len() as u64 / 32)
            }
        }
    }

    /// Both answer and leave the same, or the program stops.
    fn alike(&self, areas: &mut Areas) {
        let (ours, plain) = (self.ours(areas), self.plain(areas));
        assert_eq!(ours, plain, "{}", self.name);
        let left = match self.call {
            Call::Export => areas.text.as_bytes(),
            Call::Import => &areas.run[..],
        };
        assert!(areas.ours.starts_with(left), "{}", self.name);
    }

    fn areas(&self) -> Areas {
        Areas {
            ours: vec![0; self.room],
            ..Areas::default()
        }
    }

    /// What so many calls take through one side.
    fn timed(&self, side: Side, areas: &mut Areas, calls: u32) -> Duration {
        let long = self.file.len() > 200_000;
        took(long, || {
            for _ in 0..calls {
                black_box(side(black_box(self), areas));
            }
        })
    }

    /// Nanoseconds a call through ours and through plain Rust, the sides in turn.
    fn compared(&self, rounds: usize) -> [Time; 2] {
        let mut areas = self.areas();
        if self.plain {
            self.alike(&mut areas);
        }
        // A piece takes some tens of microseconds.
        let calls = (20_000 / self.file.len()).max(1) as u32;
        let sides: [Side; 2] = [Case::ours, Case::plain];
        let mut played: [Vec<Duration>; 2] = Default::default();
        for _ in 0..rounds {
            for (side, played) in sides.into_iter().zip(&mut played) {
                played.push(self.timed(side, &mut areas, calls));
            }
        }
        let [ours, plain] =
            played.map(|took| Some(median(took).as_nanos() as f64 / f64::from(calls)));
        [ours, plain.filter(|_| self.plain)]
    }
}

type Side = fn(&Case, &mut Areas) -> (u8, u64);

fn cases() -> Vec<Case> {
    let mut cases = Vec::new();
    for call in [Call::Export, Call::Import] {
        let rows = [256, 1_024, 4_096, 16_384];
        cases.extend(rows.map(|rows| Case::of(call, rows, false)));
        cases.push(Case::of(call, 4_096, true));
        if let Call::Export = call {
            cases.push(Case::in_just_its_room(4_096));
        }
    }
    let run = day(4_096, false);
    let file = quoted(&exported(&run));
    cases.extend([
        Case::ours_alone("import, 4,096 rows, all in quotes", run, file),
        Case::ours_alone("import refused, a field of 1 MB", Vec::new(), hostile()),
    ]);
    cases
}

/// Measures all cases and prints them.
pub fn compare(rounds: usize) {
    table::beside_plain_heading();
    for case in cases() {
        table::beside_plain(&case.name, case.compared(rounds));
    }
}

#[cfg(test)]
mod tests {
    use super::*;

    #[test]
    fn every_case_is_done_alike() {
        for case in cases() {
            let [ours, plain] = case.compared(1);
            assert!(ours.is_some(), "{}", case.name);
            assert_eq!(plain.is_some(), case.plain, "{}", case.name);
        }
    }

    #[test]
    fn quotes_are_read_and_a_long_field_is_refused() {
        let [.., quoted, hostile] = &cases()[..] else {
            panic!("two cases");
        };
        let mut areas = quoted.areas();
        assert_eq!(quoted.ours(&mut areas), (0, 4_096));
        assert!(areas.ours.starts_with(&quoted.run));
        assert_eq!(hostile.ours(&mut hostile.areas()), (13, 0));
        let (code, [_, row, ..]) = raw::csv_import(&hostile.file, &mut []);
        assert_eq!((code, row), (13, 2));
    }

    /// A table without quotes with one byte changed or taken away: both sides accept the same, with the same entries, and
    /// refuse the same, for the same row.
    #[test]
    fn what_is_refused_is_refused_alike() {
        let file = exported(&day(12, false));
        let mut area = vec![0; 32 * 13];
        for place in 0..file.len() {
            for byte in b",019fx+ \n" {
                let mut changed = file.clone();
                changed[place] = *byte;
                alike(&changed, &mut area);
            }
            let cut = [&file[..place], &file[place + 1..]].concat();
            alike(&cut, &mut area);
            alike(&file[..place], &mut area);
        }
    }

    fn alike(file: &[u8], area: &mut [u8]) {
        let mut run = Vec::new();
        let (code, [entries, row, ..]) = raw::csv_import(file, area);
        assert_eq!((code, row), plain_csv::import(file, &mut run));
        let read = &area[..32 * entries as usize];
        assert!(code != 0 || read == run);
    }
}
