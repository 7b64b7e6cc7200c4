//! Random tables with random quotes, and random damage to them, against a second reading of the
//! rules.

mod common;

use common::lent::{self, Imported};
use common::model::entry;
use common::random::Random;
use common::table;
use whitherhaul::csv;

/// How many tables are tried, each whole and with eight damages.
const TABLES: usize = 4000;

/// Bytes that mean something in a table, or nearly do.
const BYTES: &[u8] = b"\"\"\",,\r\r\n\n 0019+-.aefks;\t\0\x7f\xff";

/// Texts in place of a field.
const TEXTS: [&str; 16] = [
    "",
    "\"\"",
    "0",
    "00",
    "1",
    "\"1\"",
    "1000000",
    "1000001",
    "4294967295",
    "4294967296",
    "18446744073709551615",
    "18446744073709551616",
    "fee",
    "ask",
    "refund",
    "\"a\r\nb\"",
];

impl Random {
    /// A number that often is at the edge of some width.
    fn number(&mut self, most: u64) -> u64 {
        let bits = self.below(65) as u32;
        let random = self.0 & 1_u64.checked_shl(bits).map_or(u64::MAX, |bit| bit - 1);
        let power = 10_u64.pow(self.below(20) as u32);
        let number = self.of(&[0, 1, random, random, power, power - 1, most, most - 1]);
        number.min(most)
    }

    /// An entry that keeps the rules.
    fn entry(&mut self) -> Vec<u8> {
        let [client, request] = [u64::MAX; 2].map(|most| self.number(most));
        let member = self.number(u32::MAX.into()) as u32;
        let cents = self.number(1_000_000).max(1);
        match self.below(3) as u8 + 1 {
            3 => entry(client, request, 3, member, 0),
            operation => entry(client, request, operation, member, cents),
        }
    }

    /// A run of entries, now and then of more rows than have two figures.
    fn run(&mut self) -> Vec<u8> {
        let most = self.of(&[2, 5, 5, 12, 12, 130]);
        (0..self.below(most)).flat_map(|_| self.entry()).collect()
    }

    /// A table with so many of each eight fields in quotes, and with its last CRLF or without.
    fn quoted(&mut self, table: &[u8]) -> Vec<u8> {
        let often = self.of(&[0, 1, 4, 7, 8]);
        let text = String::from_utf8(table.to_vec()).expect("ASCII");
        let mut field = |field: &str| match self.below(8) < often {
            true => format!("\"{field}\""),
            false => String::from(field),
        };
        let rows = text.lines().map(|row| {
            let fields: Vec<String> = row.split(',').map(&mut field).collect();
            fields.join(",") + "\r\n"
        });
        let mut file: Vec<u8> = rows.collect::<String>().into_bytes();
        file.truncate(file.len() - self.of(&[0, 2]));
        file
    }
}

/// The parts of a file between bytes of this kind, these included.
fn parts(file: &[u8], ends: impl Fn(&u8) -> bool) -> Vec<Vec<u8>> {
    file.split_inclusive(ends).map(<[u8]>::to_vec).collect()
}

/// Damages a table in one of ten ways, of which some leave a good one.
fn damaged(random: &mut Random, file: &[u8]) -> Vec<u8> {
    let mut file = file.to_vec();
    let place = random.below(file.len());
    let byte = random.of(BYTES);
    match random.below(10) {
        0 => file.truncate(place),
        1 | 2 => file[place] = byte,
        3 | 4 => file.insert(place, byte),
        5 => drop(file.remove(place)),
        6 => file.extend_from_slice(random.of(&["\r\n", "\r", "\n", ",", "\"", " "]).as_bytes()),
        7 => return rows_damaged(random, &file),
        _ => return field_damaged(random, &file),
    }
    file
}

/// The same to its rows: two change places, or one stands there twice or not at all.
fn rows_damaged(random: &mut Random, file: &[u8]) -> Vec<u8> {
    let mut rows = parts(file, |byte| *byte == b'\n');
    let (one, other) = (random.below(rows.len()), random.below(rows.len()));
    match random.below(3) {
        0 => rows.swap(one, other),
        1 => drop(rows.remove(one)),
        _ => rows.insert(other, rows[one].clone()),
    }
    rows.concat()
}

/// The same to a field: another text in its place, or it stands there twice or not at all.
fn field_damaged(random: &mut Random, file: &[u8]) -> Vec<u8> {
    let mut fields = parts(file, |byte| b",\n".contains(byte));
    let place = random.below(fields.len());
    let length = fields[place].len();
    let text = fields[place].trim_ascii_end().len();
    let text = text - usize::from(fields[place][length - 1] == b',');
    match random.below(4) {
        0 => drop(fields.remove(place)),
        1 => fields.insert(place, fields[place].clone()),
        _ => drop(fields[place].splice(..text, random.of(&TEXTS).bytes())),
    }
    fields.concat()
}

/// Imports a file, with areas of several lengths; its first bad row, all 0 where it is good.
fn tried(random: &mut Random, file: &[u8]) -> [usize; 4] {
    let judged = table::import(file);
    let needed = judged.as_ref().map_or(0, Vec::len);
    let less = needed.saturating_sub(1 + random.below(40));
    for room in [needed, needed + 32, less, 0] {
        let due = match &judged {
            Err(bad) => Imported::refused(13, *bad),
            Ok(run) if room < run.len() => Imported::refused(9, [0; 4]),
            Ok(run) => Imported::done(run.clone()),
        };
        let shown = String::from_utf8_lossy(file);
        assert_eq!(lent::import(file, room), due, "{shown:?}");
    }
    if let Ok(run) = &judged {
        let entries = csv::import(file).expect("a good table");
        assert_eq!(csv::export(&entries), Ok(table::export(run)));
    }
    judged.err().unwrap_or([0; 4])
}

/// Every fault, and a bad field of every column, is met more than a hundred times.
#[test]
fn random_tables_and_damage() {
    let mut random = Random(0x5eed_0003);
    let (mut columns, mut faults) = ([0; 7], [0; 5]);
    let mut met = |[_, column, fault, _]: [usize; 4]| {
        columns[column] += 1;
        faults[fault] += 1;
    };
    for _ in 0..TABLES {
        let run = random.run();
        let file = random.quoted(&table::export(&run));
        assert_eq!(table::import(&file), Ok(run));
        met(tried(&mut random, &file));
        for _ in 0..8 {
            let mut file = damaged(&mut random, &file);
            if !file.is_empty() && random.below(4) == 0 {
                file = damaged(&mut random, &file);
            }
            met(tried(&mut random, &file));
        }
    }
    assert_eq!(columns.iter().sum::<usize>(), 9 * TABLES);
    assert!(columns.iter().all(|times| *times > 100), "{columns:?}");
    assert!(faults.iter().all(|times| *times > 100), "{faults:?}");
}

/// Files of bytes that mean something, behind a header or not.
#[test]
fn random_bytes() {
    let mut random = Random(0x5eed_0004);
    for _ in 0..5 * TABLES {
        let front = random.of(&["", "op,", "op,client,request,kind,member,cents\r\n"]);
        let mut file = front.as_bytes().to_vec();
        file.extend((0..random.below(40)).map(|_| random.of(BYTES)));
        tried(&mut random, &file);
    }
}

/// Runs of entries, some with a byte changed or cut: exported, or refused by their number.
#[test]
fn random_runs_of_entries() {
    let mut random = Random(0x5eed_0005);
    let mut met = [0; 10];
    for _ in 0..TABLES {
        let mut run = random.run();
        if !run.is_empty() && random.below(3) == 0 {
            let place = random.below(run.len());
            run[place] ^= random.of(&[1, 2, 128, 255]);
        }
        if random.below(20) == 0 {
            run.truncate(random.below(run.len() + 1));
        }
        let (_, table) = table::exported(&run, usize::MAX);
        let needed = table.len();
        for room in [needed, needed + 7, needed.saturating_sub(1), 0] {
            let due = table::exported(&run, room);
            assert_eq!(lent::export(&run, room), due, "{run:02x?}");
            met[usize::from(due.0)] += 1;
        }
    }
    for number in [0, 2, 9] {
        assert!(met[number] > 100, "{met:?}");
    }
}
