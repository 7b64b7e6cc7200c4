//! The C calls with lent memory that is looked at as a whole: a refused call leaves all of it, a
//! done one all behind what it says that it wrote.

use whitherhaul::raw;

/// What stands in lent memory before a call.
const FILL: u8 = 0xa5;

/// Memory behind what is lent, which no call may touch.
const BEHIND: usize = 64;

/// Lends so many bytes to a call that answers a number and how many it wrote.
fn written(room: usize, call: impl FnOnce(&mut [u8]) -> (u8, usize)) -> (u8, Vec<u8>) {
    let mut area = vec![FILL; room + BEHIND];
    let (number, bytes) = call(&mut area[..room]);
    assert!(bytes <= room, "{bytes} bytes of {room}");
    assert!(number == 0 || bytes == 0, "{number} with {bytes} bytes");
    untouched(&area[bytes..]);
    area.truncate(bytes);
    (number, area)
}

fn untouched(bytes: &[u8]) {
    assert!(bytes.iter().all(|byte| *byte == FILL), "lent bytes changed");
}

/// Writing, with an area of so many bytes: the number, and what was written.
pub fn write(members: u32, run: &[u8], room: usize) -> (u8, Vec<u8>) {
    written(room, |area| raw::journal_write(members, run, area))
}

/// Appending, likewise.
pub fn append(from: u32, to: u32, log: &[u8], results: &[u8], room: usize) -> (u8, Vec<u8>) {
    written(room, |area| {
        raw::journal_append(from, to, log, results, area)
    })
}

/// What reading answers and leaves.
#[derive(Debug, PartialEq)]
pub struct Read {
    pub number: u8,
    pub offset: u64,
    pub fault: u64,
    pub entries: Vec<u8>,
    pub totals: Vec<u8>,
}

impl Read {
    /// Refused by this number, with this offset and fault.
    pub fn refused(number: u8, offset: usize, fault: u8) -> Read {
        Read {
            number,
            offset: offset as u64,
            fault: u64::from(fault),
            entries: Vec::new(),
            totals: Vec::new(),
        }
    }
}

/// Reading, with an area of so many bytes for entries and a run of so many for totals.
pub fn read_with(members: u32, file: &[u8], room: usize, run: usize) -> Read {
    let mut totals = vec![FILL; run + BEHIND];
    let mut said = [0; 3];
    let (number, entries) = written(room, |area| {
        let (number, answers) = raw::journal_read(members, file, area, &mut totals[..run]);
        said = answers;
        (number, 32 * answers[0] as usize)
    });
    let filled = if number == 0 { run } else { 0 };
    untouched(&totals[filled..]);
    totals.truncate(filled);
    let [_, offset, fault] = said;
    Read {
        number,
        offset,
        fault,
        entries,
        totals,
    }
}

/// The same with a run of totals of the right length.
pub fn read(members: u32, file: &[u8], room: usize) -> Read {
    read_with(members, file, room, 8 * members.min(4096) as usize)
}

/// Export, with an area of so many bytes: the number, and what was written.
pub fn export(run: &[u8], room: usize) -> (u8, Vec<u8>) {
    written(room, |area| raw::csv_export(run, area))
}

/// What import answers and leaves.
#[derive(Debug, PartialEq)]
pub struct Imported {
    pub number: u8,
    /// The first bad row, its first bad field, what is wrong with that, and where it begins.
    pub bad: [usize; 4],
    pub entries: Vec<u8>,
}

impl Imported {
    /// Refused by this number, with this bad row.
    pub fn refused(number: u8, bad: [usize; 4]) -> Imported {
        Imported {
            number,
            bad,
            entries: Vec::new(),
        }
    }

    /// Done, with these entries.
    pub fn done(entries: Vec<u8>) -> Imported {
        Imported {
            entries,
            ..Imported::refused(0, [0; 4])
        }
    }
}

/// Import, with an area of so many bytes for entries.
pub fn import(file: &[u8], room: usize) -> Imported {
    let mut bad = [0; 4];
    let (number, entries) = written(room, |area| {
        let (number, [entries, said @ ..]) = raw::csv_import(file, area);
        bad = said.map(|number| number as usize);
        (number, 32 * entries as usize)
    });
    Imported {
        number,
        bad,
        entries,
    }
}
