//! Journals that are damaged, cut, too long, or read for other members; runs and areas of other
//! lengths. A model of the rules judges what each has to give.

mod common;

use common::lent::{append, read, read_with, write, Read};
use common::model::{self, entry};
use whitherhaul::{journal, raw, Entry, Fault, Journal, Operation, Outcome, Refusal};

/// How many members the small journal is of.
const MEMBERS: u32 = 4;

/// Numbers of members that no journal can be of.
const OUTSIDE: [u32; 3] = [0, 4097, u32::MAX];

/// Seven entries with every outcome but PastLimit, which takes a thousand Fees before it.
fn entries() -> Vec<u8> {
    [
        entry(7, 0, 1, 0, 4500), // total 4500
        entry(7, 1, 1, 1, 2000), // total 2000
        entry(8, 0, 2, 0, 1500), // total 3000
        entry(8, 1, 3, 1, 0),    // total 2000
        entry(9, 0, 1, 4, 700),  // no such member
        entry(9, 0, 2, 1, 2001), // past the total, 2000
        entry(7, 2, 1, 2, 1),    // total 1
    ]
    .concat()
}

fn small() -> Vec<u8> {
    model::write(MEMBERS, &entries())
}

/// A thousand Fees that bring member 3 to 1,000,000,000, and one that would go past it.
fn full() -> Vec<u8> {
    let fees = entry(1, 0, 1, 3, 1_000_000).repeat(1000);
    model::write(MEMBERS, &[fees, entry(1, 1, 1, 3, 1)].concat())
}

/// What reading has to give, by the model.
fn due(members: u32, file: &[u8]) -> Read {
    match model::read(members, file) {
        Err((offset, fault)) => Read::refused(12, offset, fault),
        Ok(good) => Read {
            entries: good.entries,
            totals: good.totals.iter().flat_map(|t| t.to_be_bytes()).collect(),
            ..Read::refused(0, 0, 0)
        },
    }
}

/// Reads a file with an area of just the right length, and as the safe crate does; what came out is
/// the model's.
fn judged(members: u32, file: &[u8]) -> Read {
    let due = due(members, file);
    let given = read(members, file, due.entries.len());
    assert_eq!(given, due, "M {members}, {file:02x?}");
    let safe = Journal::read(members, file);
    match (safe, due.number) {
        (Ok(journal), 0) => assert_eq!(journal.entries().len(), due.entries.len() / 32),
        (Err(Refusal::BadFrame { offset, fault }), 12) => {
            assert_eq!(
                (offset as u64, u64::from(fault.number())),
                (due.offset, due.fault)
            );
        }
        (safe, number) => panic!("{safe:?} where {number} is due"),
    }
    given
}

#[test]
fn the_journals_have_every_outcome() {
    let outcomes = |file: &[u8]| file.chunks(50).map(|frame| frame[41]).collect::<Vec<u8>>();
    assert_eq!(outcomes(&small()), [1, 1, 2, 3, 4, 6, 1]);
    assert_eq!(outcomes(&full())[1000], 5);
    for file in [small(), full()] {
        assert_eq!(
            write(MEMBERS, &judged(MEMBERS, &file).entries, file.len()),
            (0, file)
        );
    }
}

#[test]
fn every_cut() {
    let file = small();
    for length in 0..=file.len() {
        let given = judged(MEMBERS, &file[..length]);
        if length % 50 == 0 {
            assert_eq!((given.number, given.entries.len()), (0, 32 * (length / 50)));
        } else {
            assert_eq!(given, Read::refused(12, length / 50 * 50, 1));
        }
    }
}

/// The fault of a frame in which any other byte at this place is wrong, whatever M is.
fn fault_at(place: usize) -> Option<u8> {
    match place {
        0..4 => Some(2),
        4 => Some(3),
        5..9 => Some(4),
        26..29 => Some(5),
        _ => None,
    }
}

/// How the changes of single bytes of some frames are taken.
#[derive(Debug, Default, PartialEq)]
struct Changes {
    /// Refused at the frame itself.
    own: usize,
    /// Refused at a later frame, which no longer follows from the changed one.
    later: usize,
    /// Read as another journal: a changed client or request.
    named: usize,
    /// The same: a changed operation, member or cents.
    other: usize,
}

/// Changes each byte of the frames from this one on to every other value.
fn changes(file: &[u8], from: usize) -> Changes {
    let mut counted = Changes::default();
    let mut changed = file.to_vec();
    for place in 50 * from..file.len() {
        let (front, within) = (place / 50 * 50, place % 50);
        for byte in (0..=255).filter(|byte| *byte != file[place]) {
            changed[place] = byte;
            let given = judged(MEMBERS, &changed);
            if let Some(fault) = fault_at(within) {
                assert_eq!(given, Read::refused(12, front, fault));
            }
            match (given.number, within) {
                (0, 9..25) => counted.named += 1,
                (0, _) => counted.other += 1,
                _ if given.offset == front as u64 => counted.own += 1,
                _ => counted.later += 1,
            }
        }
        changed[place] = file[place];
    }
    counted
}

/// Client and request are anybody's: 16 bytes of each of the seven frames.
///
/// 1,852 other changes make another journal that is good. In frame 5, of a member that isn't there:
/// another such member (3 * 255 + 251), other cents (15 + 255 + 255), a Refund in place of the Fee.
/// In frame 6, a Refund past the total: other cents above it (15 + 248 + 46). In frame 7, the last:
/// member 3 in place of 2, whose total is 0 as well.
///
/// 5 are noticed at a later frame: the first Fee of member 0 given to member 1, 2 or 3, and that of
/// member 1 to 2 or 3.
#[test]
fn every_byte_changed() {
    let other = (3 * 255 + 251) + (15 + 255 + 255) + 1 + (15 + 248 + 46) + 1;
    let named = 16 * 255 * 7;
    let due = Changes {
        own: 50 * 255 * 7 - named - other - 5,
        later: 5,
        named,
        other,
    };
    assert_eq!(changes(&small(), 0), due);
}

/// Of a Fee past the limit, any other cents are past it too (15 + 255 + 254).
#[test]
fn every_byte_changed_at_the_limit() {
    let (named, other) = (16 * 255, 15 + 255 + 254);
    let due = Changes {
        own: 50 * 255 - named - other,
        later: 0,
        named,
        other,
    };
    assert_eq!(changes(&full(), 1000), due);
}

#[test]
fn no_such_number_of_members() {
    for members in OUTSIDE {
        for run in [0, 8, 8 * 4096, 8 * 4097] {
            for file in [vec![], small(), small()[..20].to_vec()] {
                assert_eq!(read_with(members, &file, 300, run), Read::refused(1, 0, 0));
            }
            assert_eq!(raw::journal_takings(members, &vec![0; run]), (1, 0));
        }
        assert_eq!(
            write(members, &[9; 33], 0),
            (1, vec![]),
            "1 goes before 2 and 9"
        );
        assert_eq!(Journal::read(members, &small()), Err(Refusal::OutsideSizes));
        assert_eq!(Journal::write(members, &[]), Err(Refusal::OutsideSizes));
    }
}

/// A member that lies between makes the frame bad. Members that are in no frame make no difference
/// but for their totals.
#[test]
fn another_number_of_members() {
    for (members, offset) in [(1, 50), (2, 300), (5, 200), (4096, 200)] {
        assert_eq!(judged(members, &small()), Read::refused(12, offset, 6));
    }
    let totals = Journal::read(3, &small()).map(|journal| journal.totals().to_vec());
    assert_eq!(totals, Ok(vec![3000, 2000, 1]));
    assert_eq!(judged(3, &small()).number, 0);
}

#[test]
fn totals_of_another_length() {
    let long = 8 * MEMBERS as usize;
    for run in [0, 1, 8, long - 8, long - 1, long + 1, long + 8, 8 * 4096] {
        for file in [small(), small()[..20].to_vec()] {
            let given = read_with(MEMBERS, &file, 300, run);
            assert_eq!(given, Read::refused(1, 0, 0), "1 goes before 12");
        }
        assert_eq!(raw::journal_takings(MEMBERS, &vec![0; run]), (1, 0));
    }
}

#[test]
fn areas_for_entries() {
    let file = small();
    for room in [0, 1, 32, 32 * 7 - 1] {
        assert_eq!(read(MEMBERS, &file, room), Read::refused(9, 0, 0));
        let spoilt = read(MEMBERS, &file[..99], room.min(31));
        assert_eq!(spoilt, Read::refused(12, 50, 1), "12 goes before 9");
    }
    for room in [32 * 7, 32 * 7 + 1, 1000] {
        assert_eq!(read(MEMBERS, &file, room).entries, entries());
    }
    let nothing = read(MEMBERS, &[], 0);
    assert_eq!((nothing.number, nothing.totals), (0, vec![0; 32]));
}

#[test]
fn past_the_last_frame() {
    let ask = entry(1, 0, 3, 0, 0);
    let file = model::write(1, &ask.repeat(4097));
    assert_eq!(judged(1, &file[..204_800]).entries, ask.repeat(4096));
    for length in [204_801, 204_849, 204_850] {
        assert_eq!(judged(1, &file[..length]), Read::refused(12, 204_800, 8));
    }
    let mut spoilt = file.clone();
    spoilt[204_799] = 1;
    assert_eq!(judged(1, &spoilt), Read::refused(12, 204_750, 7));
}

#[test]
fn areas_for_a_journal() {
    let run = entries();
    for room in [0, 1, 50, 349] {
        assert_eq!(write(MEMBERS, &run, room), (9, vec![]));
    }
    for room in [350, 351, 1000] {
        assert_eq!(write(MEMBERS, &run, room), (0, small()));
    }
    for length in (1..run.len()).filter(|length| length % 32 != 0) {
        assert_eq!(
            write(MEMBERS, &run[..length], 0),
            (2, vec![]),
            "2 goes before 9"
        );
    }
    assert_eq!(write(MEMBERS, &[], 0), (0, vec![]));
    let (ask, wrong) = (entry(1, 0, 3, 0, 0), entry(1, 0, 4, 0, 0));
    assert_eq!(
        write(1, &ask.repeat(4097), 0),
        (4, vec![]),
        "4 goes before 9"
    );
    assert_eq!(
        write(1, &[ask.repeat(4096), wrong].concat(), 0),
        (2, vec![]),
        "2 before 4"
    );
    assert_eq!(write(1, &ask.repeat(4096), 204_799), (9, vec![]));
    assert_eq!(write(1, &ask.repeat(4096), 204_800).1.len(), 204_800);
}

/// A log and results of so many ops, and their journal. No result has to be what the fee rules give:
/// what stands there is written.
fn applied(ops: usize) -> (Vec<u8>, Vec<u8>, Vec<u8>) {
    let log = entry(u64::MAX, 1, 2, 3, 1_000_000).repeat(ops);
    let results: Vec<u8> = (0..9 * ops).map(|place| (place * 37 % 251) as u8).collect();
    let mut file = model::write(1, &log);
    for (frame, result) in file.chunks_mut(50).zip(results.chunks(9)) {
        frame[41..].copy_from_slice(result);
    }
    (log, results, file)
}

#[test]
fn ops_that_are_appended() {
    let (log, results, file) = applied(4096);
    for (from, to) in [
        (0, 0),
        (0, 1),
        (3, 5),
        (4095, 4096),
        (4096, 4096),
        (0, 4096),
    ] {
        let due = file[50 * from as usize..50 * to as usize].to_vec();
        let (needed, just) = ((32 * to) as usize, (9 * to) as usize);
        let (log, results) = (&log[..needed], &results[..just]);
        assert_eq!(append(from, to, log, results, due.len()), (0, due.clone()));
        assert_eq!(
            append(from, to, log, results, due.len() + 7),
            (0, due.clone())
        );
        if from < to {
            assert_eq!(append(from, to, log, results, due.len() - 1), (9, vec![]));
        }
        if to > 0 {
            let short = append(from, to, &log[1..], results, 0);
            assert_eq!(short, (1, vec![]), "1 goes before 9");
            assert_eq!(append(from, to, log, &results[1..], due.len()), (1, vec![]));
        }
    }
}

#[test]
fn ops_that_are_not_there() {
    let (log, results, _) = applied(4097);
    let outside = [
        (1, 0),
        (4096, 4095),
        (u32::MAX, 0),
        (u32::MAX, 4096),
        (0, 4097),
        (4096, 4097),
        (4097, 4097),
        (0, u32::MAX),
        (u32::MAX, u32::MAX),
    ];
    for (from, to) in outside {
        for room in [0, 50, 300_000] {
            assert_eq!(
                append(from, to, &log, &results, room),
                (1, vec![]),
                "{from} to {to}"
            );
        }
    }
}

#[test]
fn takings_are_all_totals() {
    let full = 1_000_000_000_u64.to_be_bytes();
    assert_eq!(
        raw::journal_takings(4096, &full.repeat(4096)),
        (0, 4_096_000_000_000)
    );
    let mut run = full.repeat(3);
    run[23] += 1;
    assert_eq!(
        raw::journal_takings(3, &run),
        (1, 0),
        "a total past the limit"
    );
    let journal = Journal::read(MEMBERS, &small()).unwrap();
    assert_eq!(
        (journal.takings(), journal.totals()),
        (5001, &[3000, 2000, 1, 0][..])
    );
    assert_eq!(journal.total(1), 2000);
}

#[test]
fn frames_as_they_stand() {
    let mut file = small();
    file[41] = 0;
    file[91] = 255;
    let frames: Vec<_> = journal::frames(&file).map(Result::unwrap).collect();
    let ops: Vec<u32> = frames.iter().map(|frame| frame.op).collect();
    assert_eq!(ops, [1, 2, 3, 4, 5, 6, 7]);
    let outcomes: Vec<_> = frames.iter().map(|frame| frame.known_outcome()).collect();
    let [none, also_none, refund, ..] = outcomes[..] else {
        panic!("{outcomes:?}");
    };
    assert_eq!(
        (none, also_none, refund),
        (None, None, Some(Outcome::Refund))
    );
    assert_eq!((frames[1].outcome, frames[1].total), (255, 2000));
    let due = Entry {
        client: 8,
        request: 0,
        operation: Operation::Refund,
        member: 0,
        cents: 1500,
    };
    assert_eq!(frames[2].entry, due);
}

/// The frames end with the first whose form is bad, and the iterator then says where that is.
#[test]
fn frames_of_bad_form() {
    let spoilt = |place: usize| {
        let mut file = small();
        file[place] ^= 0x80;
        file
    };
    let cut = small()[..149].to_vec();
    for (file, fault) in [
        (cut, Fault::CutShort),
        (spoilt(100), Fault::Length),
        (spoilt(104), Fault::Version),
        (spoilt(105), Fault::OpNumber),
        (spoilt(126), Fault::Entry),
    ] {
        let mut frames = journal::frames(&file);
        assert_eq!(frames.by_ref().take(2).filter(Result::is_ok).count(), 2);
        assert_eq!((frames.next(), frames.offset()), (Some(Err(fault)), 100));
        assert_eq!((frames.next(), frames.offset()), (None, 100));
    }
    let long = model::write(1, &entry(1, 0, 3, 0, 0).repeat(4097));
    let last = journal::frames(&long).last();
    assert_eq!(last, Some(Err(Fault::PastLast)));
    assert_eq!(journal::frames(&long).count(), 4097);
    assert_eq!(journal::frames(&[]).next(), None);
    for place in [7, 4096, u64::MAX] {
        let fault = if place == 7 { 1 } else { 8 };
        assert_eq!(raw::journal_frame(&small(), place), (fault, [0; 7]));
    }
}

/// Entries that the safe crate can hold and that no journal takes.
#[test]
fn entries_that_are_not_written() {
    let entry = |operation, cents| Entry {
        client: 1,
        request: 0,
        operation,
        member: 0,
        cents,
    };
    for (operation, cents) in [
        (Operation::Fee, 0),
        (Operation::Fee, 1_000_001),
        (Operation::Refund, 0),
        (Operation::Refund, u64::MAX),
        (Operation::Ask, 1),
    ] {
        let written = Journal::write(1, &[entry(operation, cents)]);
        assert_eq!(written, Err(Refusal::OutsideEntryRules));
    }
    let ask = entry(Operation::Ask, 0);
    assert_eq!(Journal::write(1, &[ask; 4097]), Err(Refusal::PastRoom));
    let file = Journal::write(1, &[ask; 4096]).unwrap();
    assert_eq!(Journal::read(1, &file).unwrap().entries(), [ask; 4096]);
}
