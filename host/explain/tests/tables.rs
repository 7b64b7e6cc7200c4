//! The table of a frame's fields: its mark, and what of a long log is in it.

mod common;

use common::{bytes, good, start_view, REPLY};
use explain::shapes::Reader;
use explain::show::Shown;

fn table(frame: &[u8], all: bool) -> Vec<String> {
    let table = Shown::new(Reader::Replica, frame, all).table();
    table.lines().map(String::from).collect()
}

/// The numbers of the entries in a table, and the lines in place of others.
fn entries(lines: &[String]) -> Vec<&str> {
    let lines = lines.iter().map(|line| line.trim());
    let heads = lines.filter(|line| line.starts_with("entry ") || line.starts_with("... "));
    heads.collect()
}

#[test]
fn every_byte_is_shown_at_its_place() {
    for frame in good() {
        let mut shown = Vec::new();
        for line in &table(&frame, true)[1..] {
            let Ok(place) = line[..5].trim().parse::<usize>() else {
                assert!(line.trim().starts_with("entry "), "{line}");
                continue;
            };
            assert_eq!(place, shown.len(), "{line}");
            shown.extend(bytes(line[7..].get(..23).unwrap_or(&line[7..])));
        }
        assert_eq!(shown, frame);
    }
}

/// The names in a table, from the fourth on; those before are the same in each frame.
fn names(reader: Reader, frame: &[u8]) -> String {
    let table = Shown::new(reader, frame, true).table();
    let lines = table.lines().skip(4);
    let names = lines.map(|line| line[32..].split("  ").next().unwrap_or_default().trim());
    let names = names.map(|name| {
        if name.starts_with("entry 1 ") {
            "entry:"
        } else {
            name
        }
    });
    let names: Vec<&str> = names.collect();
    names.join(", ")
}

/// The table of frames, written once more.
#[test]
fn each_kind_has_its_fields() {
    let entry = "entry:, client, request, operation, three zero bytes, member, cents";
    let shown = good()
        .into_iter()
        .map(|frame| names(Reader::Replica, &frame));
    // Of the frames with a log the empty ones.
    let shown: Vec<String> = shown.filter(|names| !names.contains("entry 2")).collect();
    let expected = [
        format!("addressee, {entry}"),
        format!("addressee, view, op number o, commit number c, {entry}"),
        String::from("addressee, view, op number o, sender"),
        String::from("addressee, view, commit number c"),
        String::from("addressee, sender, view, op number o"),
        String::from("addressee, view, start, end, commit number c"),
        String::from("addressee, view, sender"),
        String::from("addressee, view, sender, last normal view, op number o, commit number c"),
        String::from("addressee, view, op number o, commit number c"),
        String::from("addressee, sender, nonce, view"),
        String::from("addressee, view, nonce, sender, mark"),
        String::from("addressee, view, nonce, sender, mark, op number o, commit number c"),
    ];
    assert_eq!(shown, expected);
    let reply = "addressee, view, client, request, outcome, total";
    assert_eq!(names(Reader::Desk, &bytes(REPLY)), reply);
}

#[test]
fn the_mark_stands_under_the_wrong_byte() {
    let frame = bytes("0000002F 010900 00000000 00000002 00000000");
    let lines = table(&frame, false);
    let expected = [
        "place  bytes                    field             value",
        "    0  00 00 00 2F              length            47",
        "    4  01                       version           1",
        "    5  09                       kind              9 StartView",
        "    6  00                       addressee         replica 0",
        "    7  00 00 00 00              view              0",
        "   11  00 00 00 02              op number o       2",
        "                ^^ wrong",
        "   15  00 00 00 00              commit number c   0",
    ];
    assert_eq!(lines, expected);
}

/// The values in a table.
fn values(reader: Reader, frame: &[u8]) -> Vec<String> {
    let table = Shown::new(reader, frame, true).table();
    let values = table.lines().filter_map(|line| line.get(50..));
    values.skip(1).map(String::from).collect()
}

#[test]
fn values_are_said() {
    let answer = "00000039 010B01 00000102 FFFFFFFFFFFFFFFF 02 01 00000001 00000000";
    let entry = "0000000000000007 0000000000000100 02000000 00000003 00000000000003E9";
    let said = [
        "57",
        "1",
        "11 RecoveryResponse",
        "replica 1",
        "258",
        "18446744073709551615",
        "replica 2",
        "1, with a log",
        "1",
        "0",
        "7",
        "256",
        "2 Refund",
        "0",
        "3",
        "1001 (10.01)",
    ];
    let frame = bytes(&format!("{answer} {entry}"));
    assert_eq!(values(Reader::Replica, &frame), said);
    let said = "32|1|12 Reply|0|0|7|0|1 Fee|4500 (45.00)";
    assert_eq!(values(Reader::Desk, &bytes(REPLY)).join("|"), said);
    let wrong = bytes("0000000C 0104 00");
    assert_eq!(values(Reader::Replica, &wrong).join("|"), "12|1|4 Commit");
}

#[test]
fn missing_bytes_are_shown_as_such() {
    let lines = table(&bytes("0000000B 0104"), false);
    let expected = [
        "    6  --                       addressee",
        "       ^^ missing",
    ];
    assert_eq!(lines[lines.len() - 2..], expected);
    let lines = table(&bytes("0000000B 010401 0000"), false);
    let expected = [
        "    7  00 00 -- --              view",
        "             ^^ missing",
    ];
    assert_eq!(lines[lines.len() - 2..], expected);
    let lines = table(&[], false);
    let expected = [
        "    0  -- -- -- --              length",
        "       ^^ missing",
    ];
    assert_eq!(lines[1..], expected);
}

/// What stands behind a wrong kind has no fields, and not all of it is shown.
#[test]
fn what_isnt_read_is_cut() {
    let mut frame = start_view(4_096);
    frame[5] = 4;
    let lines = table(&frame, true);
    assert_eq!(lines.len(), 9);
    assert_eq!(lines[5].split("  ").last(), Some("not read"));
    assert_eq!(lines[8].trim(), "... 131,061 more bytes");
}

#[test]
fn a_long_log_is_cut() {
    let frame = start_view(4_096);
    let lines = table(&frame, false);
    let shown = [
        "entry 1 of 4096",
        "entry 2 of 4096",
        "... 4,093 more entries, all good",
        "entry 4096 of 4096",
    ];
    assert_eq!(entries(&lines), shown);
    assert!(lines.iter().any(|line| line.starts_with("131083  00 00")));
    assert_eq!(table(&frame, true).len(), 1 + 7 + 7 * 4_096);
    assert_eq!(table(&start_view(4), false).len(), 1 + 7 + 7 * 4);
}

#[test]
fn the_entry_with_the_wrong_byte_is_shown() {
    let mut frame = start_view(4_096);
    frame[19 + 32 * 99 + 17] = 1;
    let lines = table(&frame, false);
    let shown = [
        "entry 1 of 4096",
        "entry 2 of 4096",
        "... 97 more entries, all good",
        "entry 100 of 4096",
        "... 3,995 more entries, not judged",
        "entry 4096 of 4096",
    ];
    assert_eq!(entries(&lines), shown);
    frame.truncate(19 + 32 * 99);
    let shown = [
        "entry 1 of 4096",
        "entry 2 of 4096",
        "... 96 more entries, all good",
        "entry 99 of 4096",
        "entry 100 of 4096",
    ];
    assert_eq!(entries(&table(&frame, false)), shown);
}

/// A wrong number before the log says nothing about the entries; a byte too many behind it does.
#[test]
fn entries_are_called_good_only_where_they_were_judged() {
    let mut frame = start_view(9);
    frame.push(0);
    let shown = table(&frame, false);
    assert_eq!(entries(&shown)[2], "... 6 more entries, all good");
    assert_eq!(
        shown[shown.len() - 2..],
        [
            "  307  00                       too many",
            "       ^^ wrong"
        ]
    );
    frame[14] = 8;
    assert_eq!(
        entries(&table(&frame, false))[2],
        "... 6 more entries, not judged"
    );
}
