//! Export and import as the program does them: what it prints, and its statuses.

mod common;
mod runs;

use common::{frame, journal, with};
use runs::{fault, run, said, File};
use std::process::{Command, Stdio};

const TABLE: &str = "op,client,request,kind,member,cents\r\n\
                     1,7,0,fee,3,4500\r\n\
                     2,7,1,refund,3,1000\r\n\
                     3,12,0,ask,3,0\r\n\
                     4,12,1,fee,5,1000000\r\n\
                     5,12,2,fee,8,2000\r\n";
const GOOD: &str = "good: 5 entries: 3 fees (10,065.00 euros), 1 refund (10.00 euros), 1 ask";
const EXPORT: [&str; 4] = ["export", "-", "--members", "8"];

/// What `import` says of a table that it reads from its input, without its name.
fn imported(table: &[u8]) -> (Option<i32>, String) {
    let (status, output, errors) = run(&["import", "-"], table);
    assert_eq!(errors, "");
    let line = output.strip_prefix("standard input: ").expect("its name");
    let line = line.strip_suffix('\n').expect("a line");
    assert_eq!(line.lines().count(), 1, "{line}");
    (status, String::from(line))
}

fn good(line: &str) -> (Option<i32>, String) {
    (Some(0), String::from(line))
}

#[test]
fn a_journal_is_exported_byte_for_byte() {
    assert_eq!(run(&EXPORT, &journal()), said(0, TABLE));
    let file = File::new("exported", &journal());
    let words = ["export", "--members", "8", file.path()];
    assert_eq!(run(&words, b""), said(0, TABLE));
    assert_eq!(std::fs::read(&file.0).expect("there"), journal());
    let header = "op,client,request,kind,member,cents\r\n";
    assert_eq!(run(&EXPORT, b""), said(0, header));
}

#[test]
fn a_table_is_summed() {
    let file = File::new("table.csv", TABLE.as_bytes());
    let line = format!("{}: {GOOD}\n", file.path());
    assert_eq!(run(&["import", file.path()], b""), said(0, &line));
    let left = std::fs::read(&file.0).expect("there");
    assert_eq!(left, TABLE.as_bytes());
    let bare = TABLE.strip_suffix("\r\n").expect("its last line end");
    let quoted = TABLE.replace("12", "\"12\"").replace("op", "\"op\"");
    for table in [TABLE, bare, &quoted] {
        assert_eq!(imported(table.as_bytes()), good(GOOD));
    }
    let none = "good: 0 entries: 0 fees (0.00 euros), 0 refunds (0.00 euros), 0 asks";
    assert_eq!(imported(&TABLE.as_bytes()[..37]), good(none));
}

/// The longest journal with the widest numbers comes back with as many entries.
#[test]
fn what_is_exported_is_imported() {
    let widest = [u64::MAX; 2];
    let frames = (1..=4096).map(|op| frame(op, widest, (2, u32::MAX, 1_000_000), (4, 0)));
    let journal: Vec<u8> = frames.flatten().collect();
    let (status, table, errors) = run(&EXPORT, &journal);
    assert_eq!((status, errors.as_str()), (Some(0), ""));
    let last = "4096,18446744073709551615,18446744073709551615,refund,4294967295,1000000\r\n";
    assert!(table.ends_with(last));
    let line = "good: 4096 entries: 0 fees (0.00 euros), \
                4096 refunds (40,960,000.00 euros), 0 asks";
    assert_eq!(imported(table.as_bytes()), good(line));
}

#[test]
fn a_bad_journal_is_not_exported() {
    let line = "ledger: standard input: bad frame at byte 50 (op 2): the total isn't what the \
                fee rules give; before it 1 good frame, takings 45.00 euros\n";
    let expected = (Some(1), String::new(), String::from(line));
    assert_eq!(run(&EXPORT, &with(99, 0)), expected);
    let (status, output, errors) = run(&EXPORT, &journal()[..249]);
    assert_eq!((status, output.as_str()), (Some(1), ""));
    assert!(errors.contains("the file ends inside it"), "{errors}");
    let more = ["export", "-", "--members", "9"];
    let (status, output, errors) = run(&more, &journal());
    assert_eq!((status, output.as_str()), (Some(1), ""));
    assert!(errors.contains("bad frame at byte 200 (op 5)"), "{errors}");
}

#[test]
fn a_bad_table_is_told_in_a_line() {
    let file = File::new("bad.csv", TABLE.replace(",refund", ",Refund").as_bytes());
    let line = "bad row 3, field kind: expected fee, refund or ask, found 'Refund'; \
                its letters are small ones";
    let shown = format!("{}: {line}\n", file.path());
    assert_eq!(run(&["import", file.path()], b""), said(1, &shown));
    for (file, hint) in [
        (
            &journal()[..],
            "this is a journal, ledger export makes a table of it",
        ),
        (
            b"PK\x03\x04\x14\x00",
            "this is a spreadsheet program's own file, save it as CSV",
        ),
    ] {
        let (status, line) = imported(file);
        assert_eq!(status, Some(1));
        let front = "bad row 1 (the header), field op: expected the word op, found '";
        assert!(line.starts_with(front), "{line}");
        assert!(line.ends_with(&format!("'; {hint}")), "{line}");
    }
}

/// A table may have more rows than a journal has entries, and they are read to the last.
#[test]
fn a_long_table_is_read_to_its_end() {
    let rows = (1..=100_000).map(|op| format!("{op},1,{op},fee,0,1\r\n"));
    let mut table: String = rows.collect();
    table.insert_str(0, &TABLE[..37]);
    let line = "good: 100000 entries: 100000 fees (1,000.00 euros), 0 refunds (0.00 euros), 0 asks";
    assert_eq!(imported(table.as_bytes()), good(line));
    table.push_str("100001,1,1,fee,0,0\r\n");
    let line = "bad row 100002, field cents: expected a number from 1 to 1000000, as a fee has, \
                found '0'";
    assert_eq!(imported(table.as_bytes()), (Some(1), String::from(line)));
}

/// Who closes the pipe makes no noise, and has the status of the journal or the table.
#[test]
fn a_closed_pipe_ends_it_quietly() {
    let frames = (1..=4096).map(|op| frame(op, [u64::MAX; 2], (2, u32::MAX, 1), (4, 0)));
    let journal = File::new("piped", &frames.flatten().collect::<Vec<u8>>());
    let table = File::new("piped.csv", TABLE.as_bytes());
    let bad = File::new("piped bad.csv", b"op\r\n");
    for (words, status) in [
        (&["export", journal.path(), "--members", "8"][..], 0),
        (&["import", table.path()], 0),
        (&["import", bad.path()], 1),
    ] {
        let mut child = Command::new(env!("CARGO_BIN_EXE_ledger"))
            .args(words)
            .stdout(Stdio::piped())
            .stderr(Stdio::piped())
            .spawn()
            .expect("it starts");
        drop(child.stdout.take());
        let output = child.wait_with_output().expect("it ends");
        assert_eq!(output.status.code(), Some(status), "{words:?}");
        assert_eq!(String::from_utf8(output.stderr).expect("text"), "");
    }
}

/// What can't be printed is said, and what can't be read.
#[test]
fn what_cant_be_done_is_named() {
    let file = File::new("full journal", &journal());
    let full = std::fs::OpenOptions::new().write(true).open("/dev/full");
    let output = Command::new(env!("CARGO_BIN_EXE_ledger"))
        .args(["export", file.path(), "--members", "8"])
        .stdout(full.expect("there"))
        .output()
        .expect("it ends");
    assert_eq!(output.status.code(), Some(2));
    let errors = String::from_utf8(output.stderr).expect("text");
    assert!(errors.starts_with("ledger: can't print: "), "{errors}");
    let said = fault(&["import", "no/such\nfile.csv"]);
    assert!(
        said.starts_with("no/such\\nfile.csv can't be read: "),
        "{said}"
    );
}
