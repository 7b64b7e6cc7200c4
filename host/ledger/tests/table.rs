//! The table of `ledger show`, word for word.

mod common;

use common::{frame, journal, with};
use std::io::Write;
use std::process::{Command, Stdio};

/// What `show` prints of a journal that it reads from its input, and its status.
fn shown(words: &[&str], journal: &[u8]) -> (Option<i32>, String) {
    let mut child = Command::new(env!("CARGO_BIN_EXE_ledger"))
        .args(["show", "-"])
        .args(words)
        .stdin(Stdio::piped())
        .stdout(Stdio::piped())
        .spawn()
        .expect("it starts");
    let mut input = child.stdin.take().expect("a pipe");
    input.write_all(journal).expect("it reads all");
    drop(input);
    let output = child.wait_with_output().expect("it ends");
    let text = String::from_utf8(output.stdout).expect("text");
    (output.status.code(), text)
}

const TABLE: &str = "\
op  client  request  kind    member      euros  outcome             total    takings
 1       7        0  fee          3      45.00  taken               45.00      45.00
 2       7        1  refund       3      10.00  paid back           35.00      35.00
 3      12        0  ask          3       0.00  total told          35.00      35.00
 4      12        1  fee          5  10,000.00  taken           10,000.00  10,035.00
 5      12        2  fee          8      20.00  no such member       0.00  10,035.00
";

#[test]
fn a_journal_is_a_table() {
    let end = "5 entries; outcomes and totals not checked (--members M checks them)";
    assert_eq!(
        shown(&[], &journal()),
        (Some(0), format!("{TABLE}\n{end}\n"))
    );
    let end = "standard input: good: 5 entries, takings 10,035.00 euros";
    let members = ["--members", "8"];
    assert_eq!(
        shown(&members, &journal()),
        (Some(0), format!("{TABLE}\n{end}\n"))
    );
}

#[test]
fn an_empty_journal_has_a_header() {
    let header = "op  client  request  kind  member  euros  outcome  total  takings\n";
    let end = "0 entries; outcomes and totals not checked (--members M checks them)";
    assert_eq!(shown(&[], b""), (Some(0), format!("{header}\n{end}\n")));
}

/// Where the form of a frame is bad, the table ends.
#[test]
fn a_frame_that_cant_be_read_is_named() {
    let table = "\
op  client  request  kind  member  euros  outcome  total  takings
 1       7        0  fee        3  45.00  taken    45.00    45.00
bad frame at byte 50 (op 2): its version isn't 1
";
    let end = "1 entry; outcomes and totals not checked (--members M checks them)";
    let bad = with(54, 7);
    assert_eq!(shown(&[], &bad), (Some(1), format!("{table}\n{end}\n")));
    let end = "standard input: bad frame at byte 50 (op 2): its version isn't 1; \
               before it 1 good frame, takings 45.00 euros";
    assert_eq!(
        shown(&["--members", "8"], &bad),
        (Some(1), format!("{table}\n{end}\n"))
    );
}

/// A total that the fee rules don't give stands in the table; only --members finds it wrong.
#[test]
fn the_fee_rules_are_asked_with_members_alone() {
    let bad = with(99, 0xAD);
    let (status, text) = shown(&[], &bad);
    assert_eq!((status, text.lines().count()), (Some(0), 8));
    assert!(
        text.contains("10.00  paid back           35.01      35.00\n"),
        "{text}"
    );
    let (status, text) = shown(&["--members", "8"], &bad);
    assert_eq!((status, text.lines().count()), (Some(1), 8));
    let end = "\nstandard input: bad frame at byte 50 (op 2): the total isn't what the fee rules \
               give; before it 1 good frame, takings 45.00 euros\n";
    assert!(text.ends_with(end), "{text}");
}

/// The widest numbers keep the columns straight, and an outcome may be any byte.
#[test]
fn every_outcome_has_words() {
    let widest = (u64::MAX, u32::MAX);
    let journal: Vec<Vec<u8>> = [5, 6, 0, 7, 255]
        .into_iter()
        .zip(1..)
        .map(|(outcome, op)| frame(op, [widest.0; 2], (2, widest.1, 100), (outcome, widest.0)))
        .collect();
    let (status, text) = shown(&[], &journal.concat());
    assert_eq!(status, Some(0));
    let lines: Vec<&str> = text.lines().collect();
    for (line, outcome) in lines[1..6].iter().zip([
        "not taken, past the limit",
        "not paid, above the total",
        "0, which is no outcome",
        "7, which is no outcome",
        "255, which is no outcome",
    ]) {
        assert!(line.contains(outcome), "{line}");
        let end = "  184,467,440,737,095,516.15     0.00";
        assert!(line.ends_with(end), "{line}");
        assert_eq!(line.len(), lines[0].len());
    }
}

/// The takings go by the outcomes that stand there, not by what was asked for, and stop at 0.
#[test]
fn takings_of_a_journal_that_isnt_good() {
    let frames = [
        ((1, 0, 500), 1, "5.00"),
        ((2, 0, 200), 2, "3.00"),
        ((2, 0, 301), 2, "0.00"),
        ((2, 1, 1_000_000), 2, "0.00"),
        ((2, 1, 70), 1, "0.70"),
        ((1, 0, 20), 2, "0.50"),
        ((1, 0, 900), 3, "0.50"),
        ((1, 9, 900), 4, "0.50"),
        ((1, 0, 900), 5, "0.50"),
        ((2, 0, 900), 6, "0.50"),
        ((1, 0, 900), 0, "0.50"),
        ((3, 0, 0), 1, "0.50"),
    ];
    let ops = (1..).zip(frames);
    let journal: Vec<Vec<u8>> = ops
        .map(|(op, (entry, outcome, _))| frame(op, [7, op.into()], entry, (outcome, u64::MAX)))
        .collect();
    let (status, text) = shown(&[], &journal.concat());
    assert_eq!(status, Some(0));
    let takings = text.lines().skip(1).map(|line| line.split(' ').next_back());
    let due = frames.map(|(_, _, takings)| Some(takings));
    assert_eq!(takings.take(due.len()).collect::<Vec<_>>(), due);
}

/// The most that a journal can come to, and as much taken away again.
#[test]
fn takings_of_the_longest_journals() {
    for (outcome, first, last) in [(1, "10,000.00", "40,960,000.00"), (2, "0.00", "0.00")] {
        let journal: Vec<Vec<u8>> = (1..=4096)
            .map(|op| frame(op, [7, op.into()], (1, 0, 1_000_000), (outcome, 0)))
            .collect();
        let (_, text) = shown(&[], &journal.concat());
        let lines: Vec<&str> = text.lines().collect();
        assert!(lines[1].ends_with(&format!("  {first}")), "{}", lines[1]);
        assert!(
            lines[4096].ends_with(&format!("  {last}")),
            "{}",
            lines[4096]
        );
    }
}
