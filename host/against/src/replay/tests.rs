//! What a replay has to notice, and where the amended Rust stands in for a trace.

use super::*;

/// A primary of three with one member and room for one entry: a fee of client 1, committed, and a frame that is malformed.
const COMMITTED: &str = "\
N 3 0 3 1 1
= 0 - -
$ 0
M 102 0 000000230101000000000000000001000000000000000001000000000000000000000000000009
= 0 0000002f0102010000000000000001000000000000000000000001000000000000000001000000000000000000000000000009\
0000002f0102020000000000000001000000000000000000000001000000000000000001000000000000000000000000000009 -
$ 0
M 0 36 0000000c0103000000000000000101
= 2 - -
@ 15
$ 0
M 0 36 0000000b0103000000000000000101
= 2 - -
@ 5
M 0 36 0000000c010300000000000000000101
= 0 - 00000020010c000000000000000000000000010000000000000000010000000000000009
$ 9
";

/// Replica 2 of three as document 01 has it: its own StartViewChange counts, and the DoViewChange goes out at once.
const OWN_VOTE: &str = "\
N 3 2 3 8 8
= 0 - -
T 0 0
= 0 - -
M 48 0 000000080107020000000102
= 0 000000080107000000000102000000080107010000000102000000140108010000000102000000000000000000000000 -
: 2 1 0 0 0 0 0 1 0 4 1 0 0 0 cbf29ce484222325 cbf29ce484222325 b9b23f3a46fd0825 a8c7f832281a39c5 cbf29ce484222325
T 48 0
= 0 000000080107000000000102000000080107010000000102000000140108010000000102000000000000000000000000 -
M 23 0 000000080107020000000202
= 9 - -
N 3 0 3 8 8
= 0 - -
";

/// The line at which a trace fails.
fn fails_at(text: &str, document_01: bool) -> Option<usize> {
    played(text, document_01).err().map(|(line, _)| line)
}

/// The trace with this line in place of its line of that number, counted from 1.
fn with(text: &str, number: usize, line: &str) -> String {
    let mut lines: Vec<&str> = text.lines().collect();
    lines[number - 1] = line;
    lines.join("\n")
}

#[test]
fn another_offset_or_other_takings_are_noticed() {
    let replay = played(COMMITTED, false).map_err(|fault| panic!("{fault:?}"));
    let replay = replay.expect("a trace that holds");
    assert_eq!((replay.offsets, replay.takings), (2, 4));
    for (number, line) in [
        (3, "$ 1"),
        (9, "@ 14"),
        (10, "$ 9"),
        (13, "@ 0"),
        (16, "$ 0"),
    ] {
        let changed = with(COMMITTED, number, line);
        assert_eq!(fails_at(&changed, false), Some(number), "{line}");
    }
    for number in [3, 6, 16] {
        let changed = with(COMMITTED, number, "@ 0");
        assert_eq!(
            fails_at(&changed, false),
            Some(number),
            "no malformed frame"
        );
    }
}

/// What is wrong with this line behind the committed fee, in memory that was spoilt.
fn fault_in(spoil: fn(&mut Memory), line: &str) -> Option<String> {
    let mut replay = played(COMMITTED, false).expect("a trace that holds");
    let Running::Replica(replica) = &mut replay.running else {
        panic!("the run of a replica");
    };
    spoil(&mut replica.memory);
    let words: Vec<&str> = line.split(' ').collect();
    replay.line(&words).err()
}

#[test]
fn the_call_and_the_addition_are_both_compared() {
    const TAKINGS: usize = raw::state::TAKINGS;
    let fault = |words: &str| Some(format!("takings: {words}"));
    assert_eq!(fault_in(|_| (), "$ 9"), None);
    let answered = fault_in(|memory| memory.state[TAKINGS + 7] = 8, "$ 9");
    assert_eq!(answered, fault("the call answers 8, due is 9"));
    let added = fault_in(|memory| memory.totals[7] = 8, "$ 9");
    assert_eq!(added, fault("the totals add up to 8, due is 9"));
    let refused = fault_in(|memory| memory.state[TAKINGS] = 1, "$ 0");
    assert_eq!(refused.as_deref(), Some("the takings are refused by 1"));
}

#[test]
fn a_trace_without_the_exception() {
    assert_eq!(fails_at(OWN_VOTE, false), Some(6));
    let replay = played(OWN_VOTE, true).expect("a trace that holds");
    assert_eq!(replay.instead, (1, 3));
    assert_eq!(replay.compared.values().sum::<usize>(), 3);
    for (number, line) in [(4, "= 1 - -"), (13, "= 1 - -"), (6, "= 0 -")] {
        let changed = with(OWN_VOTE, number, line);
        assert_eq!(fails_at(&changed, true), Some(number), "{line}");
    }
}
