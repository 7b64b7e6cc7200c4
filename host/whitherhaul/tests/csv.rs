//! Tables for a spreadsheet: good ones, and each way in which a row can be bad. A second reading of
//! the rules judges what is too much to say by hand.

mod common;

use common::lent::{self, Imported};
use common::model::entry;
use common::{frames, table};
use whitherhaul::csv::{self, Column, FieldFault};
use whitherhaul::{Entry, Operation, Refusal};

/// A header and three rows, one of each kind.
const SMALL: [[&str; 6]; 4] = [
    ["op", "client", "request", "kind", "member", "cents"],
    ["1", "7", "0", "fee", "3", "4500"],
    ["2", "7", "1", "refund", "3", "500"],
    ["3", "8", "0", "ask", "10", "0"],
];

/// The header's row.
const HEADER: &str = "op,client,request,kind,member,cents\r\n";

/// The entries of the small table.
fn run() -> Vec<u8> {
    [
        entry(7, 0, 1, 3, 4500),
        entry(7, 1, 2, 3, 500),
        entry(8, 0, 3, 10, 0),
    ]
    .concat()
}

/// A file of rows that are made of their fields by their numbers, both from 1 on.
fn file_of(field: impl Fn(usize, usize, &str) -> String) -> Vec<u8> {
    let rows = (1..).zip(SMALL).map(|(row, fields)| {
        let texts: Vec<String> = (1..)
            .zip(fields)
            .map(|(column, text)| field(row, column, text))
            .collect();
        texts.join(",") + "\r\n"
    });
    rows.collect::<String>().into_bytes()
}

fn small() -> Vec<u8> {
    file_of(|_, _, text| String::from(text))
}

fn quoted() -> Vec<u8> {
    file_of(|_, _, text| format!("\"{text}\""))
}

/// The small table with another text in place of a field, or of a field with all that follows it in
/// its row; and where that begins.
fn with(row: usize, column: usize, text: &str, rest: bool) -> (Vec<u8>, usize) {
    let mut rows: Vec<Vec<&str>> = SMALL.map(|fields| fields.to_vec()).to_vec();
    rows[row - 1][column - 1] = text;
    if rest {
        rows[row - 1].truncate(column);
    }
    let rows: Vec<String> = rows.iter().map(|row| row.join(",") + "\r\n").collect();
    let before: usize = rows[..row - 1].iter().map(String::len).sum();
    let fields = &SMALL[row - 1][..column - 1];
    let begins = before + fields.iter().map(|field| field.len() + 1).sum::<usize>();
    (rows.concat().into_bytes(), begins)
}

/// Imports a file with an area of just the right length, or where it is bad with areas of several,
/// and as the safe crate does; what came out is what the second reading says.
fn judged(file: &[u8]) -> Imported {
    let shown = String::from_utf8_lossy(&file[..file.len().min(300)]);
    let safe = csv::import(file);
    match table::import(file) {
        Err(bad) => {
            for room in [0, 32, 32 * (file.len() / 13) + 1] {
                let due = Imported::refused(13, bad);
                assert_eq!(lent::import(file, room), due, "{shown}");
            }
            assert_eq!(safe, Err(refusal(bad)), "{shown}");
            Imported::refused(13, bad)
        }
        Ok(run) => {
            let given = lent::import(file, run.len());
            assert_eq!(given.entries, run, "{shown}");
            let safe = safe.map(|entries| csv::export(&entries));
            assert_eq!(safe, Ok(Ok(table::export(&run))), "{shown}");
            given
        }
    }
}

/// The safe crate's refusal for a bad row.
fn refusal(bad: [usize; 4]) -> Refusal {
    let [row, column, fault, offset] = bad;
    Refusal::BadRow {
        row,
        column: Column::from_number(column as u8).expect("1 to 6"),
        fault: FieldFault::from_number(fault as u8).expect("1 to 4"),
        offset,
    }
}

/// What is said of a file whose bad row stands behind the header.
fn behind_header(rows: &str) -> [usize; 4] {
    let given = judged(format!("{HEADER}{rows}").as_bytes());
    assert_eq!(given.number, if given.bad == [0; 4] { 0 } else { 13 });
    given.bad
}

#[test]
fn the_small_table() {
    for (file, last) in [(small(), "10,0\r\n"), (quoted(), "\"10\",\"0\"\r\n")] {
        assert!(file.ends_with(last.as_bytes()));
        assert_eq!(judged(&file), Imported::done(run()));
        assert_eq!(judged(&file[..file.len() - 2]), Imported::done(run()));
    }
    assert_eq!(lent::export(&run(), 200), (0, small()));
}

/// A header alone has no entries, and so has no entries' table.
#[test]
fn no_entries() {
    assert_eq!(HEADER.len(), 37);
    assert_eq!(lent::export(&[], 37), (0, HEADER.into()));
    assert_eq!(csv::export(&[]), Ok(HEADER.into()));
    for header in [HEADER, &HEADER[..35]] {
        assert_eq!(judged(header.as_bytes()), Imported::done(vec![]));
    }
    let quoted = "\"op\",client,request,\"kind\",member,cents";
    assert_eq!(judged(quoted.as_bytes()), Imported::done(vec![]));
}

#[test]
fn bad_headers() {
    let bad = |file: &str| judged(file.as_bytes()).bad;
    assert_eq!(bad(""), [1, 1, 2, 0], "an empty field isn't `op`");
    assert_eq!(bad("\r\n"), [1, 1, 2, 0]);
    assert_eq!(bad("op"), [1, 1, 3, 0]);
    assert_eq!(bad("op,client,request,kind,member"), [1, 5, 3, 23]);
    assert_eq!(bad("op,client,request,kind,member,cents,"), [1, 6, 4, 30]);
    assert_eq!(bad("op,client,request,kind,member,cents\n"), [1, 6, 1, 30]);
    assert_eq!(bad("op,client,request,kind,member,cents\r"), [1, 6, 1, 30]);
    assert_eq!(bad("op,client,kind,request,member,cents"), [1, 3, 2, 10]);
    assert_eq!(bad("op, client,request,kind,member,cents"), [1, 2, 2, 3]);
    assert_eq!(bad("OP,client,request,kind,member,cents"), [1, 1, 2, 0]);
    assert_eq!(
        bad("\u{feff}op,client,request,kind,member,cents"),
        [1, 1, 2, 0],
        "a byte order mark"
    );
    assert_eq!(
        bad("\"op,client,request,kind,member,cents\""),
        [1, 1, 1, 0],
        "one field"
    );
    let shifted = "op,\"cli\r\n1,7,0,fee,3,4500\r\nent\",request,kind,member,cents\r\n";
    assert_eq!(bad(shifted), [1, 2, 1, 3], "a quoted CRLF ends no row");
}

#[test]
fn bad_rows_by_hand() {
    assert_eq!(behind_header("1,07,0,fee,3,4500"), [2, 2, 2, 39]);
    assert_eq!(behind_header("1,7,0,fee,3,4500\r\n"), [0; 4]);
    assert_eq!(behind_header("1,7,0,fee,3,4500\r\n\r\n"), [3, 1, 2, 55]);
    assert_eq!(behind_header("1,7,0,fee,3,4500\r\n\n"), [3, 1, 1, 55]);
    assert_eq!(behind_header("1,7,0,fee,3,4500\r\n "), [3, 1, 2, 55]);
    assert_eq!(behind_header("1,7,0,fee,3,4500\r"), [2, 6, 1, 49]);
    assert_eq!(behind_header("1,7,0,fee,3,4500\n"), [2, 6, 1, 49]);
    assert_eq!(behind_header("1,7,0,fee,3,4500\r\r\n"), [2, 6, 1, 49]);
    assert_eq!(behind_header("\r\n"), [2, 1, 2, 37]);
    assert_eq!(behind_header("1;7;0;fee;3;4500\r\n"), [2, 1, 2, 37]);
    assert_eq!(behind_header("1,7,0,fee,3,\"4,500\""), [2, 6, 1, 49]);
    let twice = "1,7,0,fee,3,4500\r\n".repeat(2);
    assert_eq!(behind_header(&twice), [3, 1, 2, 55], "op 1 again");
    let shifted = "1,7,0,fee,3,1\r\n2,\"7\r\n3\",0,fee,3,1\r\n";
    assert_eq!(
        behind_header(shifted),
        [3, 2, 1, 54],
        "a quoted CRLF ends no row"
    );
}

/// Texts whose form is bad, as each field of each row.
#[test]
fn every_field_of_bad_form() {
    let texts = [
        "\"",
        "\"7",
        "7\"",
        "7\"7",
        "\"7\"7",
        "\"7\" ",
        " \"7\"",
        "\"7\"\"",
        "\"\"7\"",
        "\"\"\"\"",
        "\"7,7\"",
        "\"7\r\"",
        "\"7\n\"",
        "\"7\r\n7\"",
        "\"7\"\"7\"",
        "7\r",
        "7\n",
        "\n7",
        "\r7",
        "7\r\r",
        "\"7\"\r",
        "\"7\"\n",
    ];
    for text in texts {
        for (row, column) in (1..=4).flat_map(|row| (1..=6).map(move |column| (row, column))) {
            let (file, begins) = with(row, column, text, false);
            assert_eq!(judged(&file).bad, [row, column, 1, begins], "{text:?}");
        }
    }
}

/// Texts that no field can say, as each field of each row, plain and quoted.
#[test]
fn every_field_that_says_nothing() {
    let texts = [
        "", " ", "x", "+1", "-1", "01", "1.0", "1e1", "0x1", "1_0", "1'0", "Fee", "ASK", "fees",
        "fe", "Op", "1 ", " 1", "\t1", "1\0", "\u{b2}", "\u{7f}",
    ];
    for text in texts {
        for (row, column) in (1..=4).flat_map(|row| (1..=6).map(move |column| (row, column))) {
            let quoted = format!("\"{text}\"");
            for text in [text, &quoted] {
                let (file, begins) = with(row, column, text, false);
                assert_eq!(judged(&file).bad, [row, column, 2, begins], "{text:?}");
            }
        }
    }
}

/// A row that ends behind each of its first five fields, and one that goes on behind its last.
#[test]
fn rows_of_other_lengths() {
    for row in 1..=4 {
        for column in 1..=5 {
            let (file, begins) = with(row, column, SMALL[row - 1][column - 1], true);
            assert_eq!(judged(&file).bad, [row, column, 3, begins]);
        }
        for more in ["", "7", "\"", "\"\"", ",,"] {
            let text = format!("{},{more}", SMALL[row - 1][5]);
            let (file, begins) = with(row, 6, &text, false);
            assert_eq!(judged(&file).bad, [row, 6, 4, begins]);
        }
    }
}

/// The lower number is named: form before what it says, and that before the row's length.
#[test]
fn two_faults_in_a_field() {
    assert_eq!(behind_header("1,x\"\r\n"), [2, 2, 1, 39]);
    assert_eq!(behind_header("1,x\r\n"), [2, 2, 2, 39]);
    assert_eq!(behind_header("1,7,0,fee,3,0,"), [2, 6, 2, 49]);
    assert_eq!(behind_header("1,7,0,fee,3,1\","), [2, 6, 1, 49]);
    assert_eq!(
        behind_header("1,x,0,\"fee,3,1"),
        [2, 2, 2, 39],
        "the first field"
    );
}

/// How far a number goes, and what is past it; what 64 or 32 bits would cut to a good one, too.
#[test]
fn numbers_at_their_bounds() {
    let good = |rows: &str| assert_eq!(behind_header(rows), [0; 4], "{rows}");
    let bad = |rows: &str, column| {
        let [row, named, fault, _] = behind_header(rows);
        assert_eq!([row, named, fault], [2, column, 2], "{rows}");
    };
    good("1,18446744073709551615,18446744073709551615,refund,4294967295,1000000");
    good("1,0,0,ask,0,0");
    for past in [
        "18446744073709551616",
        "18446744073709551625",
        "20000000000000000000",
        "36893488147419103232",
        "99999999999999999999",
        "100000000000000000000",
        "184467440737095516150",
    ] {
        bad(&format!("1,{past},0,fee,3,1"), 2);
        bad(&format!("1,0,{past},fee,3,1"), 3);
        bad(&format!("1,0,0,fee,{past},1"), 5);
        bad(&format!("1,0,0,fee,3,{past}"), 6);
    }
    for past in ["4294967296", "4294967305", "42949672950", "10000000000"] {
        bad(&format!("1,0,0,fee,{past},1"), 5);
    }
    for op in ["0", "2", "01", "11", "18446744073709551617", "4294967297"] {
        bad(&format!("{op},0,0,fee,3,1"), 1);
    }
}

#[test]
fn cents_by_their_kind() {
    for kind in ["fee", "refund"] {
        for cents in ["1", "999999", "1000000"] {
            assert_eq!(behind_header(&format!("1,0,0,{kind},0,{cents}")), [0; 4]);
        }
        for cents in ["0", "1000001", "10000000", "18446744073709551617"] {
            let [row, column, fault, _] = behind_header(&format!("1,0,0,{kind},0,{cents}"));
            assert_eq!([row, column, fault], [2, 6, 2], "{kind} {cents}");
        }
    }
    assert_eq!(behind_header("1,0,0,ask,0,0"), [0; 4]);
    for cents in ["1", "00", "", "18446744073709551616"] {
        assert_eq!(
            behind_header(&format!("1,0,0,ask,0,{cents}")),
            [2, 6, 2, 49]
        );
    }
}

/// Each choice of quoted fields, in one row or in all.
#[test]
fn quotes_everywhere() {
    for chosen in 0..64 {
        for only in 0..=4 {
            let file = file_of(|row, column, text| {
                let here = only == 0 || only == row;
                if here && chosen >> (column - 1) & 1 == 1 {
                    format!("\"{text}\"")
                } else {
                    String::from(text)
                }
            });
            assert_eq!(judged(&file), Imported::done(run()));
        }
    }
}

/// Good are the cuts at the end of a row, before and behind its CRLF, and those inside cents that
/// leave some: 4, 45, 450 and 5, 50.
#[test]
fn every_cut() {
    let file = small();
    let good = (0..=file.len()).filter(|length| judged(&file[..*length]).number == 0);
    assert_eq!(
        good.collect::<Vec<usize>>(),
        [35, 37, 50, 51, 52, 53, 55, 71, 72, 73, 75, 89, 91]
    );
    let file = quoted();
    let good = (0..=file.len()).filter(|length| judged(&file[..*length]).number == 0);
    assert_eq!(good.count(), 8);
}

/// Changes each byte of a file to every other value; how many changes make another good table.
fn changed(file: &[u8]) -> usize {
    let mut changed = file.to_vec();
    let mut good = 0;
    for place in 0..file.len() {
        for byte in (0..=255).filter(|byte| *byte != file[place]) {
            changed[place] = byte;
            good += usize::from(judged(&changed).number == 0);
        }
        changed[place] = file[place];
    }
    good
}

/// Other figures of client, request, member and cents are good, but for a 0 in front of others.
#[test]
fn every_byte_changed() {
    let fee = 9 + 9 + 9 + (8 + 9 + 9 + 9);
    let refund = 9 + 9 + 9 + (8 + 9 + 9);
    let ask = 9 + 9 + (8 + 9);
    for file in [small(), quoted()] {
        assert_eq!(changed(&file), fee + refund + ask);
        assert_eq!(changed(&file[..file.len() - 2]), fee + refund + ask);
    }
}

/// A byte put before each place of a table, or taken away from there.
#[test]
fn every_byte_more_or_less() {
    for file in [small(), quoted()] {
        for place in 0..=file.len() {
            for byte in *b"\",\r\n 0129+-efx\0\xff" {
                let mut more = file.clone();
                more.insert(place, byte);
                judged(&more);
            }
        }
        for place in 0..file.len() {
            let mut less = file.clone();
            less.remove(place);
            judged(&less);
        }
    }
}

#[test]
fn areas() {
    let (run, table) = (run(), small());
    for room in [0, 1, 36, 37, table.len() - 1] {
        assert_eq!(lent::export(&run, room), (9, vec![]));
    }
    for room in [table.len(), table.len() + 1, 1000] {
        assert_eq!(lent::export(&run, room), (0, table.clone()));
    }
    for file in [small(), quoted()] {
        for room in [0, 1, 32, 95] {
            assert_eq!(lent::import(&file, room), Imported::refused(9, [0; 4]));
            let spoilt = lent::import(&[&file[..], b"\n"].concat(), room);
            let due = Imported::refused(13, [5, 1, 1, file.len()]);
            assert_eq!(spoilt, due, "13 goes before 9");
        }
        for room in [96, 97, 1000] {
            assert_eq!(lent::import(&file, room), Imported::done(run.clone()));
        }
    }
}

/// A run that is cut, and entries outside their rules, the last of the run: 2 goes before 9.
#[test]
fn entries_that_are_not_exported() {
    let run = run();
    for length in (1..run.len()).filter(|length| length % 32 != 0) {
        assert_eq!(lent::export(&run[..length], 0), (2, vec![]));
    }
    let mut wrong: Vec<Vec<u8>> = [(0, 0), (4, 0), (255, 1), (1, 0), (1, 1_000_001), (3, 1)]
        .map(|(operation, cents)| entry(7, 0, operation, 3, cents))
        .to_vec();
    wrong.push(entry(7, 0, 2, 3, 1 << 32 | 1));
    for place in 17..20 {
        let mut entry = entry(7, 0, 1, 3, 1);
        entry[place] = 1;
        wrong.push(entry);
    }
    for entry in wrong {
        for room in [0, 37, 1000] {
            let given = lent::export(&[&run[..], &entry].concat(), room);
            assert_eq!(given, (2, vec![]), "{entry:02x?}");
        }
    }
}

/// Entries of many widths; the first 4,097 go past what a journal holds, all past four figures.
#[test]
fn many_entries_both_ways() {
    let wide = |op: u64| match op % 3 {
        0 => entry(u64::MAX / op, op - 1, 1, op as u32, op % 1_000_000 + 1),
        1 => entry(op, u64::MAX / op, 2, u32::MAX / op as u32, 1_000_000),
        _ => entry(op << 40, op << 20, 3, 0, 0),
    };
    for count in [9, 10, 99, 100, 999, 1000, 4096, 4097, 10_001] {
        let run: Vec<u8> = (1..=count).flat_map(wide).collect();
        let table = table::export(&run);
        assert_eq!(lent::export(&run, table.len()), (0, table.clone()));
        assert_eq!(lent::export(&run, table.len() - 1), (9, vec![]));
        assert_eq!(judged(&table), Imported::done(run.clone()));
        let short = lent::import(&table, run.len() - 1);
        assert_eq!(short, Imported::refused(9, [0; 4]));
        let spoilt = [&table[..], b"0"].concat();
        let row = count as usize + 2;
        assert_eq!(judged(&spoilt).bad, [row, 1, 2, table.len()]);
    }
}

/// A megabyte in a field: of figures, of commas, line ends and quotes; closed or not.
#[test]
fn a_long_field() {
    let long = |part: &str| part.repeat((1 << 20) / part.len());
    for (part, fault) in [("7", 2), ("0", 2), (",", 1), ("\r\n", 1), ("\"\"", 1)] {
        let field = long(part);
        let bad = behind_header(&format!("1,\"{field}\",0,fee,3,1\r\n"));
        assert_eq!(bad, [2, 2, fault, 39]);
        let bad = behind_header(&format!("1,\"{field}"));
        assert_eq!(bad, [2, 2, 1, 39], "not closed");
        let header = format!("\"{field}\",client,request,kind,member,cents");
        assert_eq!(judged(header.as_bytes()).bad, [1, 1, fault, 0]);
    }
    let bad = behind_header(&format!("1,{},0,fee,3,1\r\n", long("7")));
    assert_eq!(bad, [2, 2, 2, 39], "plain");
    assert_eq!(behind_header(&long(",")), [2, 1, 2, 37]);
    assert_eq!(behind_header(&long("\r\n")), [2, 1, 2, 37]);
    let rest = format!("1,7,0,fee,3,1{}", long(","));
    assert_eq!(behind_header(&rest), [2, 6, 4, 49]);
}

/// The longest rows that there are, and the shortest, in areas that the safe crate lends.
#[test]
fn the_safe_crate_lends_enough() {
    let longest = Entry {
        client: u64::MAX,
        request: u64::MAX,
        operation: Operation::Refund,
        member: u32::MAX,
        cents: 1_000_000,
    };
    let table = csv::export(&[longest; 3]).expect("good entries");
    assert!(table
        .ends_with(b"3,18446744073709551615,18446744073709551615,refund,4294967295,1000000\r\n"));
    assert_eq!(csv::import(&table), Ok(vec![longest; 3]));
    let shortest = Entry {
        client: 0,
        request: 0,
        operation: Operation::Ask,
        member: 0,
        cents: 0,
    };
    for count in 0..=9 {
        let table = csv::export(&vec![shortest; count]).expect("good entries");
        assert_eq!(table.len(), 37 + 15 * count);
        let cut = &table[..table.len() - 2];
        assert_eq!(csv::import(cut), Ok(vec![shortest; count]));
    }
    let wrong = Entry {
        cents: 1,
        ..shortest
    };
    let refused = csv::export(&[longest, wrong]);
    assert_eq!(refused, Err(Refusal::OutsideEntryRules));
}

/// The Request of an entry is document 01's frame.
#[test]
fn a_request_of_a_row() {
    let rows = csv::import(&small()).expect("a table");
    for (row, bytes) in rows.iter().zip(run().chunks(32)) {
        for to in 0..7 {
            assert_eq!(row.request(to)[..], frames::request(to, bytes));
        }
    }
}

#[test]
fn columns_and_faults_by_number() {
    for (number, name) in (1..).zip(SMALL[0]) {
        let column = Column::from_number(number).expect("a column");
        assert_eq!((column.number(), column.name()), (number, name));
        assert_eq!(column.to_string(), name);
    }
    for number in 1..=4 {
        let fault = FieldFault::from_number(number).expect("a fault");
        assert_eq!(fault.number(), number);
        assert_eq!(Some(&*fault.to_string()), FieldFault::words(number));
    }
    for number in [0, 7, 255] {
        assert_eq!(Column::from_number(number), None);
        assert_eq!(FieldFault::from_number(number), None);
        assert_eq!(FieldFault::words(number), None);
    }
    assert_eq!(FieldFault::from_number(5), None);
}
