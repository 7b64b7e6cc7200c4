//! What is said of bad rows, word for word.

use ledger::import::{judge, Verdict};

const HEADER: &str = "op,client,request,kind,member,cents\r\n";
const IDS: &str = "a number from 0 to 18446744073709551615";
const CENTS: &str = "a number from 1 to 1000000, as a fee has";

/// What is said of a table.
fn said(file: &[u8]) -> String {
    match judge(file).expect("judged") {
        Verdict::Bad(why) => why,
        good => panic!("{good}"),
    }
}

/// The table with a good row and this one is refused for the second, with this sentence.
fn refused(row: &str, why: &str) {
    let table = format!("{HEADER}1,7,0,fee,3,4500\r\n{row}\r\n");
    assert_eq!(
        said(table.as_bytes()),
        format!("bad row 3, field {why}"),
        "{row}"
    );
}

/// A row with this field in place of a good one is refused with this sentence.
fn refused_in(column: usize, field: &str, why: &str) {
    let mut row = ["2", "8", "9", "fee", "3", "100"];
    row[column] = field;
    refused(&row.join(","), why);
}

#[test]
fn each_field_says_what_was_expected() {
    refused_in(0, "x", "op: expected 2, found 'x'");
    refused_in(1, "x", &format!("client: expected {IDS}, found 'x'"));
    refused_in(2, "", &format!("request: expected {IDS}, found nothing"));
    refused_in(3, "fe", "kind: expected fee, refund or ask, found 'fe'");
    let member = "member: expected a number from 0 to 4294967295";
    refused_in(4, "4294967296", &format!("{member}, found '4294967296'"));
    refused_in(
        5,
        "1000001",
        &format!("cents: expected {CENTS}, found '1000001'"),
    );
    refused_in(5, "0", &format!("cents: expected {CENTS}, found '0'"));
    let refund = "a number from 1 to 1000000, as a refund has";
    refused(
        "2,8,9,\"refund\",3,0",
        &format!("cents: expected {refund}, found '0'"),
    );
    refused(
        "2,8,9,ask,\"3\",1",
        "cents: expected 0, as an ask has, found '1'",
    );
}

#[test]
fn numbers_have_one_form() {
    let client = |found: &str, hint: &str| {
        let why = format!("client: expected {IDS}, found '{found}'; {hint}");
        refused_in(1, found, &why);
    };
    client("07", "a number has no leading zeros");
    client("00", "a number has no leading zeros");
    client("+7", "a number has no sign");
    client("-7", "a number has no sign");
    client(" 7", "no blank belongs there");
    client("\"7 \"", "no blank belongs there");
    let text = "give the column the type text, so that no program rounds it";
    client("1.84467440737096E+019", text);
    client("7.0", text);
    refused_in(
        1,
        "18446744073709551616",
        &format!("client: expected {IDS}, found '18446744073709551616'"),
    );
    let euros = format!("cents: expected {CENTS}, found '45.00'; 4500 stands for 45.00 euros");
    refused_in(5, "45.00", &euros);
    let op = "a row is missing, added or moved: op counts the entries";
    refused_in(0, "3", &format!("op: expected 2, found '3'; {op}"));
}

#[test]
fn the_header_has_its_words() {
    for (file, field, found) in [
        ("", "op", "nothing; the file is empty"),
        ("Op,client", "op", "'Op'; its letters are small ones"),
        ("op,desk", "client", "'desk'"),
        ("op, client", "client", "' client'; no blank belongs there"),
        (
            "op;client;request;kind;member;cents\r\n",
            "op",
            "'op;client;request;kind;member;cents'; \
             fields are parted by commas, not by semicolons",
        ),
        (
            "op\tclient\r\n",
            "op",
            "'op\\tclient'; fields are parted by commas, not by tabs",
        ),
        (
            "\u{feff}op,client,request,kind,member,cents\r\n",
            "op",
            "'\\u{feff}op'; a byte order mark stands before the header, save the file without one",
        ),
    ] {
        let line = format!(
            "bad row 1 (the header), field {field}: expected the word {field}, found {found}"
        );
        assert_eq!(said(file.as_bytes()), line);
    }
}

#[test]
fn rows_end_by_crlf() {
    let file = HEADER.replace('\r', "") + "1,7,0,fee,3,4500\n";
    let line = "bad row 1 (the header), field cents: expected the word cents, \
                found 'cents\\n1'; LF alone doesn't end a row, CR LF does";
    assert_eq!(said(file.as_bytes()), line);
    let cents = |found: &str, hint: &str| {
        let row = format!(
            "2,8,9,fee,3,{}",
            found.replace("\\n", "\n").replace("\\r", "\r")
        );
        let table = format!("{HEADER}1,7,0,fee,3,4500\r\n{row}");
        let why = format!("bad row 3, field cents: expected {CENTS}, found '{found}'; {hint}");
        assert_eq!(said(table.as_bytes()), why);
    };
    cents("100\\n", "LF alone doesn't end a row, CR LF does");
    cents("100\\r", "CR alone doesn't end a row, CR LF does");
    cents("\"100\"\\n", "LF alone doesn't end a row, CR LF does");
    cents("\"100\"\\r", "CR alone doesn't end a row, CR LF does");
}

#[test]
fn quotes_are_kept_in_order() {
    let client = |found: &str, hint: &str| {
        let why = format!("client: expected {IDS}, found '{found}'; {hint}");
        refused_in(1, found, &why);
    };
    client("\"8", "its quotes aren't closed");
    client("8\"8", "a quote stands inside it");
    client("8\"", "a quote stands inside it");
    client("\"8\"8", "something stands behind its closing quote");
    client("\"8\" ", "something stands behind its closing quote");
    client("\"8\"\"8\"", "a quote stands inside its quotes");
    client("\"8,8\"", "a comma stands inside its quotes");
    refused_in(
        1,
        "\"8\r\n8\"",
        &format!(
            "client: expected {IDS}, found '\"8\\r\\n8\"'; a line end stands inside its quotes"
        ),
    );
}

#[test]
fn a_row_has_six_fields() {
    let ends = "expected a comma behind it, found the end of the row; it has";
    refused("2", &format!("op: {ends} 1 field, and 6 were expected"));
    refused(
        "2,8,9,fee,3",
        &format!("member: {ends} 5 fields, and 6 were expected"),
    );
    let goes_on = "cents: expected the end of the row behind it, found a comma; \
                   it has more than 6 fields";
    refused("2,8,9,fee,3,100,", goes_on);
    refused("2,8,9,fee,3,100,x", goes_on);
    refused("", "op: expected 2, found nothing; the row is empty");
    refused("\"\"", "op: expected 2, found '\"\"'; the row is empty");
    refused(",,,,,", "op: expected 2, found nothing");
    refused("\"\",8,9,fee,3,100", "op: expected 2, found '\"\"'");
}

/// What is shown stays on its line, is short, and shows bytes that are no text.
#[test]
fn what_stands_there_is_shown() {
    let (fits, long) = ("8".repeat(40), "8".repeat(41));
    refused_in(1, &fits, &format!("client: expected {IDS}, found '{fits}'"));
    refused_in(
        1,
        &long,
        &format!("client: expected {IDS}, found '{fits}..'"),
    );
    refused_in(
        1,
        "\u{1b}[1mü\u{202e}",
        &format!("client: expected {IDS}, found '\\u{{1b}}[1mü\\u{{202e}}'"),
    );
    let line = said(b"op,\xff\xc3,x");
    assert!(line.ends_with("found '\\xFF\\xC3'"), "{line}");
    let unclosed = [HEADER.as_bytes(), b"\"", &[b'a'; 1_000_000]].concat();
    let shown = "a".repeat(39);
    let line =
        format!("bad row 2, field op: expected 1, found '\"{shown}..'; its quotes aren't closed");
    assert_eq!(said(&unclosed), line);
}

/// Whatever is changed in a table: it is good, or what is said is one short line.
#[test]
fn whatever_stands_there_has_words() {
    let table = format!("{HEADER}1,7,\"0\",fee,3,4500\r\n\"2\",8,9,ask,3,\"0\"\r\n");
    let table = table.as_bytes();
    for place in 0..=table.len() {
        let (before, behind) = table.split_at(place);
        one_line(before);
        one_line(behind);
        for byte in *b"\",\r\n\0 0a;\xff" {
            one_line(&[before, &[byte], behind].concat());
            let [_, rest @ ..] = behind else { continue };
            one_line(&[before, &[byte], rest].concat());
            one_line(&[before, &[byte, byte], rest].concat());
        }
    }
}

fn one_line(file: &[u8]) {
    let line = judge(file).expect("judged").to_string();
    assert!(line.len() < 400 && !line.contains(['\r', '\n']), "{line}");
}
