//! The program itself: its statuses, and what it says of input that it can't read.

mod common;

use common::{bytes, start_view, REPLY};
use std::io::Write;
use std::process::{Command, Output, Stdio};

const COMMIT: &str = "0000000B 010401 00000000 00000000";

/// Runs it with these words and this standard input.
fn run(words: &[&str], input: &[u8]) -> Output {
    let mut child = Command::new(env!("CARGO_BIN_EXE_explain"))
        .args(words)
        .stdin(Stdio::piped())
        .stdout(Stdio::piped())
        .stderr(Stdio::piped())
        .spawn()
        .expect("it starts");
    // Where the words are enough it doesn't read its input, and may have ended.
    let _ = child.stdin.take().expect("a pipe").write_all(input);
    child.wait_with_output().expect("it ends")
}

/// Its status, and what it wrote to its output and to its errors.
fn outcome(words: &[&str], input: &[u8]) -> (Option<i32>, String, String) {
    let output = run(words, input);
    let text = |bytes: Vec<u8>| String::from_utf8(bytes).expect("text");
    (
        output.status.code(),
        text(output.stdout),
        text(output.stderr),
    )
}

/// A file for one test, which is removed in the end.
struct File(std::path::PathBuf);

impl File {
    fn new(name: &str, content: &[u8]) -> File {
        let path = std::path::Path::new(env!("CARGO_TARGET_TMPDIR")).join(name);
        std::fs::write(&path, content).expect("written");
        File(path)
    }

    fn path(&self) -> &str {
        self.0.to_str().expect("a path in text")
    }
}

impl Drop for File {
    fn drop(&mut self) {
        let _ = std::fs::remove_file(&self.0);
    }
}

#[test]
fn a_frame_comes_from_words_a_file_or_the_input() {
    let (hex, raw) = (
        File::new("hex", COMMIT.as_bytes()),
        File::new("raw", &bytes(COMMIT)),
    );
    let words: Vec<&str> = COMMIT.split(' ').collect();
    let shown = outcome(&words, b"");
    assert_eq!((shown.0, shown.2.as_str()), (Some(0), ""));
    assert!(shown.1.contains("\nWell formed: 4 Commit to replica 1.\n"));
    assert_eq!(outcome(&[COMMIT], b""), shown);
    assert_eq!(outcome(&["--file", hex.path()], b""), shown);
    assert_eq!(outcome(&["--file", raw.path(), "--raw"], b""), shown);
    assert_eq!(outcome(&[], COMMIT.as_bytes()), shown);
    assert_eq!(outcome(&["-"], COMMIT.as_bytes()), shown);
    assert_eq!(outcome(&["--raw"], &bytes(COMMIT)), shown);
}

#[test]
fn the_status_says_whether_it_is_well_formed() {
    assert_eq!(outcome(&[COMMIT], b"").0, Some(0));
    assert_eq!(outcome(&[COMMIT, "00"], b"").0, Some(1));
    assert_eq!(outcome(&["00"], b"").0, Some(1));
    assert_eq!(outcome(&[], b"").0, Some(1));
    assert_eq!(outcome(&["--reply", COMMIT], b"").0, Some(1));
    assert_eq!(outcome(&["--reply", REPLY], b"").0, Some(0));
    assert_eq!(outcome(&["--replica", REPLY], b"").0, Some(1));
}

#[test]
fn a_guess_is_said() {
    let says = |words: &[&str]| outcome(words, b"").1.contains("Read as a Reply for a desk");
    assert!(says(&[REPLY]));
    assert!(!says(&["--reply", REPLY]));
    assert!(!says(&["--replica", REPLY]));
    assert!(!says(&[COMMIT]));
    assert_eq!(outcome(&[REPLY], b"").0, Some(0));
}

#[test]
fn all_entries_are_shown_where_they_are_asked_for() {
    let frame = start_view(50);
    let entries = |words: &[&str]| {
        let output = run(words, &frame).stdout;
        let text = String::from_utf8(output).expect("text");
        text.lines().filter(|line| line.contains("entry ")).count()
    };
    assert_eq!((entries(&["--raw"]), entries(&["--raw", "--all"])), (3, 50));
}

/// What it says with status 2 and nothing on its output.
fn fault(words: &[&str], input: &[u8]) -> String {
    let (status, out, said) = outcome(words, input);
    assert_eq!((status, out.as_str()), (Some(2), ""), "{words:?}");
    let said = said.strip_prefix("explain: ").expect("its name");
    String::from(said.trim_end())
}

#[test]
fn wrong_words_are_named() {
    for (words, said) in [
        ("00 0g", "word 2, '0g', isn't hex"),
        (
            "frame.txt",
            "word 1, 'frame.txt', isn't hex; --file reads a file",
        ),
        (
            "00 000",
            "word 2, '000', isn't hex bytes: each has two digits",
        ),
        ("--hex 00", "--hex is no option; --help lists them"),
        ("--file", "--file needs a path behind it"),
        ("--file x --file y", "two files can't be asked for together"),
        (
            "--raw 00",
            "--raw is for a file or standard input, not for hex words",
        ),
        (
            "--reply --replica",
            "--reply and --replica can't be asked for together",
        ),
        (
            "--file x 00",
            "a frame comes from one place: hex words, a file or standard input",
        ),
        (
            "- 00",
            "a frame comes from one place: hex words, a file or standard input",
        ),
    ] {
        let words: Vec<&str> = words.split(' ').collect();
        assert!(
            fault(&words, b"").starts_with(said),
            "{}",
            fault(&words, b"")
        );
    }
}

#[test]
fn unreadable_input_is_named() {
    let raw = "; --raw reads bytes that aren't in hex";
    let said = format!("standard input: line 2, word 2, 'zz', isn't hex{raw}");
    assert_eq!(fault(&[], b"00\n00 zz"), said);
    let binary = File::new("binary", &bytes(COMMIT));
    let said = fault(&["--file", binary.path()], b"");
    assert!(
        said.starts_with(&format!("{}: line 1, word 1, ", binary.path())),
        "{said}"
    );
    assert!(said.ends_with(raw), "{said}");
    for path in [env!("CARGO_TARGET_TMPDIR"), "no/such/file"] {
        let said = fault(&["--file", path], b"");
        assert!(
            said.starts_with(&format!("{path} can't be read: ")),
            "{said}"
        );
    }
}

#[test]
fn help_has_examples_that_are_true() {
    let (status, help, _) = outcome(&["--help"], b"");
    assert_eq!(status, Some(0));
    let examples = help
        .lines()
        .filter_map(|line| line.strip_prefix("  explain "));
    let statuses: Vec<Option<i32>> = examples
        .map(|line| {
            let (frame, _) = line.split_once("  ").expect("a frame, and what it is");
            outcome(&[frame], b"").0
        })
        .collect();
    assert_eq!(statuses, [Some(0), Some(1)]);
    for option in ["file", "raw", "reply", "replica", "all", "help"] {
        assert!(help.contains(&format!("\n  --{option} ")), "{option}");
    }
}

#[test]
fn the_readme_shows_what_it_prints() {
    let readme = include_str!("../../../README.md");
    let (_, sample) = readme.split_once("\n    $ ./explain ").expect("a sample");
    let (frame, sample) = sample.split_once('\n').expect("lines");
    let lines = sample.lines();
    let lines = lines.take_while(|line| line.is_empty() || line.starts_with("    "));
    let lines = lines.map(|line| format!("{}\n", line.get(4..).unwrap_or_default()));
    let lines: String = lines.collect();
    let (status, text, _) = outcome(&[frame], b"");
    assert_eq!(status, Some(1));
    assert!(lines.lines().count() > 5, "{lines}");
    assert!(text.trim_end().ends_with(lines.trim_end()), "{text}");
}
