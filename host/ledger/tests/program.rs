//! The program itself: what it prints of journals, and its statuses.

mod common;
mod runs;

use common::{frame, journal, with};
use runs::{fault, run, said, File};
use std::path::Path;
use std::process::{Command, Stdio};

/// A journal of so many frames, each a fee of a cent for member 0.
fn cents(frames: u32) -> Vec<u8> {
    let ops = 1..=frames;
    let frames = ops.map(|op| frame(op, [1, op.into()], (1, 0, 1), (1, op.into())));
    frames.collect::<Vec<_>>().concat()
}

const CHECK: [&str; 4] = ["check", "-", "--members", "8"];

/// What `check` prints of a journal, without its name.
fn checked(journal: &[u8]) -> (Option<i32>, String) {
    let (status, output, errors) = run(&CHECK, journal);
    assert_eq!(errors, "");
    let line = output.strip_prefix("standard input: ").expect("its name");
    let line = line.strip_suffix('\n').expect("a line");
    (status, String::from(line))
}

#[test]
fn a_good_journal_is_summed() {
    let file = File::new("good", &journal());
    let line = "good: 5 entries, takings 10,035.00 euros";
    assert_eq!(checked(&journal()), (Some(0), String::from(line)));
    let words = ["check", "--members", "8", file.path()];
    assert_eq!(
        run(&words, b""),
        said(0, &format!("{}: {line}\n", file.path()))
    );
    assert_eq!(std::fs::read(&file.0).expect("there"), journal());
    for (journal, line) in [
        (&journal()[..50], "good: 1 entry, takings 45.00 euros"),
        (b"", "good: 0 entries, takings 0.00 euros"),
        (&cents(4096), "good: 4096 entries, takings 40.96 euros"),
    ] {
        assert_eq!(checked(journal), (Some(0), String::from(line)));
    }
}

#[test]
fn each_fault_is_named_with_its_place() {
    let two = "before it 2 good frames, takings 35.00 euros";
    let third = |place: usize| 100 + place;
    for (journal, line) in [
        (journal()[..149].to_vec(), "the file ends inside it"),
        (with(third(3), 47), "its length isn't 46"),
        (with(third(4), 2), "its version isn't 1"),
        (with(third(8), 4), "its op number isn't the next one"),
        (with(third(25), 4), "its entry is outside the entry rules"),
        (
            with(third(41), 1),
            "the outcome isn't what the fee rules give",
        ),
        (
            with(third(49), 0),
            "the total isn't what the fee rules give",
        ),
    ] {
        let line = format!("bad frame at byte 100 (op 3): {line}; {two}");
        assert_eq!(checked(&journal), (Some(1), line));
    }
    let line = "bad frame at byte 204800 (op 4097): it is past the last op number, 4096; \
                before it 4096 good frames, takings 40.96 euros";
    assert_eq!(checked(&cents(4097)), (Some(1), String::from(line)));
    assert_eq!(
        checked(&[cents(4096), vec![9]].concat()),
        (Some(1), String::from(line))
    );
}

#[test]
fn other_members_give_another_outcome() {
    let words = ["check", "-", "--members", "9"];
    let line =
        "standard input: bad frame at byte 200 (op 5): the outcome isn't what the fee rules \
                give; before it 4 good frames, takings 10,035.00 euros\n";
    assert_eq!(run(&words, &journal()), said(1, line));
}

#[test]
fn what_follows_the_most_bytes_is_not_read() {
    let endless = Command::new(env!("CARGO_BIN_EXE_ledger"))
        .args(["check", "/dev/zero", "--members", "8"])
        .output()
        .expect("it ends");
    assert_eq!(endless.status.code(), Some(1));
    let line = "/dev/zero: bad frame at byte 0 (op 1): its length isn't 46; \
                before it 0 good frames, takings 0.00 euros\n";
    assert_eq!(String::from_utf8(endless.stdout).expect("text"), line);
}

#[test]
fn several_files_have_a_line_each_and_the_worst_status() {
    let good = File::new("several good", &journal());
    let bad = File::new("several bad", &with(99, 0));
    let (of_good, of_bad) = (
        format!(
            "{}: good: 5 entries, takings 10,035.00 euros\n",
            good.path()
        ),
        format!(
            "{}: bad frame at byte 50 (op 2): the total isn't what the fee rules give; \
             before it 1 good frame, takings 45.00 euros\n",
            bad.path()
        ),
    );
    let check = |files: &[&str]| run(&[&["check", "--members", "8"], files].concat(), b"");
    assert_eq!(
        check(&[good.path(), good.path()]),
        said(0, &of_good.repeat(2))
    );
    let lines = format!("{of_bad}{of_good}");
    assert_eq!(check(&[bad.path(), good.path()]), said(1, &lines));
    let (status, output, errors) = check(&[bad.path(), "no/such", good.path()]);
    assert_eq!((status, output), (Some(2), lines));
    assert!(
        errors.starts_with("ledger: no/such can't be read: No such file"),
        "{errors}"
    );
}

#[test]
fn what_cant_be_read_is_named() {
    let circle = Path::new(env!("CARGO_TARGET_TMPDIR")).join("circle");
    let _ = std::fs::remove_file(&circle);
    std::os::unix::fs::symlink(&circle, &circle).expect("a link to itself");
    let circle = File(circle);
    for (path, why) in [
        ("no/such/file", "No such file or directory"),
        (env!("CARGO_TARGET_TMPDIR"), "Is a directory"),
        (circle.path(), ""),
    ] {
        for words in [
            &["check", path, "--members", "8"][..],
            &["show", path],
            &["export", path, "--members", "8"],
            &["import", path],
        ] {
            let said = fault(words);
            let expected = format!("{path} can't be read: {why}");
            assert!(said.starts_with(&expected), "{said}");
        }
    }
}

/// A file that its owner may not read. Root may, and then it is judged.
#[test]
fn what_may_not_be_read_is_named() {
    use std::os::unix::fs::PermissionsExt;
    let file = File::new("locked", &journal());
    let locked = std::fs::Permissions::from_mode(0o000);
    std::fs::set_permissions(&file.0, locked).expect("it is our own");
    let words = ["check", file.path(), "--members", "8"];
    if std::fs::read(&file.0).is_ok() {
        assert_eq!(run(&words, b"").0, Some(0));
    } else {
        let said = fault(&words);
        assert!(said.contains(" can't be read: Permission denied"), "{said}");
    }
}

#[test]
fn wrong_words_are_named() {
    let members = "a ledger has 1 to 4096 members";
    assert_eq!(
        fault(&["check", "x", "--members", "0"]),
        format!("--members 0 can't be: {members}")
    );
    assert_eq!(
        fault(&["show", "x", "--members", "4097"]),
        format!("--members 4097 can't be: {members}")
    );
    assert!(fault(&["check", "x"]).starts_with("check needs --members M"));
    assert!(fault(&["export", "x"]).starts_with("export needs --members M"));
    assert!(fault(&["import", "x", "--members", "3"]).starts_with("import takes no --members"));
    assert_eq!(
        fault(&["check", "x", "--all"]),
        "\"--all\" is no option; --help lists them"
    );
    assert_eq!(
        fault(&["show", "x", "y"]),
        "show takes one journal at a time"
    );
    assert_eq!(
        fault(&["import", "x", "y"]),
        "import takes one table at a time"
    );
    let which = "check, show, export or import? --help says more";
    assert_eq!(fault(&[]), which);
}

#[test]
fn help_and_version_are_told() {
    use ledger_options::{CHECK_HELP, EXPORT_HELP, HELP, IMPORT_HELP, SHOW_HELP, VERSION};
    assert_eq!(run(&["--help"], b""), said(0, HELP));
    assert_eq!(run(&["check", "--help"], b""), said(0, CHECK_HELP));
    assert_eq!(run(&["show", "--help"], b""), said(0, SHOW_HELP));
    assert_eq!(run(&["export", "--help"], b""), said(0, EXPORT_HELP));
    assert_eq!(run(&["import", "--help"], b""), said(0, IMPORT_HELP));
    assert_eq!(run(&["--version"], b""), said(0, VERSION));
}

/// Who reads two lines and goes away makes no noise, and has the journal's status.
#[test]
fn a_closed_pipe_ends_it_quietly() {
    for (journal, status) in [(cents(4096), 0), (with(53, 0), 1)] {
        let file = File::new(&format!("piped {status}"), &journal);
        let mut child = Command::new(env!("CARGO_BIN_EXE_ledger"))
            .args(["show", file.path()])
            .stdout(Stdio::piped())
            .stderr(Stdio::piped())
            .spawn()
            .expect("it starts");
        drop(child.stdout.take());
        let output = child.wait_with_output().expect("it ends");
        assert_eq!(output.status.code(), Some(status));
        assert_eq!(String::from_utf8(output.stderr).expect("text"), "");
    }
}

/// What can't be printed is said.
#[test]
fn a_full_disk_is_named() {
    let full = std::fs::OpenOptions::new().write(true).open("/dev/full");
    let file = File::new("full", &journal());
    let output = Command::new(env!("CARGO_BIN_EXE_ledger"))
        .args(["check", file.path(), "--members", "8"])
        .stdout(full.expect("there"))
        .output()
        .expect("it ends");
    assert_eq!(output.status.code(), Some(2));
    let errors = String::from_utf8(output.stderr).expect("text");
    assert!(errors.starts_with("ledger: can't print: "), "{errors}");
}
