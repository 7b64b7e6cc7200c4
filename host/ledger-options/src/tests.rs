use super::*;

fn asked(line: &str) -> Result<Asked, String> {
    read(
        line.split(' ')
            .filter(|w| !w.is_empty())
            .map(OsString::from),
    )
}

fn file(name: &str) -> Source {
    Source::File(PathBuf::from(name))
}

#[test]
fn every_word_has_its_place() {
    let two = Asked::Check(vec![file("a"), file("b")], 8);
    assert_eq!(asked("check a b --members 8"), Ok(two));
    let mixed = Asked::Check(vec![file("a"), Source::Input], 4_096);
    assert_eq!(asked("check a --members 4096 -"), Ok(mixed));
    assert_eq!(asked("show a"), Ok(Asked::Show(file("a"), None)));
    let shown = Asked::Show(Source::Input, Some(1));
    assert_eq!(asked("show --members 1 - --members 1"), Ok(shown));
    let exported = Asked::Export(file("a"), 240);
    assert_eq!(asked("export a --members 240"), Ok(exported));
    let exported = Asked::Export(Source::Input, 1);
    assert_eq!(asked("export --members 1 -"), Ok(exported));
    assert_eq!(asked("import a.csv"), Ok(Asked::Import(file("a.csv"))));
    assert_eq!(asked("import -"), Ok(Asked::Import(Source::Input)));
}

#[test]
fn texts_are_asked_for() {
    for (line, text) in [
        ("--help", HELP),
        ("-h x", HELP),
        ("--version", VERSION),
        ("check --help", CHECK_HELP),
        ("check a --members 3 -h", CHECK_HELP),
        ("show --help --harm", SHOW_HELP),
        ("show a --version", VERSION),
        ("export --help", EXPORT_HELP),
        ("export a b --help", EXPORT_HELP),
        ("export --version", VERSION),
        ("import -h", IMPORT_HELP),
        ("import a --members 3 --help", IMPORT_HELP),
        ("import a --version", VERSION),
    ] {
        assert_eq!(asked(line), Ok(Asked::Say(text)), "{line}");
    }
}

/// Each of these lines is refused with this sentence.
fn refused(lines: &[(&str, &str)]) {
    for (line, why) in lines {
        assert_eq!(asked(line), Err(String::from(*why)), "{line}");
    }
}

#[test]
fn what_is_wrong_is_said() {
    let other = "is none of check, show, export and import; --help says more";
    let option = "is no option; --help lists them";
    refused(&[
        ("", "check, show, export or import? --help says more"),
        ("list a", &format!("\"list\" {other}")),
        ("--members 3", &format!("\"--members\" {option}")),
        ("show a --harm", &format!("\"--harm\" {option}")),
        ("import a --all", &format!("\"--all\" {option}")),
    ]);
}

#[test]
fn wrong_numbers_of_files_are_said() {
    let name = "the name of its file, or - for standard input";
    refused(&[
        ("check", &format!("check needs a journal: {name}")),
        ("show --members 3", &format!("show needs a journal: {name}")),
        ("export", &format!("export needs a journal: {name}")),
        ("import", &format!("import needs a table: {name}")),
        ("show a b", "show takes one journal at a time"),
        ("export a b", "export takes one journal at a time"),
        ("import a b", "import takes one table at a time"),
        (
            "check - - --members 3",
            "standard input (-) can be read only once",
        ),
    ]);
}

#[test]
fn wrong_numbers_of_members_are_said() {
    let needs = "--members needs a number";
    let missing = "needs --members M, how many members the ledger has, 1 to 4096";
    refused(&[
        ("check a", &format!("check {missing}")),
        ("export a", &format!("export {missing}")),
        (
            "import a --members 3",
            "import takes no --members: a table is judged without",
        ),
        ("check a --members", &format!("{needs} behind it")),
        (
            "check a --members x",
            &format!("{needs}, and \"x\" is none"),
        ),
        (
            "check a --members +3",
            &format!("{needs}, and \"+3\" is none"),
        ),
        (
            "show a --members 3 --members 4",
            "--members stands there twice",
        ),
    ]);
    for number in ["0", "4097", "4294967297", "18446744073709551617"] {
        let why = format!("--members {number} can't be: a ledger has 1 to 4096 members");
        refused(&[(&format!("check a --members {number}"), &why)]);
    }
}

#[test]
fn an_empty_name_is_no_file() {
    let words = ["show", ""].map(OsString::from);
    assert_eq!(
        read(words.into_iter()),
        Err(String::from("a file's name is empty"))
    );
}

#[test]
fn help_names_every_option() {
    for text in [HELP, CHECK_HELP, SHOW_HELP, EXPORT_HELP, IMPORT_HELP] {
        for option in ["members M", "help", "version"] {
            let there = text.contains(&format!("\n  --{option} "));
            let taken = text != IMPORT_HELP || option != "members M";
            assert_eq!(there, taken, "{option}");
        }
        assert!(text.lines().all(|line| line.len() <= 100));
    }
}

#[test]
fn help_names_every_command() {
    for command in ["check", "show", "export", "import"] {
        assert!(HELP.contains(&format!("ledger {command} ")), "{command}");
        assert!(HELP.contains(&format!("\n  {command} ")), "{command}");
    }
}
