use super::*;
use crate::clubs::List;
use crate::day::{play, Evening};
use crate::library::Library;
use crate::ours::Whitherhaul;
use crate::teller::Teller;
use crate::words::money;
use demo_options::{Asked, Options};
use ledger::check::judge;
use ledger::import;
use ledger::table::table;
use whitherhaul::{csv, Journal};
use wire::random::Random;

/// A folder for one test, which isn't there yet and is removed in the end.
struct Folder(PathBuf);

impl Folder {
    fn new(name: &str) -> Folder {
        let own = format!("whitherhaul-demo-{}-{name}", std::process::id());
        Folder(std::env::temp_dir().join(own))
    }
}

impl Drop for Folder {
    fn drop(&mut self) {
        let _ = fs::remove_dir_all(&self.0);
    }
}

/// A short day's choices.
fn short(seed: u64) -> Options {
    Options {
        seed,
        loss: 10,
        desks: 3,
        requests: 60,
        damage: 0,
        journal: None,
    }
}

/// A day with journals in this folder, and its list.
fn day(folder: &Folder, options: &Options) -> (List, Evening<Whitherhaul>, Journals) {
    let journals = Journals::new(&folder.0).expect("a new folder");
    let (list, evening) = played(&journals, options);
    (list, evening, journals)
}

/// A day with these journals, and its list.
fn played(journals: &Journals, options: &Options) -> (List, Evening<Whitherhaul>) {
    let list = List::new(options.requests, &mut Random::new(options.seed));
    let teller = Teller::new(Whitherhaul::NAME, false);
    let evening = play(options, &list, teller, Some(journals));
    (list, evening)
}

/// After a day with crashes each journal has every charge, once and in the order of the machine's own ledger.
#[test]
fn a_journal_has_what_its_machine_applied() {
    for seed in 1..=3 {
        let folder = Folder::new(&format!("day-{seed}"));
        let (list, evening, journals) = day(&folder, &short(seed));
        assert!(evening.counts.crashes > 0);
        assert_eq!((evening.replicas.len(), evening.wrong.len()), (3, 0));
        for (id, replica) in &evening.replicas {
            let file = fs::read(&journals.0[*id]).expect("there");
            let journal = Journal::read(list.members, &file).expect("good");
            assert_eq!(journal.entries().len(), 60);
            assert_eq!(journal.entries(), Whitherhaul::applied(replica));
            assert_eq!(journal.totals(), list.totals);
            let takings = replica.takings().map(money).expect("a state of calls");
            let lines = table(&file).lines;
            assert!(
                lines[60].ends_with(&format!("  {takings}")),
                "{}",
                lines[60]
            );
        }
        assert!(journals.checked(list.members));
    }
}

#[test]
fn a_file_that_is_there_stays_as_it_is() {
    let folder = Folder::new("there");
    fs::create_dir(&folder.0).expect("a folder");
    let there = folder.0.join("replica-1.journal");
    fs::write(&there, "kept").expect("written");
    let why = Journals::new(&folder.0).err().expect("refused");
    let words = "is there already, and no journal is written over: name another folder";
    assert_eq!(why, format!("{} {words}", there.display()));
    assert_eq!(fs::read(&there).expect("there"), b"kept");
    let files = fs::read_dir(&folder.0).expect("there").count();
    assert_eq!(files, 1);
    let why = Journals::new(&there).err().expect("refused");
    assert!(why.contains(" can't be made: "), "{why}");
}

/// A file is told how long it is by itself, and what is committed already isn't written again.
#[test]
fn appending_goes_on_behind_the_last_op() {
    let folder = Folder::new("append");
    let file = Journals::new(&folder.0).expect("a new folder").of(2);
    let mut asked = Vec::new();
    for committed in [1, 1, 3] {
        let frames = |op| {
            asked.push(op);
            vec![7; FRAME_LENGTH * (committed as usize - op as usize)]
        };
        append(&file, committed, frames).expect("written");
    }
    assert_eq!(asked, [0, 1]);
    assert_eq!(fs::read(&file).expect("there"), [7; 150]);
}

/// A journal that can't be written is told once, and the day goes on without it.
#[test]
fn what_cant_be_written_is_told() {
    let folder = Folder::new("unwritten");
    let journals = Journals::new(&folder.0).expect("a new folder");
    fs::remove_file(journals.of(1)).expect("removed");
    let (_, evening) = played(&journals, &short(5));
    let [why] = &evening.wrong[..] else {
        panic!("{:?}", evening.wrong);
    };
    let expected = format!(
        "{} can't be written: No such file",
        journals.of(1).display()
    );
    assert!(why.starts_with(&expected), "{why}");
    let lengths = [0, 2].map(|id| fs::metadata(journals.of(id)).expect("there").len());
    assert_eq!(lengths, [3_000; 2]);
    assert!(!journals.of(1).exists());
}

#[test]
fn a_journal_that_isnt_as_it_has_to_be_is_noticed() {
    let folder = Folder::new("noticed");
    let (list, _, journals) = day(&folder, &short(4));
    let whole = fs::read(journals.of(0)).expect("there");
    let good = |journal: &[u8]| {
        fs::write(journals.of(1), journal).expect("written");
        journals.checked(list.members)
    };
    assert!(good(&whole));
    // A machine that lags behind, or never committed anything.
    assert!(good(&whole[..500]));
    assert!(good(b""));
    // Cut inside a frame, and a desk's number changed, which leaves a good journal but another one.
    assert!(!good(&whole[..499]));
    let mut other = whole.clone();
    other[16] += 1;
    assert!(Journal::read(list.members, &other).is_ok());
    assert!(!good(&other));
    fs::remove_file(journals.of(1)).expect("removed");
    assert!(!journals.checked(list.members));
}

/// What `ledger import` says of a journal's table, and of that with amounts in euros.
fn imported(members: u32, file: &[u8]) -> [String; 2] {
    let journal = Journal::read(members, file).expect("good");
    let table = csv::export(journal.entries()).expect("inside the rules");
    let spoilt = String::from_utf8(table.clone()).expect("ASCII");
    let spoilt = spoilt.replace(",18000", ",180.00");
    let judged = |file: &[u8]| import::judge(file).expect("room");
    [
        format!("fees.csv: {}", judged(&table)),
        format!("standard input: {}", judged(spoilt.as_bytes())),
    ]
}

/// The README's lines under its heading for a treasurer, of the usual day.
#[test]
fn the_readme_shows_what_is_printed() {
    let readme = include_str!("../../../../README.md");
    let (_, section) = readme
        .split_once("\n## For a treasurer\n")
        .expect("a section");
    let (section, _) = section.split_once("\n## ").expect("another one");
    let lines = section.lines().filter_map(|line| line.strip_prefix("    "));
    let shown: Vec<&str> = lines.filter(|line| !line.starts_with("$ ")).collect();
    let folder = Folder::new("readme");
    let Ok(Asked::Day(options)) = demo_options::read(std::iter::empty()) else {
        panic!("a day");
    };
    let (list, _, journals) = day(&folder, &options);
    let file = fs::read(journals.of(0)).expect("there");
    let judged = |file| judge(list.members, file).expect("members inside the sizes");
    let mut printed = table(&file).lines;
    printed.truncate(4);
    printed.extend([
        format!("fees/replica-0.journal: {}", judged(&file)),
        format!("standard input: {}", judged(&file[..170])),
    ]);
    printed.extend(imported(list.members, &file));
    assert_eq!(shown, printed);
    let members = format!("--members {}\n", list.members);
    assert_eq!(section.matches(&members).count(), 2);
}
