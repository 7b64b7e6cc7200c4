//! What the command line asks for.

use std::path::PathBuf;

pub const HELP: &str = "\
usage: bench [--rounds N] [--case WORD] [--side ours|theirs|framed]
       bench [--rounds N] --plot FILE.svg
       bench [--rounds N] --journal
       bench [--rounds N] --csv

Times each case through Whitherhaul (ours), vsr-rs as it is, structs handed over (theirs), and vsr-rs with the same frames
written and read around it (framed). Ratios are theirs by ours: above 1 ours is faster. A case that vsr-rs doesn't have,
a refusal, has - in its place.

  --rounds N    how many rounds; the median counts (default 15)
  --case WORD   only cases whose name has this in it
  --side SIDE   only this side, for a profiler; no ratios then
  --plot FILE   in place of the cases: how what a call takes grows, drawn as an SVG to this file, and the figures as a table.
                A StartView of 16 to 4,096 entries, of 16 clients and of as many clients as entries; a committed request
                of 1 to 2,000 clients, each with a row already; a committed request of 3 to 7 replicas and 16 clients
  --journal     in place of the cases: a journal read, written and appended to, beside plain Rust that does the same
  --csv         in place of the cases: a table of 256 to 16,384 rows exported and imported, beside plain Rust that does the
                same; what plain Rust doesn't read, quotes, has - in its place
  --help        this text";

/// One of the three that are timed.
#[derive(Clone, Copy, Debug, PartialEq)]
pub enum Only {
    Ours,
    Theirs,
    Framed,
}

/// What to do.
#[derive(Debug, PartialEq)]
pub enum Task {
    /// The cases whose name has this word in it, through one side or all.
    Cases {
        word: String,
        only: Option<Only>,
    },
    /// The growth, drawn to this file.
    Plot(PathBuf),
    /// The journal's calls.
    Journal,
    /// The table's calls.
    Csv,
    Help,
}

#[derive(Debug, PartialEq)]
pub struct Options {
    pub rounds: usize,
    pub task: Task,
}

/// Reads the words behind the program's name; what is wrong is said in one sentence.
pub fn read(mut words: impl Iterator<Item = String>) -> Result<Options, String> {
    let mut rounds = 15;
    let (mut case, mut only, mut instead) = (None, None, None);
    while let Some(option) = words.next() {
        let mut value = || {
            words
                .next()
                .ok_or(format!("{option} needs a word behind it"))
        };
        let task = match option.as_str() {
            "--help" | "-h" => {
                let task = Task::Help;
                return Ok(Options { rounds, task });
            }
            "--plot" => Task::Plot(PathBuf::from(value()?)),
            "--journal" => Task::Journal,
            "--csv" => Task::Csv,
            "--rounds" => {
                rounds = number(&value()?)?;
                continue;
            }
            "--case" => {
                case = Some(value()?);
                continue;
            }
            "--side" => {
                only = Some(side(&value()?)?);
                continue;
            }
            _ => return Err(format!("{option} is no option; --help lists them")),
        };
        instead = Some(in_place(option, task, instead)?);
    }
    let task = task(case, only, instead)?;
    Ok(Options { rounds, task })
}

/// What is done in place of the cases, and the option that asks for it.
type Instead = (String, Task);

/// Takes what an option asks for in place of the cases, where no other one did.
fn in_place(option: String, task: Task, before: Option<Instead>) -> Result<Instead, String> {
    match before {
        Some((other, _)) if other != option => {
            Err(format!("{other} and {option} don't go together"))
        }
        _ => Ok((option, task)),
    }
}

/// What is asked for by all options together.
fn task(
    case: Option<String>,
    only: Option<Only>,
    instead: Option<Instead>,
) -> Result<Task, String> {
    match instead {
        Some((option, _)) if case.is_some() || only.is_some() => Err(format!(
            "{option} has cases and sides of its own, so neither --case nor --side goes with it"
        )),
        Some((_, task)) => Ok(task),
        None => Ok(Task::Cases {
            word: case.unwrap_or_default(),
            only,
        }),
    }
}

fn number(word: &str) -> Result<usize, String> {
    let rounds = word.parse().ok().filter(|rounds| *rounds > 0);
    rounds.ok_or(format!(
        "--rounds needs a number from 1 on, and {word} is none"
    ))
}

fn side(word: &str) -> Result<Only, String> {
    match word {
        "ours" => Ok(Only::Ours),
        "theirs" => Ok(Only::Theirs),
        "framed" => Ok(Only::Framed),
        _ => Err(format!("--side is ours, theirs or framed, and not {word}")),
    }
}

#[cfg(test)]
mod tests {
    use super::*;

    fn told(words: &str) -> Result<Options, String> {
        read(words.split_whitespace().map(String::from))
    }

    fn cases(rounds: usize, word: &str, only: Option<Only>) -> Options {
        let word = String::from(word);
        let task = Task::Cases { word, only };
        Options { rounds, task }
    }

    #[test]
    fn cases_are_what_is_done_where_nothing_else_is_asked() {
        assert_eq!(told(""), Ok(cases(15, "", None)));
        let words = "--case request --side framed --rounds 3";
        assert_eq!(told(words), Ok(cases(3, "request", Some(Only::Framed))));
    }

    #[test]
    fn a_plot_has_its_file_and_its_rounds() {
        let task = Task::Plot(PathBuf::from("growth.svg"));
        let options = Options { rounds: 4, task };
        assert_eq!(told("--plot growth.svg --rounds 4"), Ok(options));
    }

    #[test]
    fn a_journal_and_a_table_have_their_rounds() {
        let rounds = 4;
        let task = Task::Journal;
        assert_eq!(told("--journal --rounds 4"), Ok(Options { rounds, task }));
        let task = Task::Csv;
        assert_eq!(told("--rounds 4 --csv"), Ok(Options { rounds, task }));
        let task = Task::Csv;
        assert_eq!(told("--csv --csv --rounds 4"), Ok(Options { rounds, task }));
    }

    #[test]
    fn help_is_asked_for_by_either_word() {
        for words in ["--help", "-h", "--rounds 3 --help"] {
            assert_eq!(told(words).map(|options| options.task), Ok(Task::Help));
        }
    }

    #[test]
    fn a_wrong_option_is_named() {
        for (words, part) in [
            ("--fast", "--fast is no option"),
            ("request", "request is no option"),
            ("--plot", "--plot needs a word behind it"),
            ("--rounds 0", "0 is none"),
            ("--rounds many", "many is none"),
            ("--side both", "not both"),
            ("--plot x.svg --side ours", "neither --case nor --side"),
            ("--case request --plot x.svg", "neither --case nor --side"),
            ("--journal --case read", "neither --case nor --side"),
            ("--journal --side ours", "neither --case nor --side"),
            ("--journal --plot x.svg", "don't go together"),
            ("--csv --case read", "neither --case nor --side"),
            ("--csv --journal", "--csv and --journal don't go together"),
        ] {
            let why = told(words).expect_err(words);
            assert!(why.contains(part), "{words}: {why}");
        }
    }
}
