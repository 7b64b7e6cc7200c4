//! What the demo's command line asks for.

use std::ffi::OsString;
use std::path::PathBuf;

/// The room of a log, and so the most charges of a day.
pub const MOST_REQUESTS: u64 = 4_096;

/// What --help prints.
pub const HELP: &str = "\
usage: demo [--seed N] [--loss PERCENT] [--desks N] [--requests N] [--damage PERCENT] [--journal FOLDER]

Three replicas keep one ledger of club fees, while the network between them and the desks loses, repeats and
reorders what is sent and machines crash and come back. At the end every charge has to be in all three ledgers
exactly once, and the takings that each replica says have to be what the list comes to; else the exit code is 1.

  --seed N           another day of the network (default 1); the same seed gives the same day
  --loss PERCENT     how much of what is sent is lost, 0 to 99 (default 10)
  --desks N          desks that send charges, 1 to 4,096 (default 6)
  --requests N       charges on the renewal list, 1 to 4,096 (default 300)
  --damage PERCENT   how many of each hundred frames also arrive as a damaged copy, 0 to 99 (default 0); what each
                     library does with them is shown, and the exit code is about Whitherhaul alone
  --journal FOLDER   each of the three machines keeps a journal of its charges there, replica-0.journal and so on, which
                     are checked at the end (exit code 1 where one isn't good or they don't agree); ./ledger reads
                     them. The folder is made if it isn't there; journals that are there already are refused.
                     What vsr-rs plays beside keeps none
  --help             this text";

/// A day's choices.
#[derive(Clone, Debug)]
pub struct Options {
    pub seed: u64,
    pub loss: u64,
    pub desks: u64,
    pub requests: u64,
    pub damage: u64,
    pub journal: Option<PathBuf>,
}

/// What to do.
pub enum Asked {
    Day(Options),
    Help,
}

/// Reads the words behind the program's name; what is wrong is said in one sentence.
pub fn read(mut words: impl Iterator<Item = OsString>) -> Result<Asked, String> {
    let mut options = Options {
        seed: 1,
        loss: 10,
        desks: 6,
        requests: 300,
        damage: 0,
        journal: None,
    };
    while let Some(word) = words.next() {
        let word = word.to_string_lossy();
        let (place, least, most) = match word.as_ref() {
            "--help" | "-h" => return Ok(Asked::Help),
            "--journal" => {
                options.journal = Some(folder(words.next())?);
                continue;
            }
            "--seed" => (&mut options.seed, 0, u64::MAX),
            "--loss" => (&mut options.loss, 0, 99),
            "--desks" => (&mut options.desks, 1, 4_096),
            "--requests" => (&mut options.requests, 1, MOST_REQUESTS),
            "--damage" => (&mut options.damage, 0, 99),
            _ => return Err(format!("{word} is no option; --help lists them")),
        };
        *place = number(&word, words.next(), least, most)?;
    }
    Ok(Asked::Day(options))
}

/// The folder behind --journal.
fn folder(word: Option<OsString>) -> Result<PathBuf, String> {
    match word.filter(|word| !word.is_empty()) {
        Some(word) => Ok(PathBuf::from(word)),
        None => Err(String::from("--journal needs a folder behind it")),
    }
}

/// The number behind an option.
fn number(option: &str, word: Option<OsString>, least: u64, most: u64) -> Result<u64, String> {
    let word = word.ok_or(format!("{option} needs a number behind it"))?;
    let word = word.to_string_lossy();
    let number: u64 = word
        .parse()
        .map_err(|_| format!("{option} needs a number, and {word} is none"))?;
    if number < least {
        return Err(format!("{option} {number} is too few: {least} at least"));
    }
    if number > most {
        let why = match option {
            "--requests" => ", the most entries that a log has room for",
            _ => "",
        };
        return Err(format!(
            "{option} {number} is too many: {most} at most{why}"
        ));
    }
    Ok(number)
}

#[cfg(test)]
mod tests {
    use super::*;

    fn asked(line: &str) -> Result<Options, String> {
        match read(line.split_whitespace().map(OsString::from))? {
            Asked::Day(options) => Ok(options),
            Asked::Help => Err(String::from("help")),
        }
    }

    #[test]
    fn every_option_has_its_place() {
        let line = "--seed 2 --loss 3 --desks 4 --requests 5 --damage 6 --journal seven";
        let Options {
            seed,
            loss,
            desks,
            requests,
            damage,
            journal,
        } = asked(line).expect("a day");
        assert_eq!((seed, loss, desks, requests, damage), (2, 3, 4, 5, 6));
        assert_eq!(journal, Some(PathBuf::from("seven")));
        assert_eq!(asked("").expect("a day").journal, None);
        assert_eq!(asked("").expect("a day").damage, 0);
        assert_eq!(asked("--damage 99").expect("a day").damage, 99);
    }

    #[test]
    fn what_is_wrong_is_said() {
        let said = [
            ("--damage", "--damage needs a number behind it"),
            ("--damage x", "--damage needs a number, and x is none"),
            ("--damage 100", "--damage 100 is too many: 99 at most"),
            ("--desks 0", "--desks 0 is too few: 1 at least"),
            ("--harm 1", "--harm is no option; --help lists them"),
            ("--journal", "--journal needs a folder behind it"),
            ("--help --harm", "help"),
        ];
        for (line, why) in said {
            assert_eq!(asked(line).err().as_deref(), Some(why));
        }
    }

    #[test]
    fn help_names_every_option() {
        for option in [
            "seed", "loss", "desks", "requests", "damage", "journal", "help",
        ] {
            assert!(HELP.contains(&format!("\n  --{option} ")), "{option}");
        }
    }
}
