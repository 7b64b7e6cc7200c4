//! The words behind a command: files and options.

use crate::help::VERSION;
use crate::{Source, MOST_MEMBERS};
use std::ffi::OsString;
use std::path::PathBuf;

/// What stands behind a command.
pub enum Behind {
    /// A text is asked for.
    Say(&'static str),
    /// Files, and the number of members where it is given.
    Files(Vec<Source>, Option<u32>),
}

/// Reads the words behind a command that has this text of --help.
pub fn behind(
    mut words: impl Iterator<Item = OsString>,
    help: &'static str,
) -> Result<Behind, String> {
    let (mut files, mut members) = (Vec::new(), None);
    while let Some(word) = words.next() {
        match word.to_string_lossy().as_ref() {
            "--help" | "-h" => return Ok(Behind::Say(help)),
            "--version" => return Ok(Behind::Say(VERSION)),
            "--members" => {
                let number = number(words.next())?;
                if members.replace(number).is_some_and(|m| m != number) {
                    return Err(String::from("--members stands there twice"));
                }
            }
            "-" if files.contains(&Source::Input) => {
                return Err(String::from("standard input (-) can be read only once"))
            }
            "-" => files.push(Source::Input),
            option if option.starts_with('-') => return Err(no_option(option)),
            "" => return Err(String::from("a file's name is empty")),
            _ => files.push(Source::File(PathBuf::from(word))),
        }
    }
    Ok(Behind::Files(files, members))
}

/// What is said of a word that looks like an option and is none.
pub fn no_option(option: &str) -> String {
    format!("{option:?} is no option; --help lists them")
}

/// The number of members behind --members.
fn number(word: Option<OsString>) -> Result<u32, String> {
    let word = word.ok_or("--members needs a number behind it")?;
    let word = word.to_string_lossy();
    let digits = !word.is_empty() && word.bytes().all(|byte| byte.is_ascii_digit());
    if !digits {
        return Err(format!("--members needs a number, and {word:?} is none"));
    }
    match word.parse() {
        Ok(number @ 1..=MOST_MEMBERS) => Ok(number),
        _ => Err(format!(
            "--members {word} can't be: a ledger has 1 to {MOST_MEMBERS} members"
        )),
    }
}
