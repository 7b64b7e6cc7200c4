//! What the command line of `./ledger` asks for.

#![deny(missing_docs)]
#![forbid(unsafe_code)]

mod behind;
mod help;

use behind::{behind, no_option, Behind};
pub use help::{CHECK_HELP, EXPORT_HELP, HELP, IMPORT_HELP, SHOW_HELP, VERSION};
use std::ffi::OsString;
use std::io::{ErrorKind, Write};
use std::path::PathBuf;

/// The most members that a ledger can have.
pub const MOST_MEMBERS: u32 = 4_096;

/// Where a journal or a table comes from.
#[derive(Clone, Debug, PartialEq, Eq)]
pub enum Source {
    /// A file.
    File(PathBuf),
    /// Standard input.
    Input,
}

/// What to do.
#[derive(Debug, PartialEq, Eq)]
pub enum Asked {
    /// Judge these journals of a ledger with so many members.
    Check(Vec<Source>, u32),
    /// Print a journal for people, and judge it where the number of members is given.
    Show(Source, Option<u32>),
    /// Print the entries of a journal, of a ledger with so many members, as CSV.
    Export(Source, u32),
    /// Judge a table of entries, as CSV.
    Import(Source),
    /// Print this text and do nothing else.
    Say(&'static str),
}

/// Reads the words behind the program's name; what is wrong is said in one sentence.
pub fn read(mut words: impl Iterator<Item = OsString>) -> Result<Asked, String> {
    let Some(command) = words.next() else {
        return Err(String::from(
            "check, show, export or import? --help says more",
        ));
    };
    match command.to_string_lossy().as_ref() {
        "--help" | "-h" => Ok(Asked::Say(HELP)),
        "--version" => Ok(Asked::Say(VERSION)),
        "check" => check(behind(words, CHECK_HELP)?),
        "show" => show(behind(words, SHOW_HELP)?),
        "export" => export(behind(words, EXPORT_HELP)?),
        "import" => import(behind(words, IMPORT_HELP)?),
        option if option.starts_with('-') => Err(no_option(option)),
        other => Err(format!(
            "{other:?} is none of check, show, export and import; --help says more"
        )),
    }
}

fn check(behind: Behind) -> Result<Asked, String> {
    match behind {
        Behind::Say(text) => Ok(Asked::Say(text)),
        Behind::Files(files, _) if files.is_empty() => Err(no_file("check", "journal")),
        Behind::Files(files, members) => Ok(Asked::Check(files, needed("check", members)?)),
    }
}

fn show(behind: Behind) -> Result<Asked, String> {
    match behind {
        Behind::Say(text) => Ok(Asked::Say(text)),
        Behind::Files(files, members) => Ok(Asked::Show(one("show", "journal", files)?, members)),
    }
}

fn export(behind: Behind) -> Result<Asked, String> {
    match behind {
        Behind::Say(text) => Ok(Asked::Say(text)),
        Behind::Files(files, members) => {
            let file = one("export", "journal", files)?;
            Ok(Asked::Export(file, needed("export", members)?))
        }
    }
}

fn import(behind: Behind) -> Result<Asked, String> {
    match behind {
        Behind::Say(text) => Ok(Asked::Say(text)),
        Behind::Files(_, Some(_)) => Err(String::from(
            "import takes no --members: a table is judged without",
        )),
        Behind::Files(files, None) => Ok(Asked::Import(one("import", "table", files)?)),
    }
}

/// The one file of a command that takes no more.
fn one(command: &str, what: &str, files: Vec<Source>) -> Result<Source, String> {
    match <[Source; 1]>::try_from(files) {
        Ok([file]) => Ok(file),
        Err(files) if files.is_empty() => Err(no_file(command, what)),
        Err(_) => Err(format!("{command} takes one {what} at a time")),
    }
}

fn no_file(command: &str, what: &str) -> String {
    format!("{command} needs a {what}: the name of its file, or - for standard input")
}

/// The number of members of a command that can't do without.
fn needed(command: &str, members: Option<u32>) -> Result<u32, String> {
    members.ok_or(format!(
        "{command} needs --members M, how many members the ledger has, 1 to {MOST_MEMBERS}"
    ))
}

/// Prints a text. Who closed the pipe has seen enough.
pub fn print(text: &str) -> Result<(), String> {
    print_bytes(text.as_bytes())
}

/// Prints bytes as they are, in the same way.
pub fn print_bytes(bytes: &[u8]) -> Result<(), String> {
    let mut out = std::io::stdout().lock();
    match out.write_all(bytes).and_then(|()| out.flush()) {
        Err(fault) if fault.kind() != ErrorKind::BrokenPipe => Err(format!("can't print: {fault}")),
        _ => Ok(()),
    }
}

#[cfg(test)]
mod tests;
