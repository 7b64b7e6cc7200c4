//! What the command line asks for.

use crate::shapes::Reader;
use std::ffi::OsString;
use std::path::PathBuf;

/// What --help prints.
pub const HELP: &str = "\
usage: explain [OPTION].. [HEX..]

Shows a frame field by field. Where a replica would refuse it by 2, a mark stands under the first
wrong byte, and a sentence says what could stand there. Other refusals depend on the replica and
aren't judged.

The frame is given in hex, two digits a byte; blanks, line ends, colons, commas and 0x between the
bytes are fine (xxd -p writes such text). Without HEX, or with -, it is read from standard input.

  --file PATH   read the frame from this file
  --raw         the file, or standard input, holds the bytes themselves, not hex
  --reply       read it as a desk reads a Reply, kind 12
  --replica     read it as a replica does; without either, what has the length and the kind of a
                Reply is read as one, and that is said
  --all         show every entry of a long log
  --help        this text

status: 0 well formed, 1 malformed, 2 the frame can't be read or an option is wrong

  explain 00 00 00 0B 01 04 01 00 00 00 00 00 00 00 00    a Commit, well formed
  explain 0000000c 010401 00000000 00000000               Commit's kind with another length";

/// Where the frame comes from.
#[derive(Debug, PartialEq, Eq)]
pub enum Source {
    /// Words of the command line, in hex.
    Words(String),
    /// A file.
    File(PathBuf),
    /// Standard input.
    Input,
}

/// What is to be shown, and how.
#[derive(Debug, PartialEq, Eq)]
pub struct Options {
    /// Where the frame comes from.
    pub source: Source,
    /// Whether it comes as bytes rather than in hex.
    pub raw: bool,
    /// Who reads it, if that was said.
    pub reader: Option<Reader>,
    /// Whether every entry is shown.
    pub all: bool,
}

/// What to do.
#[derive(Debug, PartialEq, Eq)]
pub enum Asked {
    /// Show a frame.
    Frame(Options),
    /// Print [`HELP`].
    Help,
}

/// Reads the words behind the program's name; what is wrong is said in one sentence.
pub fn read(mut words: impl Iterator<Item = OsString>) -> Result<Asked, String> {
    let (mut raw, mut all, mut input) = (false, false, false);
    let (mut reader, mut file) = (None, None);
    let mut hex: Vec<String> = Vec::new();
    while let Some(word) = words.next() {
        let word = word.to_string_lossy().into_owned();
        match word.as_str() {
            "--help" | "-h" => return Ok(Asked::Help),
            "--raw" => raw = true,
            "--all" => all = true,
            "--reply" => one(&mut reader, Reader::Desk, "--reply and --replica")?,
            "--replica" => one(&mut reader, Reader::Replica, "--reply and --replica")?,
            "--file" => {
                let path = words.next().ok_or("--file needs a path behind it")?;
                one(&mut file, PathBuf::from(path), "two files")?;
            }
            "-" => input = true,
            option if option.starts_with('-') => {
                return Err(format!("{option} is no option; --help lists them"))
            }
            _ => hex.push(word),
        }
    }
    let source = source(hex, file, input)?;
    if raw && matches!(source, Source::Words(_)) {
        return Err(String::from(
            "--raw is for a file or standard input, not for hex words",
        ));
    }
    Ok(Asked::Frame(Options {
        source,
        raw,
        reader,
        all,
    }))
}

/// Takes a choice that was not made otherwise before.
fn one<T: PartialEq>(place: &mut Option<T>, choice: T, both: &str) -> Result<(), String> {
    let before = place.replace(choice);
    if before.is_some() && before != *place {
        return Err(format!("{both} can't be asked for together"));
    }
    Ok(())
}

/// The one place that the frame comes from.
fn source(hex: Vec<String>, file: Option<PathBuf>, input: bool) -> Result<Source, String> {
    match (hex.is_empty(), file, input) {
        (false, None, false) => Ok(Source::Words(hex.join(" "))),
        (true, Some(path), false) => Ok(Source::File(path)),
        (true, None, _) => Ok(Source::Input),
        _ => Err(String::from(
            "a frame comes from one place: hex words, a file or standard input",
        )),
    }
}
