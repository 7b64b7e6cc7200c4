//! The bytes of a journal or a table, from a file or from standard input.

use crate::bar::Bar;
use ledger_options::Source;
use std::fs::File;
use std::io::{self, ErrorKind, IsTerminal, Read, StdinLock};
use whitherhaul::journal::{FRAME_LENGTH, MOST_FRAMES};

/// How long a good journal can be.
const LONGEST: usize = FRAME_LENGTH * MOST_FRAMES;

/// What a file is called where it is spoken of: on one line, whatever its name holds.
pub fn name(source: &Source) -> String {
    match source {
        Source::Input => String::from("standard input"),
        Source::File(path) => {
            let name = path.to_string_lossy();
            let shown = name.chars().map(|c| match c.is_control() {
                true => c.escape_default().to_string(),
                false => c.to_string(),
            });
            shown.collect()
        }
    }
}

/// What decides about a journal: all its bytes, or the first that a good one can have and one more,
/// which is past the last frame, whatever follows it.
pub fn read(source: &Source) -> Result<Vec<u8>, String> {
    let content = match source {
        Source::Input => standard_input("a journal").and_then(journal),
        Source::File(path) => File::open(path).and_then(journal),
    };
    content.map_err(|fault| unread(source, &fault))
}

/// All bytes of a table, however many there are.
pub fn read_whole(source: &Source) -> Result<Vec<u8>, String> {
    let content = match source {
        Source::Input => standard_input("a table").and_then(|input| pieces(input, None)),
        Source::File(path) => File::open(path).and_then(whole),
    };
    content.map_err(|fault| unread(source, &fault))
}

fn unread(source: &Source, fault: &io::Error) -> String {
    format!("{} can't be read: {fault}", name(source))
}

fn standard_input(what: &str) -> io::Result<StdinLock<'static>> {
    let input = io::stdin();
    if input.is_terminal() {
        eprintln!("ledger: reads {what} from here; Ctrl-D ends it (--help says more)");
    }
    Ok(input.lock())
}

fn journal(input: impl Read) -> io::Result<Vec<u8>> {
    pieces(input.take(LONGEST as u64 + 1), Some(LONGEST))
}

/// The length of what is no file on disk isn't known.
fn whole(file: File) -> io::Result<Vec<u8>> {
    let kind = file.metadata()?;
    let length = kind.is_file().then_some(kind.len() as usize);
    pieces(file, length)
}

fn pieces(mut input: impl Read, most: Option<usize>) -> io::Result<Vec<u8>> {
    let mut bar = Bar::before_output("reading", most, "bytes");
    let mut content = Vec::new();
    let mut piece = [0; 65536];
    loop {
        match input.read(&mut piece) {
            Ok(0) => return Ok(content),
            Ok(length) => content.extend(&piece[..length]),
            Err(fault) if fault.kind() == ErrorKind::Interrupted => {}
            Err(fault) => return Err(fault),
        }
        bar.at(content.len());
    }
}

#[cfg(test)]
mod tests {
    use super::*;

    #[test]
    fn no_more_is_read_than_decides() {
        let read = journal(io::repeat(7)).expect("read");
        assert_eq!(read, [7; 204_801]);
        assert_eq!(journal(&[1, 2, 3][..]).expect("read"), [1, 2, 3]);
    }

    #[test]
    fn all_of_a_table_is_read() {
        let long = io::repeat(7).take(1_000_000);
        assert_eq!(pieces(long, None).expect("read"), [7; 1_000_000]);
    }

    #[test]
    fn a_name_stays_on_its_line() {
        let shown = |path: &str| name(&Source::File(path.into()));
        assert_eq!(shown("Fees für 2026.journal"), "Fees für 2026.journal");
        assert_eq!(shown("a\nb\u{1b}[1m"), "a\\nb\\u{1b}[1m");
    }
}
