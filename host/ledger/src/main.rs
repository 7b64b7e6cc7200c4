//! `./ledger`: status 0 where every journal or table is good, 1 where one is bad, 2 where one can't
//! be read or an option is wrong.

use ledger::bar::Bar;
use ledger::export::{export, Exported};
use ledger::import::import;
use ledger::words::count;
use ledger::{check, input, table};
use ledger_options::{print, print_bytes, read, Asked, Source};
use std::process::ExitCode;

/// How many lines are printed at once.
const PIECE: usize = 64;

/// How many bytes of a table are printed at once.
const BYTES: usize = 4096;

fn main() -> ExitCode {
    let done = read(std::env::args_os().skip(1)).and_then(|asked| match asked {
        Asked::Say(text) => print(text).map(|()| 0),
        Asked::Check(files, members) => check(&files, members),
        Asked::Show(file, members) => show(&file, members),
        Asked::Export(file, members) => export_to_output(&file, members),
        Asked::Import(file) => import_and_tell(&file),
    });
    done.map_or_else(|why| fault(&why), ExitCode::from)
}

fn fault(why: &str) -> ExitCode {
    eprintln!("ledger: {why}");
    ExitCode::from(2)
}

/// A line for each journal; the status is that of the worst. One that can't be read keeps none of
/// the others from being judged.
fn check(files: &[Source], members: u32) -> Result<u8, String> {
    let mut worst = 0;
    for file in files {
        let status = match check::check(file, members) {
            Ok(checked) => {
                print(&format!("{checked}\n"))?;
                checked.verdict.status()
            }
            Err(why) => {
                eprintln!("ledger: {why}");
                2
            }
        };
        worst = worst.max(status);
    }
    Ok(worst)
}

/// The table of a journal, and behind it what was checked.
fn show(file: &Source, members: Option<u32>) -> Result<u8, String> {
    let (content, checked) = match members {
        Some(members) => {
            let checked = check::check(file, members)?;
            let line = format!("{checked}");
            (checked.content, Some((line, checked.verdict.status())))
        }
        None => (input::read(file)?, None),
    };
    let mut table = table::table(&content);
    let (end, status) = checked.unwrap_or_else(|| {
        let entries = count(table.frames as u64, "entry", "entries");
        let line = format!("{entries}; outcomes and totals not checked (--members M checks them)");
        (line, u8::from(!table.readable))
    });
    table.lines.extend([String::new(), end]);
    print_lines(&table.lines)?;
    Ok(status)
}

fn print_lines(lines: &[String]) -> Result<(), String> {
    let mut bar = Bar::beside_output("printing", lines.len(), "lines");
    let mut done = 0;
    for piece in lines.chunks(PIECE) {
        print(&format!("{}\n", piece.join("\n")))?;
        done += piece.len();
        bar.at(done);
    }
    Ok(())
}

/// The entries of a good journal as a table, and nothing but that.
fn export_to_output(file: &Source, members: u32) -> Result<u8, String> {
    match export(file, members)? {
        Exported::Table(table) => print_table(&table).map(|()| 0),
        Exported::Bad(checked) => {
            eprintln!("ledger: {checked}");
            Ok(checked.verdict.status())
        }
    }
}

fn print_table(table: &[u8]) -> Result<(), String> {
    let mut bar = Bar::beside_output("printing", table.len(), "bytes");
    let mut done = 0;
    for piece in table.chunks(BYTES) {
        print_bytes(piece)?;
        done += piece.len();
        bar.at(done);
    }
    Ok(())
}

/// A line for a table.
fn import_and_tell(file: &Source) -> Result<u8, String> {
    let imported = import(file)?;
    print(&format!("{imported}\n"))?;
    Ok(imported.status())
}
