//! The journals of the day's machines on disk: one file each, which only grows.

use crate::day::REPLICAS;
use ledger::check::{check, Checked};
use ledger_options::Source;
use std::fs::{self, OpenOptions};
use std::io::{self, Write};
use std::path::{Path, PathBuf};
use whitherhaul::journal::FRAME_LENGTH;

/// The journals' files, by the machines' ids.
pub struct Journals(Vec<PathBuf>);

impl Journals {
    /// Empty journals in a folder, which is made where it isn't there. A file that is there already is refused, and nothing
    /// is changed then.
    pub fn new(folder: &Path) -> Result<Journals, String> {
        let ids = 0..REPLICAS;
        let files: Vec<PathBuf> = ids
            .map(|id| folder.join(format!("replica-{id}.journal")))
            .collect();
        if let Some(file) = files.iter().find(|file| file.symlink_metadata().is_ok()) {
            let file = file.display();
            return Err(format!(
                "{file} is there already, and no journal is written over: name another folder"
            ));
        }
        let cant = |file: &Path, fault| format!("{} can't be made: {fault}", file.display());
        fs::create_dir_all(folder).map_err(|fault| cant(folder, fault))?;
        for file in &files {
            let made = OpenOptions::new().write(true).create_new(true).open(file);
            made.map_err(|fault| cant(file, fault))?;
        }
        Ok(Journals(files))
    }

    /// The file of this machine.
    pub fn of(&self, id: u8) -> PathBuf {
        self.0[usize::from(id)].clone()
    }

    /// Prints what `ledger check` says of each journal, and whether each is the beginning of the longest. Whether all is well.
    pub fn checked(&self, members: u32) -> bool {
        println!("\nThe machines' journals, for {members} members, as ./ledger check reads them:");
        let mut checked = Vec::new();
        for file in &self.0 {
            match check(&Source::File(file.clone()), members) {
                Ok(journal) => {
                    println!("{journal}");
                    checked.push(journal);
                }
                Err(why) => println!("{why}"),
            }
        }
        let good = checked.iter().all(|journal| journal.verdict.status() == 0);
        let strays = strays(&checked);
        for name in &strays {
            println!("{name} is NOT the beginning of the longest.");
        }
        if strays.is_empty() {
            println!("Each is the beginning of the longest.");
        }
        good && strays.is_empty() && checked.len() == self.0.len()
    }
}

/// The journals that aren't the beginning of the longest one.
fn strays(journals: &[Checked]) -> Vec<&str> {
    let longest = journals.iter().map(|journal| &journal.content);
    let longest = longest.max_by_key(|content| content.len());
    let begins = |journal: &&Checked| longest.is_some_and(|l| l.starts_with(&journal.content));
    let strays = journals.iter().filter(|journal| !begins(journal));
    strays.map(|journal| journal.name.as_str()).collect()
}

/// Appends what was committed behind the last op that stands in the file. That op is told by the file's length alone, so that
/// a machine which is back from a crash goes on where it left off.
pub fn append(file: &Path, committed: u64, since: impl FnOnce(u32) -> Vec<u8>) -> io::Result<()> {
    let mut file = OpenOptions::new().append(true).open(file)?;
    let last = file.metadata()?.len() / FRAME_LENGTH as u64;
    match last < committed {
        true => file.write_all(&since(last as u32)),
        false => Ok(()),
    }
}

#[cfg(test)]
mod tests;
