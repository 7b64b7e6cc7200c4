//! The DoViewChanges and RecoveryResponses that the Rust's replica has stored, read from its `Debug` text.

use crate::inside::{depth, leading_number};
use vsr_rs::{LogEntry, Message};
use wire::fees::Entry;
use wire::frames::{entry_bytes, Fees};

/// A stored DoViewChange, with its last normal view; or a stored RecoveryResponse, with its view, whose log and commit number only
/// a primary sends.
#[derive(Debug, Default)]
pub struct Report {
    pub id: u64,
    pub with_log: bool,
    pub view: u64,
    pub commit: u64,
    pub log: Vec<Entry>,
}

impl Report {
    /// What is stored of such a message.
    pub fn of(message: &Fees) -> Report {
        let (id, view, held) = match message {
            Message::DoViewChange {
                replica_id,
                last_normal_view,
                log,
                commit_number,
                ..
            } => (replica_id, last_normal_view, Some((log, commit_number))),
            Message::RecoveryResponse {
                replica_id,
                view_number,
                state,
                ..
            } => {
                let held = state.as_ref().map(|held| (&held.log, &held.commit_number));
                (replica_id, view_number, held)
            }
            _ => panic!("no message that is stored"),
        };
        let entries = |log: &Vec<LogEntry<Entry>>| log.iter().map(|entry| entry.op).collect();
        Report {
            id: *id as u64,
            with_log: held.is_some(),
            view: *view as u64,
            commit: held.map_or(0, |(_, commit)| *commit as u64),
            log: held.map_or(Vec::new(), |(log, _)| entries(log)),
        }
    }

    /// What is compared of it, big-endian: id (1), with a log (1), view (4), op number (4), commit number (4), its log's entries, 32
    /// bytes each.
    pub fn bytes(&self) -> Vec<u8> {
        let mut bytes = vec![self.id as u8, self.with_log.into()];
        for number in [self.view, self.log.len() as u64, self.commit] {
            bytes.extend((number as u32).to_be_bytes());
        }
        bytes.extend(self.log.iter().flat_map(entry_bytes));
        bytes
    }

    /// Sets the part that a line of the text names.
    fn set_part(&mut self, name: &str, value: &str) {
        match name {
            "last_normal_view" | "view_number" => self.view = leading_number(value),
            "log" => self.with_log = true,
            "commit_number" => self.commit = leading_number(value),
            "op" => self.log.push(Entry::default()),
            _ => {
                if let Some(entry) = self.log.last_mut() {
                    set_entry(entry, name, value);
                }
            }
        }
    }
}

/// Sets a part of an entry; its client and request number stand in the operation too.
fn set_entry(entry: &mut Entry, name: &str, value: &str) {
    match name {
        "client" => entry.client = leading_number(value),
        "request" => entry.request = leading_number(value),
        "operation" => entry.operation = leading_number(value) as u8,
        "member" => entry.member = leading_number(value) as u32,
        "cents" => entry.cents = leading_number(value),
        _ => {}
    }
}

/// The reports of a map, by its lines, in rising order of replica id.
pub fn reports(lines: &[String]) -> Vec<Report> {
    let mut reports: Vec<Report> = Vec::new();
    for line in &lines[1..] {
        let Some((name, value)) = line.trim().split_once(": ") else {
            continue;
        };
        if depth(line) == 8 {
            reports.push(Report {
                id: leading_number(name),
                ..Report::default()
            });
        } else if let Some(report) = reports.last_mut() {
            report.set_part(name, value);
        }
    }
    reports
}
