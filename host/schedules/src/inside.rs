//! What the Rust's replica holds beyond its public getters, read from its derived `Debug` text, which is public too:
//! the clock, the votes, the stored messages, the nonce and the client table; and what its client holds. Top fields stand behind
//! four spaces there.

use crate::stored::{reports, Report};
use vsr_rs::{Client, Replica};
use wire::fees::{Charge, Ledger, Outcome};

/// A row of the client table.
#[derive(Default)]
pub struct Row {
    pub client: u64,
    pub request: u64,
    pub reply: Option<Outcome>,
}

/// What a replica's lines of a trace say and no getter does; sets are one bit for each replica id. Where DoViewChanges are
/// stored there are no responses, and the other way round.
pub struct Inside {
    pub last_normal: u64,
    pub heard: bool,
    pub waiting: u64,
    pub stable: u64,
    pub attempts: u64,
    pub starts: u64,
    pub sent: bool,
    pub catching_up: bool,
    pub reports: Vec<Report>,
    pub responses: Vec<Report>,
    pub nonce: u64,
    pub acks: Vec<(u64, u64)>,
    pub rows: Vec<Row>,
}

impl Inside {
    /// What is compared of the stored messages: one after another, as `Report::bytes` has each.
    pub fn stored(&self) -> Vec<u8> {
        let reports = self.reports.iter().chain(&self.responses);
        reports.flat_map(Report::bytes).collect()
    }
}

/// Whose reports there are, as a number.
pub fn senders(reports: &[Report]) -> u64 {
    bits(&reports.iter().map(|report| report.id).collect::<Vec<_>>())
}

/// Reads all of it.
pub fn inside(replica: &Replica<Ledger>) -> Inside {
    let text = format!("{replica:#?}");
    let number = |name| leading_number(&field(&text, name)[0]);
    let flag = |name| field(&text, name)[0] == "true";
    let set = |name| bits(&at_depth(&field(&text, name), 8));
    Inside {
        last_normal: number("last_normal_view"),
        heard: flag("heard_from_primary"),
        waiting: number("idle_periods_waiting"),
        stable: number("idle_periods_stable"),
        attempts: number("view_change_attempts"),
        starts: set("start_view_change_from"),
        sent: flag("do_view_change_sent"),
        catching_up: flag("catching_up"),
        reports: reports(&field(&text, "do_view_change_from")),
        responses: reports(&field(&text, "recovery_responses")),
        nonce: number("recovery_nonce"),
        acks: acks(&field(&text, "acks")),
        rows: rows(&field(&text, "client_table")),
    }
}

/// What a client holds beyond its getters: the next request number, and the pending one.
pub struct ClientInside {
    pub next: u64,
    pub pending: Option<u64>,
}

/// Reads both.
pub fn client_inside(client: &Client<Charge>) -> ClientInside {
    let text = format!("{client:#?}");
    let pending = field(&text, "pending");
    ClientInside {
        next: leading_number(&field(&text, "next_request_number")[0]),
        pending: at_depth(&pending, 12).first().copied(),
    }
}

/// The value of a top field: what stands behind its name, without the comma, then the deeper lines below it.
fn field(text: &str, name: &str) -> Vec<String> {
    let head = format!("    {name}: ");
    let mut lines = text.lines().skip_while(|line| !line.starts_with(&head));
    let first = lines.next().expect("a field of the Rust's Debug text");
    let value = first[head.len()..].trim_end_matches(',').to_string();
    let deeper = lines.take_while(|line| depth(line) > 4).map(String::from);
    std::iter::once(value).chain(deeper).collect()
}

/// How many spaces a line begins with.
pub(crate) fn depth(line: &str) -> usize {
    line.len() - line.trim_start().len()
}

/// The number that a text begins with, after spaces.
pub(crate) fn leading_number(text: &str) -> u64 {
    let text = text.trim_start();
    let end = text.find(|c: char| !c.is_ascii_digit());
    text[..end.unwrap_or(text.len())]
        .parse()
        .expect("a number in the Rust's Debug text")
}

/// The numbers that lines of this depth begin with: the keys of a map, or the elements of a set.
fn at_depth(lines: &[String], spaces: usize) -> Vec<u64> {
    let here = lines[1..].iter().filter(|line| depth(line) == spaces);
    here.filter(|line| line.trim_start().starts_with(|c: char| c.is_ascii_digit()))
        .map(|line| leading_number(line))
        .collect()
}

/// A set of replicas as a number.
fn bits(members: &[u64]) -> u64 {
    members.iter().fold(0, |set, member| set | 1 << member)
}

/// For each op with a row of acks, the set of replicas.
fn acks(lines: &[String]) -> Vec<(u64, u64)> {
    let mut acks: Vec<(u64, u64)> = Vec::new();
    for line in &lines[1..] {
        match depth(line) {
            8 if line.ends_with('{') => acks.push((leading_number(line), 0)),
            12 => {
                if let Some(last) = acks.last_mut() {
                    last.1 |= 1 << leading_number(line);
                }
            }
            _ => {}
        }
    }
    acks
}

/// The rows of the client table, in rising order of client id.
fn rows(lines: &[String]) -> Vec<Row> {
    let mut rows: Vec<Row> = Vec::new();
    for line in &lines[1..] {
        if let (8, Some((client, "ClientEntry {"))) = (depth(line), line.trim().split_once(": ")) {
            rows.push(Row {
                client: leading_number(client),
                ..Row::default()
            });
        } else if let (Some(row), Some((name, value))) =
            (rows.last_mut(), line.trim().split_once(": "))
        {
            set_part(row, name, value);
        }
    }
    rows
}

/// Sets one part of a row: its request number, or a part of its reply.
fn set_part(row: &mut Row, name: &str, value: &str) {
    match name {
        "request_number" => row.request = leading_number(value),
        "code" => {
            row.reply = Some(Outcome {
                code: leading_number(value) as u8,
                total: 0,
            })
        }
        "total" => {
            if let Some(reply) = row.reply.as_mut() {
                reply.total = leading_number(value);
            }
        }
        _ => {}
    }
}
