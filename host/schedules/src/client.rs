//! The Rust's `Client`, given requests, replies and idle calls, and what it answered to each: any calls, and directed examples with
//! what each of their calls has to give.
//!
//! The Rust knows no refusals, and none of these calls is one: every operation keeps the entry rules, and areas are just as long
//! as what the Rust sent.

mod examples;

use crate::adversary::cents;
use crate::inside::{client_inside, ClientInside};
use crate::run::hex;
use std::collections::BTreeMap;
use vsr_rs::{Client, Message};
use wire::fees::{Charge, ASK, FEE, REFUND};
use wire::frames::write_frame;
use wire::random::Random;

/// How many replicas there are; each has a run of its own.
const SIZES: [usize; 5] = [3, 4, 5, 6, 7];

/// A client with the lines of its calls, and how often each kind of call was made.
struct Run {
    client: Client<Charge>,
    lines: String,
    kinds: BTreeMap<&'static str, usize>,
}

/// The frames that the Rust's client has to send, its request numbers counted from `first`.
pub fn sent(client: &mut Client<Charge>, first: u64) -> Vec<u8> {
    let mut bytes = Vec::new();
    for (to, mut message) in client.drain() {
        let Message::Request { request_number, .. } = &mut message else {
            panic!("a client sends requests only");
        };
        *request_number += first as usize;
        write_frame(&mut bytes, to, &message);
    }
    bytes
}

impl Run {
    /// A new client of `n` replicas.
    fn new(n: usize, id: u64) -> Run {
        let mut run = Run {
            client: Client::new(id as usize, wire::config(n)),
            lines: String::new(),
            kinds: BTreeMap::new(),
        };
        run.record(format!("C {n} {id} 0 0"), 0, "");
        run
    }

    /// What has no getter.
    fn inside(&self) -> ClientInside {
        client_inside(&self.client)
    }

    /// Writes down a call, its answer and the state after it.
    fn record(&mut self, call: String, code: usize, bytes: &str) {
        let i = self.inside();
        let view = self.client.view_number();
        let pending = i.pending.map_or(String::from("-"), |p| p.to_string());
        let bytes = if bytes.is_empty() { "-" } else { bytes };
        self.lines += &format!(
            "{call}\n= {code} {bytes} -\n; {view} {} {pending}\n",
            i.next
        );
    }

    fn count(&mut self, kind: &'static str) {
        *self.kinds.entry(kind).or_default() += 1;
    }

    fn request(&mut self, operation: u8, member: u32, cents: u64) {
        self.count(match self.inside().pending {
            Some(_) => "requests in place of another",
            None => "requests",
        });
        self.client.on_request(Charge {
            operation,
            member,
            cents,
        });
        let bytes = sent(&mut self.client, 0);
        let call = format!("Q {operation} {member} {cents} {}", bytes.len());
        self.record(call, 0, &hex(&bytes));
    }

    fn reply(&mut self, number: u64, view: usize) {
        self.count(match self.inside().pending {
            Some(pending) if pending == number => "replies that answer",
            Some(pending) if number < pending => "replies of an older number",
            Some(_) => "replies of another number",
            None => "replies to nothing",
        });
        self.count(match view.cmp(&self.client.view_number()) {
            std::cmp::Ordering::Less => "replies of a lower view",
            std::cmp::Ordering::Equal => "replies of the same view",
            std::cmp::Ordering::Greater => "replies of a higher view",
        });
        let answers = self.client.on_reply(number as usize, view);
        self.record(format!("P {number} {view}"), answers.into(), "");
    }

    fn idle(&mut self) {
        self.count(match self.inside().pending {
            Some(_) => "idle with a request",
            None => "idle without one",
        });
        self.client.on_idle();
        let bytes = sent(&mut self.client, 0);
        self.record(format!("I {}", bytes.len()), 0, &hex(&bytes));
    }

    /// Any call.
    fn step(&mut self, random: &mut Random) {
        match random.below(10) {
            0..=3 => {
                let operation = random.pick(&[FEE, REFUND, ASK]);
                let member = random.pick(&[0, 1, 4095, 4096, u32::MAX]);
                self.request(operation, member, cents(random, operation));
            }
            4..=7 => {
                let i = self.inside();
                let pending = i.pending.unwrap_or(i.next);
                let number = match random.below(4) {
                    0 | 1 => pending,
                    2 => pending.saturating_sub(1),
                    _ => random.pick(&[i.next, i.next + 1, 0, u64::MAX]),
                };
                let view = self.client.view_number();
                let lower = view.saturating_sub(1);
                self.reply(
                    number,
                    random.pick(&[view, view + 1, view + 3, lower, lower, 0]),
                );
            }
            _ => self.idle(),
        }
    }
}

/// Plays a client of so many replicas, with so many calls, and at its end the last view and the greatest number.
fn played(random: &mut Random, n: usize, calls: usize) -> Run {
    let mut run = Run::new(n, random.pick(&[0, 7, 1 << 40, u64::MAX]));
    for _ in 0..calls {
        run.step(random);
    }
    run.request(FEE, 3, 4_500);
    run.reply(u64::MAX, u32::MAX as usize);
    run.request(ASK, 3, 0);
    run.idle();
    run
}

/// Plays a client of each size, with so many calls each, then the directed examples; all as a trace, or what of the examples isn't
/// as it was to be.
pub fn trace(seed: u64, calls: usize) -> Result<String, String> {
    let mut random = Random::new(seed);
    let mut lines = String::new();
    let mut kinds = BTreeMap::new();
    for n in SIZES {
        let run = played(&mut random, n, calls);
        lines += &run.lines;
        for (kind, times) in run.kinds {
            *kinds.entry(kind).or_insert(0) += times;
        }
    }
    let examples = examples::all()?;
    let (runs, count) = (
        examples.runs + SIZES.len(),
        examples.calls + SIZES.len() * (calls + 4),
    );
    let rust = crate::answered_by();
    let mut text =
        format!("# Answers of {rust}'s client, written by host/schedules: seed {seed}.\n");
    text += &format!(
        "# {runs} runs, {count} calls; the last {} runs are directed examples. Of the others:\n",
        examples.runs
    );
    for (kind, times) in kinds {
        text += &format!("# {kind}: {times}\n");
    }
    Ok(text + "\n" + &lines + &examples.text)
}
