//! A client on both sides. The library's record is compared byte by byte after each call. Its request numbers may begin just
//! below the last one, where the Rust's can't: there the Rust counts from 0, and its numbers are moved.

use crate::counts::Counts;
use crate::offset;
use crate::parse;
use crate::play::{Fault, Found};
use schedules::client::sent;
use schedules::inside::client_inside;
use vsr_rs::{Client, Reply};
use whitherhaul::raw;
use wire::fees::{Charge, Outcome, ASK, FEE, MOST_CENTS, REFUND};
use wire::frames::write_reply;
use wire::random::Random;

/// How long a Request frame is.
const REQUEST: usize = 39;

/// A client with its calls.
#[derive(Clone, Debug)]
pub struct Case {
    pub n: u8,
    pub id: u64,
    /// The first request number.
    pub first: u64,
    pub steps: Vec<Step>,
}

/// A call, with how many bytes its area is longer than what is needed, and what is made wrong for a try before it.
#[derive(Clone, Debug)]
pub struct Step {
    pub call: Call,
    pub more: i64,
    pub wrong: Option<Wrong>,
}

#[derive(Clone, Debug)]
pub enum Call {
    Request {
        operation: u8,
        member: u32,
        cents: u64,
    },
    Reply {
        number: u64,
        view: u32,
    },
    Idle,
    /// These bytes are read as a Reply.
    Read(Vec<u8>),
}

/// A record that refusal 1 catches: of this length, or with this value at this place.
#[derive(Clone, Copy, Debug)]
pub enum Wrong {
    Length(usize),
    Byte(usize, u8),
}

/// Both sides.
struct Both {
    rust: Client<Charge>,
    record: Vec<u8>,
    due: Vec<u8>,
    first: u64,
}

/// What a call gives: document 01's number, the request's number, whether a reply answers, the area.
#[derive(Debug, PartialEq)]
struct Answer {
    number: u8,
    request: u64,
    answers: bool,
    written: usize,
    area: Vec<u8>,
}

/// Plays one.
pub fn play(random: &mut Random, counts: &mut Counts) -> Result<(), Fault> {
    let mut case = Case {
        n: 3 + random.below(5) as u8,
        id: random.pick(&[0, 7, 1 << 40, u64::MAX]),
        first: 0,
        steps: Vec::new(),
    };
    if random.chance(30) {
        case.first = u64::MAX - random.below(6) as u64;
    }
    let mut both = Both::new(&case).map_err(|text| fault(text, &case))?;
    for _ in 0..60 {
        case.steps.push(both.any(random));
        let step = case.steps.last().expect("a step");
        let deep = random.chance(4);
        let numbers = both.step(step, deep).map_err(|text| fault(text, &case))?;
        counts.client += 1;
        counts.replies += u64::from(matches!(step.call, Call::Read(_)) && numbers == [2]);
        for number in numbers.into_iter().filter(|number| *number != 0) {
            counts.numbers[usize::from(number)] += 1;
        }
    }
    Ok(())
}

/// Reads these bytes as a Reply, as the one call of a client.
pub fn read_alone(bytes: &[u8], counts: &mut Counts) -> Result<(), Fault> {
    let case = || Case {
        n: 3,
        id: 0,
        first: 0,
        steps: vec![Step {
            call: Call::Read(bytes.to_vec()),
            more: 0,
            wrong: None,
        }],
    };
    let number = read(bytes).map_err(|text| fault(text, &case()))?;
    counts.client += 1;
    if number != 0 {
        counts.numbers[usize::from(number)] += 1;
        counts.replies += 1;
    }
    Ok(())
}

fn fault(text: String, case: &Case) -> Fault {
    Fault {
        text,
        found: Found::Client(case.clone()),
    }
}

/// Gives both sides all calls of a case again.
pub fn again(case: &Case) -> Result<(), String> {
    let mut both = Both::new(case)?;
    for step in &case.steps {
        both.step(step, true)?;
    }
    Ok(())
}

impl Both {
    fn new(case: &Case) -> Result<Both, String> {
        let mut record = vec![0x5a; raw::CLIENT];
        let number = raw::client_create(case.n.into(), case.id, &mut record);
        let mut due = vec![0; raw::CLIENT];
        due[0] = case.n;
        due[1..9].copy_from_slice(&case.id.to_be_bytes());
        if number != 0 || record != due {
            return Err(format!("creation gives {number}, {record:?}"));
        }
        for record in [&mut record, &mut due] {
            record[13..21].copy_from_slice(&case.first.to_be_bytes());
        }
        Ok(Both {
            rust: Client::new(case.id as usize, wire::config(usize::from(case.n))),
            record,
            due,
            first: case.first,
        })
    }

    fn next(&self) -> u64 {
        u64::from_be_bytes(*self.due[13..].first_chunk().expect("eight bytes"))
    }

    /// The pending request's number, or the next one.
    fn pending(&self) -> u64 {
        let at = if self.due[21] == 1 { 30 } else { 13 };
        u64::from_be_bytes(*self.due[at..].first_chunk().expect("eight bytes"))
    }

    /// Any call.
    fn any(&self, random: &mut Random) -> Step {
        let call = match random.below(10) {
            0..=3 => Call::Request {
                operation: random.pick(&[FEE, FEE, REFUND, ASK, ASK, 0, 4, 255]),
                member: random.pick(&[0, 1, 4095, 4096, u32::MAX]),
                cents: random.pick(&[0, 0, 1, 4_500, MOST_CENTS, MOST_CENTS + 1, u64::MAX]),
            },
            4..=6 => {
                let view = self.rust.view_number() as u32;
                let pending = self.pending();
                Call::Reply {
                    number: match random.below(4) {
                        0 | 1 => pending,
                        2 => pending.wrapping_sub(1),
                        _ => random.pick(&[self.next(), 0, u64::MAX]),
                    },
                    view: random.pick(&[
                        view,
                        view.saturating_add(1),
                        view.saturating_sub(1),
                        0,
                        view.saturating_add(9),
                    ]),
                }
            }
            7..=8 => Call::Idle,
            _ => Call::Read(any_reply(random)),
        };
        Step {
            call,
            more: random.pick(&[0, 0, 0, 1, 7, -1, -1000]),
            wrong: random.chance(10).then(|| match random.below(6) {
                0 => Wrong::Length(random.pick(&[0, 53, 55])),
                1 | 2 => Wrong::Byte(0, random.pick(&[0, 1, 2, 8, 255])),
                _ => Wrong::Byte(21, 2 + random.below(254) as u8),
            }),
        }
    }

    /// Gives both a call and compares; the numbers that the library gave.
    fn step(&mut self, step: &Step, deep: bool) -> Result<Vec<u8>, String> {
        let mut numbers = Vec::new();
        if let Call::Read(bytes) = &step.call {
            return read(bytes).map(|number| vec![number]);
        }
        if let Some(wrong) = step.wrong {
            let mut record = self.record.clone();
            match wrong {
                Wrong::Length(length) => record.resize(length, 0),
                Wrong::Byte(at, value) => record[at] = value,
            }
            let before = record.clone();
            let given = called(&step.call, &mut record, 300);
            if given != refused(1, 300) || record != before {
                return Err(format!("with {wrong:?}: {given:?}"));
            }
            numbers.push(1);
        }
        let (length, due) = self.due(step);
        let given = called(&step.call, &mut self.record, length);
        if given != due {
            return Err(format!("the library gives {given:?}, due is {due:?}"));
        }
        if self.record != self.due {
            return Err(format!(
                "the record is {:?}, due is {:?}",
                self.record, self.due
            ));
        }
        if deep {
            let inside = client_inside(&self.rust);
            let pending = (self.due[21] == 1).then(|| self.pending().wrapping_sub(self.first));
            if inside.next != self.next() - self.first || inside.pending != pending {
                return Err("the Rust's next or pending number differs".into());
            }
        }
        numbers.push(due.number);
        Ok(numbers)
    }

    /// How long the area is, and what is due, by document 01 and by the Rust, which takes the call unless it is refused.
    fn due(&mut self, step: &Step) -> (usize, Answer) {
        let length = |needed: usize| (needed as i64 + step.more).max(0) as usize;
        match step.call {
            Call::Request {
                operation,
                member,
                cents,
            } => {
                let length = length(REQUEST);
                let answer = match self.request_refused(operation, cents, length) {
                    0 => self.requested(operation, member, cents, length),
                    number => refused(number, length),
                };
                (length, answer)
            }
            Call::Reply { number, view } => (0, self.replied(number, view)),
            _ => {
                self.rust.on_idle();
                let bytes = sent(&mut self.rust, self.first);
                let length = length(bytes.len());
                if length < bytes.len() {
                    return (length, refused(9, length));
                }
                (length, written(0, &bytes, length))
            }
        }
    }

    /// 2, 11, 9, or 0 where a request is done.
    fn request_refused(&self, operation: u8, cents: u64, length: usize) -> u8 {
        let kept = match operation {
            FEE | REFUND => (1..=MOST_CENTS).contains(&cents),
            ASK => cents == 0,
            _ => false,
        };
        match kept {
            false => 2,
            true if self.next() == u64::MAX => 11,
            true if length < REQUEST => 9,
            true => 0,
        }
    }

    /// The Rust is given a reply; the due record follows.
    fn replied(&mut self, number: u64, view: u32) -> Answer {
        let moved = number.wrapping_sub(self.first);
        let answers = self.rust.on_reply(moved as usize, view as usize);
        let view = self.rust.view_number() as u32;
        self.due[9..13].copy_from_slice(&view.to_be_bytes());
        if answers {
            self.due[21..].fill(0);
        }
        Answer {
            answers,
            ..refused(0, 0)
        }
    }

    /// The Rust is given a request; the due record follows.
    fn requested(&mut self, operation: u8, member: u32, cents: u64, length: usize) -> Answer {
        let charge = Charge {
            operation,
            member,
            cents,
        };
        let request = self.rust.on_request(charge) as u64 + self.first;
        let bytes = sent(&mut self.rust, self.first);
        self.due[13..21].copy_from_slice(&request.wrapping_add(1).to_be_bytes());
        self.due[21] = 1;
        self.due[22..].copy_from_slice(&bytes[7..39]);
        written(request, &bytes, length)
    }
}

/// A refused call: nothing but its number.
fn refused(number: u8, length: usize) -> Answer {
    Answer {
        number,
        request: 0,
        answers: false,
        written: 0,
        area: vec![0xa5; length],
    }
}

/// A done call that wrote these bytes.
fn written(request: u64, bytes: &[u8], length: usize) -> Answer {
    let mut area = vec![0xa5; length];
    area[..bytes.len()].copy_from_slice(bytes);
    Answer {
        number: 0,
        request,
        answers: false,
        written: bytes.len(),
        area,
    }
}

/// The library is given a call.
fn called(call: &Call, record: &mut [u8], length: usize) -> Answer {
    let mut answer = refused(0, length);
    match *call {
        Call::Request {
            operation,
            member,
            cents,
        } => {
            (answer.number, answer.request, answer.written) =
                raw::client_request(record, operation, member, cents, &mut answer.area);
        }
        Call::Reply { number, view } => {
            (answer.number, answer.answers) = raw::client_reply(record, number, view);
        }
        _ => (answer.number, answer.written) = raw::client_idle(record, &mut answer.area),
    }
    answer
}

/// Bytes that are a Reply, or nearly.
fn any_reply(random: &mut Random) -> Vec<u8> {
    let reply = Reply {
        view_number: random.number() as u32 as usize,
        client_id: random.number() as usize,
        request_number: random.number() as usize,
        result: Outcome {
            code: random.below(8) as u8,
            total: random.number(),
        },
    };
    let mut bytes = Vec::new();
    write_reply(&mut bytes, &reply);
    if random.chance(40) {
        return crate::damage::damaged(random, bytes);
    }
    bytes
}

/// Bytes read as a Reply, by document 01 and by the library; the library's number.
fn read(bytes: &[u8]) -> Result<u8, String> {
    let due = parse::reply(bytes).ok_or_else(|| offset::of_reply(bytes));
    let (number, said, offset) = raw::read_reply(bytes);
    let given = match number {
        0 => Ok(said),
        _ => Err(offset),
    };
    if given != due || number != 0 && number != 2 || number == 0 && offset != 0 {
        return Err(format!(
            "a Reply is read as {number}, {said:?}, offset {offset}; due is {due:?}"
        ));
    }
    Ok(number)
}
