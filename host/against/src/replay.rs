//! A recorded trace (`../shared/vectors/FORMAT.md`; host/README.md for the lines `+`, `@` and `$`), given to the library through the
//! C calls: numbers, message and reply bytes, the lines of the state, and after a refusal every lent byte. The offsets of malformed
//! frames are judged as `offset` has them, and compared where the trace has them too. Where it has the takings, they are compared
//! with the answer of their call, with what the state keeps, and with all totals added up.

mod instead;
mod replica;
#[cfg(test)]
mod tests;

use crate::deep;
use crate::pair::Pair;
use replica::{kept, Replica, SLACK};
use schedules::run::hex;
use std::collections::BTreeMap;
use std::process::ExitCode;
use whitherhaul::raw::{self, Memory};

/// Plays a trace, and says what was compared. One of document 01 was written without the exceptions (`instead`).
pub fn replay(file: &str, document_01: bool) -> ExitCode {
    let text = match std::fs::read_to_string(file) {
        Ok(text) => text,
        Err(fault) => {
            eprintln!("against: {file}: {fault}");
            return ExitCode::FAILURE;
        }
    };
    match played(&text, document_01) {
        Ok(replay) => {
            print!("{}", replay.told(file));
            ExitCode::SUCCESS
        }
        Err((line, fault)) => {
            println!("against: fails: {file}, line {line}: {fault}");
            ExitCode::FAILURE
        }
    }
}

/// All lines of a trace; or what is wrong, and in which line.
fn played(text: &str, document_01: bool) -> Result<Replay, (usize, String)> {
    let mut replay = Replay {
        document_01,
        ..Replay::default()
    };
    for (place, line) in text.lines().enumerate() {
        if line.is_empty() || line.starts_with('#') {
            continue;
        }
        let words: Vec<&str> = line.split(' ').collect();
        replay.line(&words).map_err(|fault| (place + 1, fault))?;
    }
    Ok(replay)
}

/// What a run is of.
#[derive(Default)]
enum Running {
    #[default]
    Nothing,
    Replica(Box<Replica>),
    Instead(Box<Pair>),
    Client(Vec<u8>),
}

/// The answer of the call that was given last.
#[derive(Default)]
struct Answer {
    code: u8,
    messages: Vec<u8>,
    replies: Vec<u8>,
}

#[derive(Default)]
struct Replay {
    document_01: bool,
    running: Running,
    answer: Option<Answer>,
    /// The offset that the last call came with, if that was a malformed frame.
    offset: Option<usize>,
    compared: BTreeMap<&'static str, usize>,
    states: usize,
    stored: usize,
    offsets: usize,
    takings: usize,
    refused: BTreeMap<u8, usize>,
    /// Runs and answers that were compared with the amended Rust in place of the trace.
    instead: (usize, usize),
}

/// A decimal number of some type.
fn number_of<T: TryFrom<u64>>(word: &str) -> Result<T, String> {
    let number: u64 = word.parse().map_err(|_| format!("no number: {word}"))?;
    T::try_from(number).map_err(|_| format!("no argument of the C call: {word}"))
}

pub fn bytes_of(word: &str) -> Result<Vec<u8>, String> {
    if word == "-" {
        return Ok(Vec::new());
    }
    let pair = |at| u8::from_str_radix(word.get(at..at + 2).unwrap_or("?"), 16);
    let bytes: Result<Vec<u8>, _> = (0..word.len()).step_by(2).map(pair).collect();
    bytes.map_err(|_| String::from("no hex"))
}

/// The setup of five words.
fn setup_of(words: &[&str]) -> Result<whitherhaul::Setup, String> {
    Ok(whitherhaul::Setup {
        replicas: number_of(words[0])?,
        id: number_of(words[1])?,
        timeout: number_of(words[2])?,
        room: number_of(words[3])?,
        members: number_of(words[4])?,
    })
}

impl Replay {
    fn line(&mut self, words: &[&str]) -> Result<(), String> {
        match (words[0], words.len()) {
            ("N", 6) => self.create(&words[1..], None, 0),
            ("R", 9) => {
                let back = (number_of(words[6])?, number_of(words[7])?);
                self.create(&words[1..6], Some(back), number_of(words[8])?)
            }
            ("M", 4) => {
                let frame = bytes_of(words[3])?;
                self.call("frames", Some(&frame), words)
            }
            ("T", 3) => self.call("ticks", None, words),
            ("C", 5) => self.client(&words[1..]),
            ("Q", 5) => self.request(&words[1..]),
            ("P", 3) => self.reply(number_of(words[1])?, number_of(words[2])?),
            ("I", 2) => self.idle(number_of(words[1])?),
            ("=", 4) | (":", 20) | ("+", 3) | ("@", 2) | ("$", 2) if self.is_instead() => Ok(()),
            ("=", 4) => self.compare(words),
            (":", 20) => self.state(&words[1..]),
            ("+", 3) => self.stored(&words[1..]),
            ("@", 2) => self.offset(words[1]),
            ("$", 2) => self.takings(words[1]),
            (";", 4) => self.record(&words[1..]),
            _ => Err(String::from(
                "a line that neither FORMAT.md nor host/README.md has",
            )),
        }
    }

    /// A creation, or with view and nonce a recovery with an area of this length.
    fn create(
        &mut self,
        words: &[&str],
        back: Option<(u32, u64)>,
        area: usize,
    ) -> Result<(), String> {
        self.running = Running::Nothing;
        let setup = setup_of(words)?;
        let mut memory = Memory::of(&setup);
        let before = memory.clone();
        let mut out = vec![0xa5; area.min(setup.longest_messages() + SLACK)];
        let (code, count) = match back {
            None => (raw::create(&setup, &mut memory), 0),
            Some((view, nonce)) => raw::recover(&setup, view, nonce, &mut memory, &mut out),
        };
        kept(code, &memory, &before, &out[count..])?;
        self.given("creations", code, out[..count].to_vec(), Vec::new());
        if code == 0 {
            let replica = Replica::new(setup, memory, back);
            self.running = Running::Replica(Box::new(replica));
        }
        Ok(())
    }

    /// A frame, or a tick.
    fn call(
        &mut self,
        name: &'static str,
        frame: Option<&[u8]>,
        words: &[&str],
    ) -> Result<(), String> {
        let areas = (number_of(words[1])?, number_of(words[2])?);
        if let Running::Replica(replica) = &self.running {
            if self.document_01 && replica.meets(frame, areas) {
                self.instead.0 += 1;
                self.running = Running::Instead(Box::new(replica.so_far.pair()?));
            }
        }
        match &mut self.running {
            Running::Replica(replica) => {
                let (code, offset, messages, replies) = replica.call(frame, areas)?;
                self.given(name, code, messages, replies);
                self.offset = frame.filter(|_| code == 2).map(|_| offset);
                Ok(())
            }
            Running::Instead(pair) => {
                self.instead.1 += 1;
                instead::compared(pair, frame, areas)
            }
            _ => Err(String::from("a call of no replica")),
        }
    }

    /// Whether the run's answers are compared with the amended Rust in place of the trace.
    fn is_instead(&self) -> bool {
        matches!(self.running, Running::Instead(_))
    }

    /// A client, with the view and the next number that the line says.
    fn client(&mut self, words: &[&str]) -> Result<(), String> {
        self.running = Running::Nothing;
        let mut record = vec![0; raw::CLIENT];
        let code = raw::client_create(number_of(words[0])?, number_of(words[1])?, &mut record);
        if code == 0 {
            record[9..13].copy_from_slice(&number_of::<u32>(words[2])?.to_be_bytes());
            record[13..21].copy_from_slice(&number_of::<u64>(words[3])?.to_be_bytes());
            self.running = Running::Client(record);
        }
        self.given("clients", code, Vec::new(), Vec::new());
        Ok(())
    }

    fn request(&mut self, words: &[&str]) -> Result<(), String> {
        let (operation, member) = (number_of(words[0])?, number_of(words[1])?);
        let mut area = vec![0xa5; number_of::<usize>(words[3])?.min(300)];
        let record = self.client_record()?;
        let before = record.clone();
        let cents = number_of(words[2])?;
        let (code, _, written) = raw::client_request(record, operation, member, cents, &mut area);
        if code != 0 && (*record != before || area.iter().any(|byte| *byte != 0xa5)) {
            return Err(String::from("memory changed though refused"));
        }
        area.truncate(written);
        self.given("requests", code, area, Vec::new());
        Ok(())
    }

    /// The answer's code is whether the reply answers the pending request.
    fn reply(&mut self, request: u64, view: u32) -> Result<(), String> {
        let (code, answers) = raw::client_reply(self.client_record()?, request, view);
        if code != 0 {
            return Err(format!("a reply is refused by {code}"));
        }
        *self.compared.entry("replies").or_default() += 1;
        self.answer = Some(Answer {
            code: answers.into(),
            ..Answer::default()
        });
        Ok(())
    }

    fn idle(&mut self, area: usize) -> Result<(), String> {
        let mut area = vec![0xa5; area.min(300)];
        let (code, written) = raw::client_idle(self.client_record()?, &mut area);
        if area[written..].iter().any(|byte| *byte != 0xa5) {
            return Err(String::from("bytes past the count changed"));
        }
        area.truncate(written);
        self.given("idle calls", code, area, Vec::new());
        Ok(())
    }

    fn client_record(&mut self) -> Result<&mut Vec<u8>, String> {
        match &mut self.running {
            Running::Client(record) => Ok(record),
            _ => Err(String::from("a call of no client")),
        }
    }

    fn given(&mut self, name: &'static str, code: u8, messages: Vec<u8>, replies: Vec<u8>) {
        *self.compared.entry(name).or_default() += 1;
        if code != 0 {
            *self.refused.entry(code).or_default() += 1;
        }
        self.offset = None;
        self.answer = Some(Answer {
            code,
            messages,
            replies,
        });
    }

    /// The answer's line.
    fn compare(&mut self, words: &[&str]) -> Result<(), String> {
        let Answer {
            code,
            messages,
            replies,
        } = self.answer.take().ok_or("the answer of no call")?;
        let given = format!("= {code} {} {}", hex(&messages), hex(&replies));
        let due = words.join(" ");
        if given != due {
            return Err(format!("the library gives {given}, due is {due}"));
        }
        Ok(())
    }

    /// The state line.
    fn state(&mut self, words: &[&str]) -> Result<(), String> {
        let Running::Replica(replica) = &self.running else {
            return Err(String::from("the state of no replica"));
        };
        let given = replica.line();
        let names = "status view last_normal op commit heard waiting stable attempts svc dvc_sent \
                     catching_up dvcs responses log rows totals acks applied";
        for ((name, due), given) in names.split_whitespace().zip(words).zip(given) {
            if *due != given {
                return Err(format!("{name}: the library has {given}, due is {due}"));
            }
        }
        self.states += 1;
        Ok(())
    }

    /// The line behind the state line: the nonce, and a digest of the stored reports.
    fn stored(&mut self, words: &[&str]) -> Result<(), String> {
        let Running::Replica(replica) = &self.running else {
            return Err(String::from("the stored reports of no replica"));
        };
        let digest = schedules::run::fnv(&deep::stored(&replica.memory));
        let given = [
            deep::nonce(&replica.memory).to_string(),
            format!("{digest:016x}"),
        ];
        if given != words {
            return Err(format!(
                "nonce and stored reports: the library has {given:?}, due is {words:?}"
            ));
        }
        self.stored += 1;
        Ok(())
    }

    /// The line behind a malformed frame's answer: the offset that came with it.
    fn offset(&mut self, due: &str) -> Result<(), String> {
        let offset = self
            .offset
            .take()
            .ok_or("the offset of no malformed frame")?;
        if offset.to_string() != due {
            return Err(format!("2 with offset {offset}, due is {due}"));
        }
        self.offsets += 1;
        Ok(())
    }

    /// The line with the takings.
    fn takings(&mut self, due: &str) -> Result<(), String> {
        let Running::Replica(replica) = &self.running else {
            return Err(String::from("the takings of no replica"));
        };
        for (whose, cents) in replica.takings()? {
            if cents.to_string() != due {
                return Err(format!("takings: {whose} {cents}, due is {due}"));
            }
        }
        self.takings += 1;
        Ok(())
    }

    /// The state of a client.
    fn record(&mut self, words: &[&str]) -> Result<(), String> {
        let client = whitherhaul::Client::from_record(
            (*self.client_record()?)[..].try_into().expect("a record"),
        )
        .map_err(|refusal| refusal.to_string())?;
        let pending = client.pending();
        let given = [
            client.view().to_string(),
            client.next_number().to_string(),
            pending.map_or(String::from("-"), |number| number.to_string()),
        ];
        if given != words {
            return Err(format!("the record says {given:?}, due is {words:?}"));
        }
        self.states += 1;
        Ok(())
    }

    fn told(&self, file: &str) -> String {
        let calls: usize = self.compared.values().sum();
        let words = self.compared.iter();
        let words = words.map(|(name, count)| format!("{name} {count}"));
        let words = words.collect::<Vec<_>>().join(", ");
        let refused = self.refused.iter();
        let refused = refused.map(|(number, count)| format!("{number}: {count}"));
        let refused = refused.collect::<Vec<_>>().join(", ");
        let mut told = format!(
            "{file}: {calls} answers compared ({words}), {} states, {} of them with nonce and stored reports; {} recorded offsets, {} \
            takings\nrefused by number: {refused}\n",
            self.states, self.stored, self.offsets, self.takings
        );
        if self.document_01 {
            let (runs, answers) = self.instead;
            told += &format!(
                "besides, in {runs} runs {answers} answers compared with the amended Rust in place of the trace: from the first call \
                on that meets an exception\n"
            );
        }
        told
    }
}
