//! Document 01's frames, read: a frame is malformed (refusal 2) exactly where this gives none. Written from the document's table
//! alone, with no look at the library's parser. A Reply, which a desk reads, has a reader of its own.

use schedules::rust::Call;
use vsr_rs::{LogEntry, Message, RecoveryState};
use wire::fees::{Entry, ASK, FEE, MOST_CENTS, REFUND};
use wire::frames::Fees;

/// How long an entry is.
pub const ENTRY: usize = 32;

/// What is left of a frame: bytes, and behind them so many entries that aren't written out and keep the entry rules.
struct Rest<'a> {
    bytes: &'a [u8],
    more: usize,
}

impl<'a> Rest<'a> {
    /// How many bytes that is.
    fn length(&self) -> usize {
        self.bytes.len() + ENTRY * self.more
    }

    fn bytes<const K: usize>(&mut self) -> Option<&'a [u8; K]> {
        let (front, rest) = self.bytes.split_first_chunk()?;
        self.bytes = rest;
        Some(front)
    }

    fn one(&mut self) -> Option<usize> {
        self.bytes::<1>().map(|b| b[0] as usize)
    }

    fn four(&mut self) -> Option<usize> {
        self.bytes().map(|b| u32::from_be_bytes(*b) as usize)
    }

    fn eight(&mut self) -> Option<u64> {
        self.bytes().map(|b| u64::from_be_bytes(*b))
    }

    /// An entry that keeps the entry rules.
    fn entry(&mut self) -> Option<Entry> {
        let client = self.eight()?;
        let request = self.eight()?;
        let operation = self.bytes::<4>()?;
        let member = self.four()? as u32;
        let cents = self.eight()?;
        let kept = match operation {
            [FEE | REFUND, 0, 0, 0] => (1..=MOST_CENTS).contains(&cents),
            [ASK, 0, 0, 0] => cents == 0,
            _ => false,
        };
        kept.then_some(Entry {
            client,
            request,
            operation: operation[0],
            member,
            cents,
        })
    }

    /// All that is left, as just so many entries; those that are written out.
    fn log(&mut self, entries: usize) -> Option<Vec<LogEntry<Entry>>> {
        if self.length() != ENTRY * entries {
            return None;
        }
        let written = entries - std::mem::take(&mut self.more);
        (0..written).map(|_| self.entry().map(logged)).collect()
    }
}

/// An entry as the Rust's log holds it.
fn logged(op: Entry) -> LogEntry<Entry> {
    LogEntry {
        client_id: op.client as usize,
        request_number: op.request as usize,
        op,
    }
}

/// The call that a frame is, if it is well formed.
pub fn parse(frame: &[u8]) -> Option<Call> {
    read(Rest {
        bytes: frame,
        more: 0,
    })
}

/// Whether these bytes with so many entries behind them are a well-formed frame. The entries aren't written out: a length may call
/// for 134,217,727 of them.
pub fn is_frame(bytes: &[u8], more: usize) -> bool {
    read(Rest { bytes, more }).is_some()
}

fn read(mut rest: Rest) -> Option<Call> {
    let length = rest.four()?;
    if length != rest.length() || rest.one()? != 1 {
        return None;
    }
    let kind = rest.one()?;
    let addressee = rest.one()?;
    let message = match kind {
        1..=4 => normal(kind, &mut rest)?,
        5..=6 => transfer(kind, &mut rest)?,
        7..=9 => change(kind, &mut rest)?,
        10..=11 => recovery(kind, &mut rest)?,
        _ => return None,
    };
    (rest.length() == 0).then_some(Call::Frame { addressee, message })
}

/// What a Reply says, if it is well formed: view, client, request, outcome, total.
pub fn reply(frame: &[u8]) -> Option<[u64; 5]> {
    let mut rest = Rest {
        bytes: frame,
        more: 0,
    };
    if rest.bytes()? != &[0, 0, 0, 32, 1, 12, 0] {
        return None;
    }
    let view = rest.four()? as u64;
    let (client, request) = (rest.eight()?, rest.eight()?);
    let outcome = rest.one()? as u64;
    let total = rest.eight()?;
    let well = (1..=6).contains(&outcome) && rest.length() == 0;
    well.then_some([view, client, request, outcome, total])
}

/// Request, Prepare, PrepareOk, Commit.
fn normal(kind: usize, rest: &mut Rest) -> Option<Fees> {
    Some(match kind {
        1 => {
            let op = rest.entry()?;
            Message::Request {
                client_id: op.client as usize,
                request_number: op.request as usize,
                op,
            }
        }
        2 => {
            let (view_number, op_number) = (rest.four()?, rest.four()?);
            let commit_number = rest.four()?;
            let op = rest.entry()?;
            Message::Prepare {
                view_number,
                op_number,
                client_id: op.client as usize,
                request_number: op.request as usize,
                op,
                commit_number,
            }
        }
        3 => Message::PrepareOk {
            view_number: rest.four()?,
            op_number: rest.four()?,
            replica_id: rest.one()?,
        },
        _ => Message::Commit {
            view_number: rest.four()?,
            commit_number: rest.four()?,
        },
    })
}

/// GetState, NewState.
fn transfer(kind: usize, rest: &mut Rest) -> Option<Fees> {
    if kind == 5 {
        return Some(Message::GetState {
            replica_id: rest.one()?,
            view_number: rest.four()?,
            op_number: rest.four()?,
        });
    }
    let view_number = rest.four()?;
    let (op_number_start, op_number_end) = (rest.four()?, rest.four()?);
    let commit_number = rest.four()?;
    Some(Message::NewState {
        view_number,
        log: rest.log(op_number_end.checked_sub(op_number_start)?)?,
        op_number_start,
        op_number_end,
        commit_number,
    })
}

/// StartViewChange, DoViewChange, StartView.
fn change(kind: usize, rest: &mut Rest) -> Option<Fees> {
    let view_number = rest.four()?;
    if kind == 9 {
        let (op_number, commit_number) = (rest.four()?, rest.four()?);
        return Some(Message::StartView {
            view_number,
            log: rest.log(op_number)?,
            op_number,
            commit_number,
        });
    }
    let replica_id = rest.one()?;
    if kind == 7 {
        return Some(Message::StartViewChange {
            view_number,
            replica_id,
        });
    }
    let last_normal_view = rest.four()?;
    let (op_number, commit_number) = (rest.four()?, rest.four()?);
    Some(Message::DoViewChange {
        view_number,
        replica_id,
        last_normal_view,
        log: rest.log(op_number)?,
        op_number,
        commit_number,
    })
}

/// Recovery, RecoveryResponse.
fn recovery(kind: usize, rest: &mut Rest) -> Option<Fees> {
    if kind == 10 {
        return Some(Message::Recovery {
            replica_id: rest.one()?,
            nonce: rest.eight()?,
            view_number: rest.four()?,
        });
    }
    let view_number = rest.four()?;
    let nonce = rest.eight()?;
    let replica_id = rest.one()?;
    let state = match rest.one()? {
        0 => None,
        1 => {
            let (op_number, commit_number) = (rest.four()?, rest.four()?);
            let log = rest.log(op_number)?;
            Some(RecoveryState { log, commit_number })
        }
        _ => return None,
    };
    Some(Message::RecoveryResponse {
        view_number,
        nonce,
        replica_id,
        state,
    })
}

#[cfg(test)]
mod tests {
    use super::*;
    use schedules::adversary::Adversary;
    use schedules::rust::{Rust, Setup, Start};
    use wire::frames::frame;
    use wire::random::Random;

    #[test]
    fn reads_what_is_written() {
        let setup = Setup {
            n: 3,
            id: 1,
            timeout: 3,
            room: 8,
            members: 4,
        };
        let mut random = Random::new(1);
        let mut rust = Rust::new(setup, Start::New).0;
        for _ in 0..2000 {
            let call = Adversary {
                random: &mut random,
                rust: &rust,
                clients: &[0, 7, u64::MAX],
            }
            .call();
            if let Call::Frame { addressee, message } = &call {
                let bytes = frame(*addressee, message);
                let Some(Call::Frame {
                    addressee: to,
                    message: read,
                }) = parse(&bytes)
                else {
                    panic!("malformed: {message:?}");
                };
                assert_eq!(to, *addressee);
                assert_eq!(format!("{read:?}"), format!("{message:?}"));
                assert!(parse(&bytes[..bytes.len() - 1]).is_none());
            }
            rust.attempt(&call);
        }
    }
}
