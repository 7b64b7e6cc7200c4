//! Frames read, with the checks that an owner can't leave out: lengths, version, kind, entry rules.

use super::ENTRY;
use crate::fees::{Charge, Operation, ASK, FEE, MOST_CENTS, REFUND};
use vsr_rs::{LogEntry, Message, RecoveryState};

/// Bytes that are read from the front.
struct Fields<'a>(&'a [u8]);

impl Fields<'_> {
    #[inline]
    fn take<const K: usize>(&mut self) -> Option<[u8; K]> {
        let (front, rest) = self.0.split_first_chunk()?;
        self.0 = rest;
        Some(*front)
    }

    #[inline]
    fn one(&mut self) -> Option<usize> {
        self.take().map(|[byte]| usize::from(byte))
    }

    #[inline]
    fn four(&mut self) -> Option<usize> {
        self.take().map(|bytes| u32::from_be_bytes(bytes) as usize)
    }

    #[inline]
    fn eight(&mut self) -> Option<u64> {
        self.take().map(u64::from_be_bytes)
    }

    #[inline]
    fn entry<O: Operation>(&mut self) -> Option<LogEntry<O>> {
        let bytes: [u8; ENTRY] = self.take()?;
        let eight = |at: usize| bytes[at..].first_chunk().map(|b| u64::from_be_bytes(*b));
        let (client, request) = (eight(0)?, eight(8)?);
        let charge = Charge {
            operation: bytes[16],
            member: u32::from_be_bytes([bytes[20], bytes[21], bytes[22], bytes[23]]),
            cents: eight(24)?,
        };
        let most = match charge.operation {
            FEE | REFUND => MOST_CENTS,
            ASK => 0,
            _ => return None,
        };
        let least = u64::from(charge.operation != ASK);
        let kept = (least..=most).contains(&charge.cents) && bytes[17..20] == [0; 3];
        kept.then_some(LogEntry {
            client_id: client as usize,
            request_number: request as usize,
            op: O::new(client, request, charge),
        })
    }

    #[inline]
    fn log<O: Operation>(&mut self, count: usize) -> Option<Vec<LogEntry<O>>> {
        if self.0.len() != ENTRY * count {
            return None;
        }
        let mut log = Vec::with_capacity(count);
        for _ in 0..count {
            log.push(self.entry()?);
        }
        Some(log)
    }
}

/// Reads a frame; none where it is malformed.
pub fn read<O: Operation>(frame: &[u8]) -> Option<Message<O>> {
    let mut fields = Fields(frame);
    let length = fields.four()?;
    if length != fields.0.len() || fields.one()? != 1 {
        return None;
    }
    let kind = fields.one()?;
    fields.one()?;
    let message = match kind {
        1..=4 => normal(kind, &mut fields),
        5..=6 => transfer(kind, &mut fields),
        7..=9 => change(kind, &mut fields),
        10..=11 => recovery(kind, &mut fields),
        _ => None,
    }?;
    fields.0.is_empty().then_some(message)
}

/// Request, Prepare, PrepareOk, Commit.
#[inline]
fn normal<O: Operation>(kind: usize, fields: &mut Fields) -> Option<Message<O>> {
    Some(match kind {
        1 => super::request(fields.entry()?),
        2 => {
            let (view, op, commit) = (fields.four()?, fields.four()?, fields.four()?);
            super::prepare(view, op, commit, fields.entry()?)
        }
        3 => Message::PrepareOk {
            view_number: fields.four()?,
            op_number: fields.four()?,
            replica_id: fields.one()?,
        },
        _ => Message::Commit {
            view_number: fields.four()?,
            commit_number: fields.four()?,
        },
    })
}

/// GetState, NewState.
#[inline]
fn transfer<O: Operation>(kind: usize, fields: &mut Fields) -> Option<Message<O>> {
    if kind == 5 {
        return Some(Message::GetState {
            replica_id: fields.one()?,
            view_number: fields.four()?,
            op_number: fields.four()?,
        });
    }
    let view_number = fields.four()?;
    let (start, end) = (fields.four()?, fields.four()?);
    Some(Message::NewState {
        view_number,
        op_number_start: start,
        op_number_end: end,
        commit_number: fields.four()?,
        log: fields.log(end.checked_sub(start)?)?,
    })
}

/// StartViewChange, DoViewChange, StartView.
#[inline]
fn change<O: Operation>(kind: usize, fields: &mut Fields) -> Option<Message<O>> {
    let view_number = fields.four()?;
    if kind == 9 {
        let op_number = fields.four()?;
        return Some(Message::StartView {
            view_number,
            op_number,
            commit_number: fields.four()?,
            log: fields.log(op_number)?,
        });
    }
    let replica_id = fields.one()?;
    if kind == 7 {
        return Some(Message::StartViewChange {
            view_number,
            replica_id,
        });
    }
    let (last_normal_view, op_number) = (fields.four()?, fields.four()?);
    Some(Message::DoViewChange {
        view_number,
        replica_id,
        last_normal_view,
        op_number,
        commit_number: fields.four()?,
        log: fields.log(op_number)?,
    })
}

/// Recovery, RecoveryResponse.
#[inline]
fn recovery<O: Operation>(kind: usize, fields: &mut Fields) -> Option<Message<O>> {
    if kind == 10 {
        return Some(Message::Recovery {
            replica_id: fields.one()?,
            nonce: fields.eight()?,
            view_number: fields.four()?,
        });
    }
    let view_number = fields.four()?;
    let nonce = fields.eight()?;
    let replica_id = fields.one()?;
    let state = match fields.one()? {
        0 => None,
        1 => {
            let (count, commit_number) = (fields.four()?, fields.four()?);
            let log = fields.log(count)?;
            Some(RecoveryState { log, commit_number })
        }
        _ => return None,
    };
    Some(Message::RecoveryResponse {
        view_number,
        nonce,
        replica_id,
        state,
    })
}
