//! Frames written behind what a buffer has.

use super::{kind, ENTRY};
use crate::fees::{Charge, Entry, Operation, Outcome};
use vsr_rs::{LogEntry, Message, Reply};

/// Bytes that grow at the end.
struct Bytes<'a>(&'a mut Vec<u8>);

impl Bytes<'_> {
    #[inline]
    fn one(self, number: usize) -> Self {
        self.0.push(one_byte(number));
        self
    }

    #[inline]
    fn fours<const K: usize>(self, numbers: [&usize; K]) -> Self {
        let bytes = numbers.map(|number| four_bytes(*number));
        self.0.extend_from_slice(bytes.as_flattened());
        self
    }

    #[inline]
    fn eight(self, number: u64) -> Self {
        self.0.extend_from_slice(&number.to_be_bytes());
        self
    }

    #[inline]
    fn entry(self, client: usize, request: usize, op: &impl Operation) -> Self {
        let bytes = bytes_of(client as u64, request as u64, op.charge());
        self.0.extend_from_slice(&bytes);
        self
    }

    #[inline]
    fn log<O: Operation>(self, log: &[LogEntry<O>]) -> Self {
        self.0.reserve(ENTRY * log.len());
        log.iter().fold(self, |bytes, e| {
            bytes.entry(e.client_id, e.request_number, &e.op)
        })
    }
}

#[inline]
fn one_byte(number: usize) -> u8 {
    u8::try_from(number).expect("a number of one byte")
}

#[inline]
fn four_bytes(number: usize) -> [u8; 4] {
    let number = u32::try_from(number).expect("a number of four bytes");
    number.to_be_bytes()
}

#[inline]
fn bytes_of(client: u64, request: u64, charge: Charge) -> [u8; ENTRY] {
    let mut bytes = [0; ENTRY];
    bytes[..8].copy_from_slice(&client.to_be_bytes());
    bytes[8..16].copy_from_slice(&request.to_be_bytes());
    bytes[16] = charge.operation;
    bytes[20..24].copy_from_slice(&charge.member.to_be_bytes());
    bytes[24..].copy_from_slice(&charge.cents.to_be_bytes());
    bytes
}

/// The bytes of an entry.
pub fn entry_bytes(entry: &Entry) -> [u8; ENTRY] {
    bytes_of(entry.client, entry.request, entry.charge())
}

/// Writes a frame: length, version 1, kind, addressee, fields.
#[inline]
fn framed(out: &mut Vec<u8>, kind: usize, addressee: usize, fields: impl FnOnce(Bytes)) {
    let start = out.len();
    out.extend_from_slice(&[0, 0, 0, 0, 1, one_byte(kind), one_byte(addressee)]);
    fields(Bytes(out));
    let length = four_bytes(out.len() - start - 4);
    out[start..start + 4].copy_from_slice(&length);
}

/// Writes the frame of a message.
pub fn write_frame<O: Operation>(out: &mut Vec<u8>, addressee: usize, message: &Message<O>) {
    let kind = kind(message);
    framed(out, kind, addressee, |fields| match kind {
        1..=4 => normal(fields, message),
        5..=6 => transfer(fields, message),
        7..=9 => change(fields, message),
        _ => recovery(fields, message),
    });
}

/// Writes the frame of a reply.
pub fn write_reply(out: &mut Vec<u8>, reply: &Reply<Outcome>) {
    framed(out, 12, 0, |fields| {
        fields
            .fours([&reply.view_number])
            .eight(reply.client_id as u64)
            .eight(reply.request_number as u64)
            .one(usize::from(reply.result.code))
            .eight(reply.result.total);
    });
}

/// The frame of a message.
pub fn frame<O: Operation>(addressee: usize, message: &Message<O>) -> Vec<u8> {
    let mut bytes = Vec::new();
    write_frame(&mut bytes, addressee, message);
    bytes
}

/// The frame of a reply.
pub fn reply_frame(reply: &Reply<Outcome>) -> Vec<u8> {
    let mut bytes = Vec::new();
    write_reply(&mut bytes, reply);
    bytes
}

/// The fields of Request, Prepare, PrepareOk, Commit.
fn normal<O: Operation>(out: Bytes, message: &Message<O>) {
    match message {
        Message::Request {
            client_id,
            request_number,
            op,
        } => out.entry(*client_id, *request_number, op),
        Message::Prepare {
            view_number,
            op_number,
            client_id,
            request_number,
            op,
            commit_number,
        } => out.fours([view_number, op_number, commit_number]).entry(
            *client_id,
            *request_number,
            op,
        ),
        Message::PrepareOk {
            view_number,
            op_number,
            replica_id,
        } => out.fours([view_number, op_number]).one(*replica_id),
        Message::Commit {
            view_number,
            commit_number,
        } => out.fours([view_number, commit_number]),
        _ => unreachable!("a message of another kind"),
    };
}

/// The fields of GetState, NewState.
fn transfer<O: Operation>(out: Bytes, message: &Message<O>) {
    match message {
        Message::GetState {
            replica_id,
            view_number,
            op_number,
        } => out.one(*replica_id).fours([view_number, op_number]),
        Message::NewState {
            view_number,
            log,
            op_number_start,
            op_number_end,
            commit_number,
        } => out
            .fours([view_number, op_number_start, op_number_end, commit_number])
            .log(log),
        _ => unreachable!("a message of another kind"),
    };
}

/// The fields of StartViewChange, DoViewChange, StartView.
fn change<O: Operation>(out: Bytes, message: &Message<O>) {
    match message {
        Message::StartViewChange {
            view_number,
            replica_id,
        } => out.fours([view_number]).one(*replica_id),
        Message::DoViewChange {
            view_number,
            replica_id,
            last_normal_view,
            log,
            op_number,
            commit_number,
        } => out
            .fours([view_number])
            .one(*replica_id)
            .fours([last_normal_view, op_number, commit_number])
            .log(log),
        Message::StartView {
            view_number,
            log,
            op_number,
            commit_number,
        } => out.fours([view_number, op_number, commit_number]).log(log),
        _ => unreachable!("a message of another kind"),
    };
}

/// The fields of Recovery, RecoveryResponse.
fn recovery<O: Operation>(out: Bytes, message: &Message<O>) {
    match message {
        Message::Recovery {
            replica_id,
            nonce,
            view_number,
        } => out.one(*replica_id).eight(*nonce).fours([view_number]),
        Message::RecoveryResponse {
            view_number,
            nonce,
            replica_id,
            state,
        } => {
            let front = out.fours([view_number]).eight(*nonce).one(*replica_id);
            match state {
                None => front.one(0),
                Some(state) => front
                    .one(1)
                    .fours([&state.log.len(), &state.commit_number])
                    .log(&state.log),
            }
        }
        _ => unreachable!("a message of another kind"),
    };
}
