//! vsr-rs, unchanged, with document 01's fee rules: messages are structs.

use crate::clubs::Charge;
use crate::damage::Taken;
use crate::library::{Answer, Library, Standing};
use vsr_rs::{Client, Config, Replica};
use whitherhaul::{Entry, Operation, Outcome, Refusal, Reply, Setup, Status};
use wire::fees::{self, Ledger};
use wire::frames::{self, Fees};

pub struct VsrRs;

/// A desk: the client, and the number that its next charge gets, which is part of the entry.
pub struct Desk {
    client: Client<fees::Entry>,
    next: u64,
}

type Letters = Vec<(u8, Fees)>;

fn config(replicas: u32, timeout: u32) -> Config {
    let mut config = wire::config(replicas as usize);
    config.set_primary_timeout(timeout as usize);
    config
}

fn letters(drained: impl Iterator<Item = (usize, Fees)>) -> Letters {
    drained.map(|(to, message)| (to as u8, message)).collect()
}

fn reply(reply: vsr_rs::Reply<fees::Outcome>) -> Reply {
    Reply {
        view: reply.view_number as u32,
        client: reply.client_id as u64,
        request: reply.request_number as u64,
        outcome: Outcome::from_number(reply.result.code).expect("an outcome of the fee rules"),
        total: reply.result.total,
    }
}

fn answer(replica: &mut Replica<Ledger>) -> Answer<Fees> {
    Answer {
        messages: letters(replica.drain_messages()),
        replies: replica.drain_replies().map(reply).collect(),
        refused: None,
    }
}

impl Library for VsrRs {
    const NAME: &'static str = "vsr-rs";
    type Message = Fees;
    type Replica = Replica<Ledger>;
    type Desk = Desk;

    fn replica(setup: &Setup) -> Replica<Ledger> {
        let config = config(setup.replicas, setup.timeout);
        let ledger = Ledger::new(setup.members as usize);
        Replica::new(setup.id as usize, config, ledger)
    }

    fn recovered(setup: &Setup, view: u32, nonce: u64) -> (Replica<Ledger>, Letters) {
        let config = config(setup.replicas, setup.timeout);
        let ledger = Ledger::new(setup.members as usize);
        let mut replica = Replica::recover(setup.id as usize, config, ledger, view as usize, nonce);
        let asked = letters(replica.drain_messages());
        (replica, asked)
    }

    fn on_message(replica: &mut Replica<Ledger>, message: &Fees) -> Answer<Fees> {
        replica.on_message(message.clone());
        answer(replica)
    }

    fn on_idle(replica: &mut Replica<Ledger>) -> Answer<Fees> {
        replica.on_idle();
        answer(replica)
    }

    fn frame(to: u8, message: &Fees) -> Vec<u8> {
        frames::frame(to.into(), message)
    }

    /// vsr-rs knows no frames, so its owner has a reader; what that can read is the library's to judge.
    fn on_frame(replica: &mut Replica<Ledger>, frame: &[u8]) -> Taken<Fees> {
        match frames::read(frame) {
            Some(message) => Taken::Done(Self::on_message(replica, &message)),
            None => Taken::Dropped,
        }
    }

    fn standing(replica: &Replica<Ledger>) -> Standing {
        Standing {
            status: match replica.status() {
                vsr_rs::Status::Normal => Status::Normal,
                vsr_rs::Status::StateTransfer => Status::StateTransfer,
                vsr_rs::Status::ViewChange => Status::ViewChange,
                vsr_rs::Status::Recovering => Status::Recovering,
            },
            view: replica.view_number() as u32,
            leads: replica.is_primary(),
            op_number: replica.op_number() as u64,
            commit_number: replica.commit_number() as u64,
        }
    }

    fn applied(replica: &Replica<Ledger>) -> Vec<Entry> {
        let applied = &replica.state_machine().applied;
        applied.iter().map(entry).collect()
    }

    fn total(replica: &Replica<Ledger>, member: u32) -> u64 {
        replica.state_machine().totals[member as usize]
    }

    /// vsr-rs keeps no sum, so its owner adds up.
    fn takings(replica: &Replica<Ledger>) -> Result<u64, Refusal> {
        Ok(replica.state_machine().totals.iter().sum())
    }

    fn desk(replicas: u32, id: u64) -> Desk {
        Desk {
            client: Client::new(id as usize, config(replicas, 1)),
            next: 0,
        }
    }

    fn request(desk: &mut Desk, charge: &Charge) -> (u64, (u8, Fees)) {
        let number = desk.client.on_request(fees::Entry {
            client: desk.client.client_id() as u64,
            request: desk.next,
            operation: charge.operation as u8,
            member: charge.member,
            cents: charge.cents,
        }) as u64;
        desk.next = number + 1;
        let mut sent = letters(desk.client.drain());
        (number, sent.remove(0))
    }

    fn on_reply(desk: &mut Desk, reply: &Reply) -> bool {
        desk.client
            .on_reply(reply.request as usize, reply.view as usize)
    }

    fn again(desk: &mut Desk) -> Letters {
        desk.client.on_idle();
        letters(desk.client.drain())
    }
}

fn entry(op: &fees::Entry) -> Entry {
    Entry {
        client: op.client,
        request: op.request,
        operation: match op.operation {
            fees::FEE => Operation::Fee,
            fees::REFUND => Operation::Refund,
            _ => Operation::Ask,
        },
        member: op.member,
        cents: op.cents,
    }
}
