//! Whitherhaul: messages are frames.

use crate::clubs::Charge;
use crate::damage::Taken;
use crate::library::{Answer, Library, Standing};
use whitherhaul::{Client, Entry, Refusal, Replica, Reply, Sent, Setup};

pub struct Whitherhaul;

/// A frame of its own, with its addressee.
fn letter((to, frame): (u8, &[u8])) -> (u8, Vec<u8>) {
    (to, frame.to_vec())
}

fn answer(sent: Result<Sent<'_>, Refusal>) -> Answer<Vec<u8>> {
    match sent {
        Ok(sent) => Answer {
            messages: sent.messages().map(letter).collect(),
            replies: sent.replies().collect(),
            refused: None,
        },
        Err(refusal) => Answer {
            messages: Vec::new(),
            replies: Vec::new(),
            refused: Some(refusal.to_string()),
        },
    }
}

impl Library for Whitherhaul {
    const NAME: &'static str = "Whitherhaul";
    type Message = Vec<u8>;
    type Replica = Replica;
    type Desk = Client;

    fn replica(setup: &Setup) -> Replica {
        Replica::new(setup).expect("a setup inside the sizes")
    }

    fn recovered(setup: &Setup, view: u32, nonce: u64) -> (Replica, Vec<(u8, Vec<u8>)>) {
        let replica = Replica::recover(setup, view, nonce).expect("a setup inside the sizes");
        let letters = replica.sent().messages().map(letter).collect();
        (replica, letters)
    }

    fn on_message(replica: &mut Replica, message: &Vec<u8>) -> Answer<Vec<u8>> {
        answer(replica.on_message(message))
    }

    fn on_idle(replica: &mut Replica) -> Answer<Vec<u8>> {
        answer(replica.on_idle())
    }

    fn frame(_: u8, message: &Vec<u8>) -> Vec<u8> {
        message.clone()
    }

    fn on_frame(replica: &mut Replica, frame: &[u8]) -> Taken<Vec<u8>> {
        let before = replica.parts().clone();
        let why = match replica.on_message(frame) {
            Ok(sent) => return Taken::Done(answer(Ok(sent))),
            Err(why) => why,
        };
        let unchanged = *replica.parts() == before;
        Taken::Refused { why, unchanged }
    }

    fn standing(replica: &Replica) -> Standing {
        Standing {
            status: replica.status(),
            view: replica.view(),
            leads: replica.is_primary(),
            op_number: u64::from(replica.op_number()),
            commit_number: u64::from(replica.commit_number()),
        }
    }

    fn applied(replica: &Replica) -> Vec<Entry> {
        let committed = replica.commit_number() as usize;
        replica.log().take(committed).collect()
    }

    fn total(replica: &Replica, member: u32) -> u64 {
        replica.total(member)
    }

    fn takings(replica: &Replica) -> Result<u64, Refusal> {
        replica.takings()
    }

    fn journal_since(replica: &Replica, op: u32) -> Vec<u8> {
        let frames = replica.journal_since(op);
        frames.expect("an op that isn't above the commit number")
    }

    fn desk(replicas: u32, id: u64) -> Client {
        Client::new(replicas, id).expect("a number of replicas inside the sizes")
    }

    fn request(desk: &mut Client, charge: &Charge) -> (u64, (u8, Vec<u8>)) {
        let asked = desk
            .on_request(charge.operation, charge.member, charge.cents)
            .expect("a charge inside the entry rules");
        (asked.number, letter((asked.to, asked.frame)))
    }

    fn on_reply(desk: &mut Client, reply: &Reply) -> bool {
        desk.on_reply(reply.request, reply.view)
            .expect("a record that its own calls wrote")
    }

    fn again(desk: &mut Client) -> Vec<(u8, Vec<u8>)> {
        let frames = desk.on_idle().expect("a record that its own calls wrote");
        frames.map(letter).collect()
    }
}
