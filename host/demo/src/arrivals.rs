//! Damaged copies of frames: made beside the good ones, and what comes of them where they arrive.

use crate::damage::{self, Damage, Taken};
use crate::day::{Day, Parcel};
use crate::library::{Library, Standing};
use crate::stops;
use crate::tally::Did;

impl<L: Library> Day<'_, L> {
    /// Now and then a damaged copy of a message.
    pub fn copy_of(&mut self, parcel: &Parcel<L::Message>) -> Option<Parcel<L::Message>> {
        let Parcel::Message(to, message) = parcel else {
            return None;
        };
        if !self.ill_luck.chance(self.options.damage as usize) {
            return None;
        }
        let frame = L::frame(*to, message);
        let (damage, bytes) = damage::damaged(&mut self.ill_luck, &frame);
        let name = damage::name_of(&frame);
        Some(Parcel::Damaged(*to, damage, name, bytes))
    }

    /// A damaged frame arrives.
    pub fn arrives(&mut self, id: u8, damage: Damage, name: &str, frame: &[u8]) {
        let Some(replica) = self.running(id) else {
            return;
        };
        let before = L::standing(replica);
        let taken = stops::caught(|| L::on_frame(replica, frame));
        let after = L::standing(replica);
        let did = did(&taken, before, after);
        if self.tally.add(damage, did) {
            let came = told(&taken, did);
            let words = damage.words();
            let line = format!("replica {id} gets a damaged {name} with {words}{came}");
            self.teller.damage(&self.counts, &line);
        }
        match taken {
            Ok(Taken::Done(answer)) => self.give(id, before, answer),
            Ok(Taken::Refused { why, unchanged }) if unchanged => self.tally.refused(why),
            Ok(_) => {}
            Err(why) => self.stop(id, Some(damage), &why),
        }
    }
}

fn did<M>(taken: &Result<Taken<M>, String>, before: Standing, after: Standing) -> Did {
    match taken {
        Err(_) => Did::Stopped,
        Ok(Taken::Dropped) => Did::Dropped,
        Ok(Taken::Refused { why, unchanged }) => match unchanged {
            true => Did::Refused(why.number()),
            false => Did::Altered(why.number()),
        },
        Ok(Taken::Done(answer)) => {
            let silent = answer.messages.is_empty() && answer.replies.is_empty();
            match silent && before == after {
                true => Did::Passed,
                false => Did::Acted,
            }
        }
    }
}

/// What came of a damaged frame, in words behind it.
fn told<M>(taken: &Result<Taken<M>, String>, did: Did) -> String {
    match (taken, did) {
        (Err(why), _) => format!(" and stops: {why}"),
        (Ok(Taken::Refused { why, .. }), _) => format!(", {why}"),
        (Ok(Taken::Dropped), _) => String::from(", which the reader drops"),
        (Ok(Taken::Done(_)), Did::Passed) => String::from(" and shows no effect"),
        (Ok(Taken::Done(_)), _) => String::from(" and acts on it"),
    }
}
