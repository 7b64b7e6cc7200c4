//! Every damage of every kind of frame, given to a replica of three with room for eight entries.

use super::*;
use whitherhaul::{Replica, Setup};

/// The replica that every frame is for.
const TO: u8 = 1;

fn replica() -> Replica {
    let setup = Setup {
        replicas: 3,
        id: TO.into(),
        timeout: 3,
        room: 8,
        members: 8,
    };
    Replica::new(&setup).expect("a setup inside the sizes")
}

/// So many fees of one desk, one behind another.
fn log(count: u8) -> Vec<u8> {
    let fee = |request: u8| {
        let mut entry = [0; ENTRY];
        (entry[7], entry[15], entry[OPERATION], entry[31]) = (7, request, 1, 45);
        entry
    };
    (0..count).flat_map(fee).collect()
}

fn frame(kind: u8, fields: &[&[u8]]) -> Vec<u8> {
    let fields = fields.concat();
    let length = (fields.len() + 3) as u32;
    let head = [&length.to_be_bytes()[..], &[1, kind, TO]].concat();
    [head, fields].concat()
}

const fn four(number: u32) -> [u8; 4] {
    number.to_be_bytes()
}

/// A good frame of each kind, and of those with a log or without one both; with what can be damaged in it.
fn good() -> Vec<(Vec<u8>, Vec<Damage>)> {
    use Damage::{Commit, Op, Operation, Sender, Twice};
    let [v, o, c] = [&four(1)[..], &four(3)[..], &four(2)[..]];
    let [r, x, last] = [&[2][..], &[9; 8][..], &four(0)[..]];
    let [one, three] = [&log(1)[..], &log(3)[..]];
    let frames = [
        (frame(1, &[one]), vec![Operation]),
        (frame(2, &[v, o, c, one]), vec![Operation, Op]),
        (frame(3, &[v, o, r]), vec![Sender, Op]),
        (frame(4, &[v, c]), vec![]),
        (frame(5, &[r, v, o]), vec![Sender, Op]),
        (frame(6, &[v, last, o, c, three]), vec![Operation, Commit]),
        (frame(6, &[v, o, o, c]), vec![Commit]),
        (frame(7, &[v, r]), vec![Sender]),
        (
            frame(8, &[v, r, last, o, c, three]),
            vec![Operation, Sender, Commit, Twice],
        ),
        (frame(8, &[v, r, last, last, last]), vec![Sender, Commit]),
        (frame(9, &[v, o, c, three]), vec![Operation, Commit, Twice]),
        (frame(9, &[v, v, v, one]), vec![Operation, Commit]),
        (frame(10, &[r, x, v]), vec![Sender]),
        (frame(11, &[v, x, r, &[0]]), vec![Sender]),
        (
            frame(11, &[v, x, r, &[1], o, c, three]),
            vec![Operation, Sender, Commit, Twice],
        ),
    ];
    let always = [Damage::Version, Damage::Short];
    frames
        .into_iter()
        .map(|(frame, own)| (frame, [&always[..], &own].concat()))
        .collect()
}

#[test]
fn a_good_frame_is_not_refused() {
    for (frame, _) in good() {
        assert!(replica().on_message(&frame).is_ok(), "{}", name_of(&frame));
    }
}

/// Where a malformed frame names the byte, it is the one that was damaged, or the end of what is left.
#[test]
fn every_damage_is_refused_by_its_number() {
    for (frame, able) in good() {
        for damage in Damage::ALL {
            let name = name_of(&frame);
            let bytes = damage.done_to(&mut Random::new(1), &frame);
            assert_eq!(bytes.is_some(), able.contains(&damage), "{damage:?} {name}");
            let Some(bytes) = bytes else { continue };
            let mut replica = replica();
            let before = replica.parts().clone();
            let why = replica.on_message(&bytes).expect_err("a refusal");
            assert_eq!(why.number(), damage.refusal(), "{damage:?} of a {name}");
            if why.number() == 2 {
                let length = bytes.len();
                let other = frame.iter().zip(&bytes).position(|(good, bad)| good != bad);
                let offset = other.unwrap_or(length);
                assert_eq!(why, Refusal::Malformed { offset, length }, "{name}");
            }
            assert_eq!(*replica.parts(), before, "{damage:?} of a {name}");
        }
    }
}

#[test]
fn a_frame_meets_every_damage_that_it_can_have() {
    for (frame, able) in good() {
        let mut random = Random::new(7);
        let met: BTreeSet<Damage> = (0..200).map(|_| damaged(&mut random, &frame).0).collect();
        assert_eq!(met, BTreeSet::from_iter(able), "{}", name_of(&frame));
    }
}

/// What vsr-rs does with the same bytes: the reason for showing them.
#[cfg(feature = "vsr-rs")]
mod beside {
    use super::*;
    use crate::library::Library;
    use crate::stops;
    use crate::theirs::VsrRs;

    fn taken(kind: u8, damage: Damage) -> Result<Taken<wire::frames::Fees>, String> {
        stops::silence();
        let good = good();
        let (frame, _) = good
            .iter()
            .find(|(frame, able)| frame[KIND] == kind && able.contains(&damage))
            .expect("a frame that can be damaged so");
        let bytes = damage.done_to(&mut Random::new(1), frame).expect("so");
        let mut theirs = VsrRs::replica(replica().setup());
        stops::caught(|| VsrRs::on_frame(&mut theirs, &bytes))
    }

    #[test]
    fn a_commit_number_past_its_log_stops_it() {
        let why = taken(9, Damage::Commit).err().expect("a panic");
        assert_eq!(why, "index out of bounds: the len is 3 but the index is 3");
    }

    #[test]
    fn it_takes_a_charge_twice() {
        let taken = taken(9, Damage::Twice).expect("no panic");
        assert!(matches!(taken, Taken::Done(answer) if answer.messages.len() == 1));
    }

    #[test]
    fn the_reader_drops_what_is_malformed() {
        for damage in [Damage::Version, Damage::Short, Damage::Operation] {
            let taken = taken(9, damage).expect("no panic");
            assert!(matches!(taken, Taken::Dropped), "{damage:?}");
        }
    }
}
