//! Creations: setups inside and outside the sizes, also with numbers whose low bytes alone would be inside, runs of right and wrong
//! lengths, areas for the Recovery frames around what they need; and creations of clients. Judged by document 01 alone: the Rust
//! has no sizes.

use crate::counts::Counts;
use crate::play::{Fault, Found};
use crate::takings;
use crate::wrongs::{make_wrong, runs, Wrong, RUNS};
use whitherhaul::raw::{self, Memory};
use whitherhaul::Setup;
use wire::random::Random;

/// Numbers outside the sizes, most of which would be inside if they were cut to one byte or to two.
const WIDE: [u32; 8] = [
    1 << 16,
    (1 << 16) + 3,
    (1 << 16) + 4,
    (1 << 24) + 5,
    (1 << 31) + (1 << 16) + 6,
    u32::MAX - 0xffff,
    u32::MAX - 0xfffb,
    u32::MAX,
];

/// Plays some.
pub fn play(random: &mut Random, counts: &mut Counts) -> Result<(), Fault> {
    let number = client(random).map_err(|text| Fault {
        text,
        found: Found::Creation,
    })?;
    counts.creations += 1;
    counts.numbers[1] += u64::from(number);
    for _ in 0..20 {
        let asked = Asked::any(random);
        let number = asked.tried().map_err(|text| Fault {
            text: format!("{text}: {asked:?}"),
            found: Found::Creation,
        })?;
        counts.creations += 1;
        if number != 0 {
            counts.numbers[number] += 1;
        }
    }
    Ok(())
}

/// Tries the creation of a client; the number.
fn client(random: &mut Random) -> Result<u8, String> {
    let n = match random.below(3) {
        0 => random.pick(&WIDE),
        1 => random.pick(&[0, 1, 2, 8, 255, 256, 259]),
        _ => random.pick(&[3, 4, 5, 6, 7]),
    };
    let id = random.number();
    let longer = random.pick(&[-54, -1, 0, 0, 0, 1]);
    let mut record = vec![0x5a; (raw::CLIENT as i32 + longer) as usize];
    let mut due = record.clone();
    let number = u8::from(!(3..=7).contains(&n) || longer != 0);
    if number == 0 {
        due.fill(0);
        due[0] = n as u8;
        due[1..9].copy_from_slice(&id.to_be_bytes());
    }
    let given = raw::client_create(n, id, &mut record);
    if given != number || record != due {
        return Err(format!(
            "a client of {n} replicas, {longer} bytes longer, gives {given} and {record:?}"
        ));
    }
    Ok(number)
}

/// A setup, in some of its numbers outside the sizes or not.
fn any_setup(random: &mut Random) -> Setup {
    let wide = |random: &mut Random, number| match random.below(16) {
        0 => random.pick(&WIDE),
        _ => number,
    };
    let replicas = random.pick(&[3, 3, 4, 5, 6, 7, 7, 0, 1, 2, 8, 255, 256, 259]);
    let replicas = wide(random, replicas);
    let many = [1, 1, 2, 2, 8, 8, 8, 8, 0, 4097, (1 << 16) + 8, u32::MAX];
    let mut room = random.pick(&many);
    let mut members = random.pick(&many);
    if random.chance(3) {
        (room, members) = (4096, 4096);
    }
    let id = match random.below(10) {
        0 => replicas,
        1 => random.number() as u8 as u32,
        2 => 256 + random.below(7) as u32,
        _ => random.below(replicas.clamp(1, 7) as usize) as u32,
    };
    let timeout = random.pick(&[1, 2, 3, 3, 3, 3, 0, 256, 65_535, 65_536]);
    Setup {
        replicas,
        id: wide(random, id),
        timeout: wide(random, timeout),
        room,
        members,
    }
}

/// A creation; with view and nonce, and how many bytes the area is longer than what is needed, if it is a recovery.
#[derive(Debug)]
struct Asked {
    setup: Setup,
    back: Option<(u32, u64, i64)>,
    wrong: Option<Wrong>,
}

impl Asked {
    fn any(random: &mut Random) -> Asked {
        Asked {
            setup: any_setup(random),
            back: random.chance(50).then(|| {
                let view = random.pick(&[0, 1, 7, u32::MAX]);
                (view, random.number(), random.pick(&[-1000, -1, 0, 0, 1]))
            }),
            wrong: random.chance(30).then(|| {
                let run = random.below(RUNS) as u8;
                match random.below(3) {
                    0 => Wrong::Longer(run),
                    1 => Wrong::Shorter(run),
                    _ => Wrong::Empty(run),
                }
            }),
        }
    }

    /// Refusal 1 on the setup and the lengths.
    fn is_inside(&self) -> bool {
        let Setup {
            replicas,
            id,
            timeout,
            room,
            members,
        } = self.setup;
        (3..=7).contains(&replicas)
            && id < replicas
            && (1..=65_535).contains(&timeout)
            && (1..=4096).contains(&room)
            && (1..=4096).contains(&members)
            && self.wrong.is_none()
    }

    /// Tries it, and compares all of it with what document 01 says; the number.
    fn tried(&self) -> Result<usize, String> {
        let mut memory = Memory::of(&self.setup);
        let fills: [u8; RUNS] = [0x11, 0x22, 0x33, 0x44, 0x55, 0x66, 0x77];
        for (run, fill) in runs(&mut memory).into_iter().zip(fills) {
            run.fill(fill);
        }
        if let Some(wrong) = self.wrong {
            make_wrong(&mut memory, wrong);
        }
        let mut due = memory.clone();
        let needed = 20 * (self.setup.replicas.clamp(1, 256) as usize - 1);
        let length = self.back.map_or(0, |back| (needed as i64 + back.2).max(0)) as usize;
        let number = match self.is_inside() {
            false => 1,
            true if self.back.is_some() && length < needed => 9,
            true => 0,
        };
        let mut out = vec![0xa5; length];
        let mut sent = out.clone();
        if number == 0 {
            self.fresh(&mut due, &mut sent);
        }
        let (given, count) = match self.back {
            None => (raw::create(&self.setup, &mut memory), 0),
            Some((view, nonce, _)) => raw::recover(&self.setup, view, nonce, &mut memory, &mut out),
        };
        let bytes = needed * usize::from(number == 0 && self.back.is_some());
        if usize::from(given) != number || count != bytes {
            return Err(format!(
                "gives {given} and {count} bytes, {number} and {bytes} are due"
            ));
        }
        if out != sent || memory != due {
            return Err("memory or area differ".into());
        }
        takings::judge(&memory.state)?;
        Ok(number)
    }

    /// What a creation that is done makes of memory and area.
    fn fresh(&self, memory: &mut Memory, out: &mut [u8]) {
        let setup = &self.setup;
        for run in [&mut memory.totals, &mut memory.acks, &mut memory.table] {
            run.fill(0);
        }
        let (view, nonce, status) = match self.back {
            None => (0, 0, 0),
            Some((view, nonce, _)) => (view, nonce, 3),
        };
        let (replicas, own) = (setup.replicas as u8, setup.id as u8);
        let mut state = vec![replicas, own];
        state.extend((setup.timeout as u16).to_be_bytes());
        state.extend(setup.room.to_be_bytes());
        state.extend(setup.members.to_be_bytes());
        state.push(status);
        state.extend(view.to_be_bytes());
        state.extend(view.to_be_bytes());
        state.extend([0; 9]);
        state.extend([1, 0, 0, 0, 0, 0, 0, 0]);
        state.extend([0; 2]);
        state.extend(nonce.to_be_bytes());
        state.extend([0; 98]);
        state.extend(0_u64.to_be_bytes());
        memory.state = state;
        if self.back.is_some() {
            let others = (0..replicas).filter(|id| *id != own);
            for (id, frame) in others.zip(out.chunks_exact_mut(20)) {
                frame[..8].copy_from_slice(&[0, 0, 0, 16, 1, 10, id, own]);
                frame[8..16].copy_from_slice(&nonce.to_be_bytes());
                frame[16..].copy_from_slice(&view.to_be_bytes());
            }
        }
    }
}
