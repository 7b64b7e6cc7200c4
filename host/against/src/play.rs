//! Schedules, each from one seed: which of them it is, its sizes, its calls, and how they are lent memory.

use crate::case::{Area, Case, Lends, Step};
use crate::counts::Counts;
use crate::pair::Pair;
use crate::takings;
use crate::wrongs::{Wrong, RUNS};
use crate::{big, clients, cluster, garbage, lone, making, patience};
use schedules::rust::Setup;
use wire::random::Random;

/// Where the two sides differ: what was found, and the calls that led there.
pub struct Fault {
    pub text: String,
    pub found: Found,
}

/// The calls of a replica, or of a client, that lead to a fault; or all there is to say of a creation.
pub enum Found {
    Replica(Case),
    Client(clients::Case),
    Creation,
}

/// Plays the schedule of this seed.
pub fn play(seed: u64, counts: &mut Counts) -> Result<(), Fault> {
    let mut random = Random::new(seed);
    for _ in 0..4 {
        random.number();
    }
    let (name, result) = match random.below(20_000) {
        0..=3 => ("long logs", big::play(&mut random, counts)),
        4..=90 => ("waits", patience::play(&mut random, counts)),
        91..=250 => ("creations", making::play(&mut random, counts)),
        251..=400 => ("memory of no call", garbage::play(&mut random, counts)),
        401..=1200 => ("clients", clients::play(&mut random, counts)),
        1201..=5000 => ("clusters", cluster::play(&mut random, counts, 0)),
        5001..=6500 => ("damaged clusters", cluster::play(&mut random, counts, 6)),
        _ => ("single replicas", lone::play(&mut random, counts)),
    };
    *counts.schedules.entry(name).or_default() += 1;
    result
}

/// Sizes of a replica: mostly small, now and then the largest there are.
pub fn sizes(random: &mut Random) -> Setup {
    let n = 3 + random.below(5);
    Setup {
        n,
        id: random.below(n),
        timeout: if random.chance(2) {
            65_535
        } else {
            1 + random.below(4)
        },
        room: size(random, &[1, 2, 8, 8, 8, 8]),
        members: size(random, &[1, 2, 8]),
    }
}

/// Some client ids: few or many, small and large.
pub fn clients(random: &mut Random) -> Vec<u64> {
    let ids = [
        0,
        1,
        2,
        3,
        7,
        255,
        256,
        u32::MAX.into(),
        1 << 32,
        1 << 63,
        u64::MAX - 1,
        u64::MAX,
    ];
    let many = random.pick(&[1, 2, 3, 3, 6, 12]);
    (0..many).map(|_| random.pick(&ids)).collect()
}

fn size(random: &mut Random, small: &[usize]) -> usize {
    if random.below(300) == 0 {
        return 4096;
    }
    random.pick(small)
}

/// How a call is lent memory: mostly just enough or a little more; now and then it is refused first.
pub fn lends(random: &mut Random, pair: &Pair) -> Lends {
    let mut lends = Lends {
        more: (random.pick(&[0, 0, 1, 9]), random.pick(&[0, 0, 1, 40])),
        ..Lends::default()
    };
    let often = if pair.case.setup.room > 8 || pair.case.setup.members > 8 {
        2
    } else {
        12
    };
    if random.chance(often) {
        for areas in &mut lends.tries {
            *areas = Some((random.pick(&Area::ALL), random.pick(&Area::ALL)));
        }
    }
    if random.chance(often / 2) {
        let run = random.below(RUNS) as u8;
        lends.wrong = Some(match random.below(5) {
            0 => Wrong::Longer(run),
            1 => Wrong::Shorter(run),
            2 => Wrong::Empty(run),
            _ => pair.wrong_state(random.number()),
        });
    }
    if random.chance(often / 2) {
        lends.sum = Some(takings::any(random));
    }
    lends.deep = random.below(800) == 0;
    lends
}

/// Gives a pair a call, lent memory at random; whether it was done. A fault takes the pair's calls with it.
pub fn give(
    random: &mut Random,
    pair: &mut Pair,
    frame: Option<Vec<u8>>,
    counts: &mut Counts,
) -> Result<bool, Fault> {
    let lends = lends(random, pair);
    pair.step(Step { frame, lends }, counts)
        .map_err(|text| fault(text, pair))
}

/// The last look at a pair: one more comparison inside in some of them.
pub fn end(random: &mut Random, pair: &mut Pair, counts: &mut Counts) -> Result<(), Fault> {
    if random.chance(20) {
        let lends = Lends {
            deep: true,
            ..Lends::default()
        };
        let step = Step {
            frame: Some(Vec::new()),
            lends,
        };
        pair.step(step, counts).map_err(|text| fault(text, pair))?;
    }
    pair.end(counts).map_err(|text| fault(text, pair))
}

/// A fault of a pair.
pub fn fault(text: String, pair: &Pair) -> Fault {
    Fault {
        text,
        found: Found::Replica(pair.case.clone()),
    }
}
