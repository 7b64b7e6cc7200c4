//! Memory that passes refusal 1 and that no call produced: safety and ending are promised of it, that a refused call changes
//! nothing, 2 with its offset exactly for a malformed frame, and takings that move by what is committed. The Rust has no such state,
//! so nothing is compared with it.

use crate::counts::Counts;
use crate::damage::damaged;
use crate::offset;
use crate::pair::{answered, lent_setup};
use crate::parse::parse;
use crate::play::{clients, sizes, Fault, Found};
use crate::takings;
use crate::wrongs::runs;
use schedules::adversary::Adversary;
use schedules::run::hex;
use schedules::rust::{Call, Rust, Setup, Start};
use whitherhaul::raw::{self, state, Memory};
use wire::frames::frame;
use wire::random::Random;

/// Plays some calls on such memory.
pub fn play(random: &mut Random, counts: &mut Counts) -> Result<(), Fault> {
    let setup = sizes(random);
    let rust = Rust::new(setup, Start::New).0;
    let clients = clients(random);
    let mut memory = filled(random, setup);
    for _ in 0..30 {
        let call = Adversary {
            random,
            rust: &rust,
            clients: &clients,
        }
        .call();
        let mut bytes = match call {
            Call::Tick => None,
            Call::Frame { addressee, message } => Some(frame(addressee, &message)),
        };
        if random.chance(10) {
            bytes = bytes.map(|bytes| damaged(random, bytes));
        }
        let before = memory.clone();
        let given = past(random, &before, bytes.as_deref(), counts)
            .and_then(|()| judged(random, &before, counts))
            .and_then(|()| called(random, &mut memory, &before, bytes.as_deref()))
            .and_then(|()| sum(&before, &memory, counts));
        given.map_err(|text| Fault {
            text: format!(
                "{text}: {:?} of {}",
                bytes.map(|bytes| hex(&bytes)),
                told(&before)
            ),
            found: Found::Creation,
        })?;
        counts.garbage += 1;
    }
    Ok(())
}

/// The takings are those from before the call, moved by what it committed.
fn sum(before: &Memory, after: &Memory, counts: &mut Counts) -> Result<(), String> {
    let kept = takings::u64_at(&before.state, state::TAKINGS);
    counts.sums += 1;
    takings::hold(after, takings::moved(kept, before, after, &mut counts.cuts))
}

/// The same call on a state with a sum above the most, now and then: refused by 1, and nothing is changed.
fn past(
    random: &mut Random,
    before: &Memory,
    frame: Option<&[u8]>,
    counts: &mut Counts,
) -> Result<(), String> {
    if !random.chance(20) {
        return Ok(());
    }
    let mut due = before.clone();
    takings::put(&mut due, takings::past(random.number()));
    let mut memory = due.clone();
    let mut areas = ([0xa5; 2000], [0xa5; 400]);
    let given = answered(&mut memory, frame, &mut areas.0, &mut areas.1);
    let refused = given == (1, raw::Counts::default(), 0) && takings::judge(&memory.state)?;
    if !refused || memory != due || areas != ([0xa5; 2000], [0xa5; 400]) {
        return Err(format!("with a sum above the most gives {given:?}"));
    }
    counts.past += 1;
    Ok(())
}

/// The takings of the state with some bytes changed, or cut, or longer.
fn judged(random: &mut Random, memory: &Memory, counts: &mut Counts) -> Result<(), String> {
    let mut run = memory.state.clone();
    for _ in 0..random.below(3) {
        let place = random.below(run.len());
        run[place] = random.pick(&[0, 1, 2, 3, 4, 7, 8, 0x10, 0x80, 0xff]);
    }
    if random.chance(5) {
        run.resize(random.pick(&[0, 1, 146, 153, 155, 300]), 0);
    }
    counts.states[usize::from(takings::judge(&run)?)] += 1;
    Ok(())
}

/// All bytes of the memory, run by run.
fn told(memory: &Memory) -> String {
    let runs = [
        ("state", &memory.state),
        ("log", &memory.log),
        ("results", &memory.results),
        ("totals", &memory.totals),
        ("acks", &memory.acks),
        ("stored", &memory.stored),
        ("table", &memory.table),
    ];
    runs.map(|(name, run)| format!("{name} {}", hex(run)))
        .join(", ")
}

/// Any bytes in all runs, and a state whose numbers are in range, with votes and reports of its own replicas alone.
fn filled(random: &mut Random, setup: Setup) -> Memory {
    let lent = lent_setup(setup).expect("sizes that fit");
    let mut memory = Memory::of(&lent);
    assert_eq!(raw::create(&lent, &mut memory), 0, "sizes inside");
    let few = random.chance(50);
    for run in runs(&mut memory).into_iter().skip(1) {
        for byte in run {
            *byte = if few {
                random.below(4) as u8
            } else {
                random.number() as u8
            };
        }
    }
    if random.chance(50) {
        money(random, &mut memory);
    }
    takings::put(&mut memory, takings::any(random));
    let state = &mut memory.state;
    state[state::STATUS] = random.below(4) as u8;
    state[state::VIEW + 3] = random.below(4) as u8;
    state[state::LAST_NORMAL_VIEW + 3] = random.number() as u8;
    state[state::CATCHING_UP] = random.below(2) as u8;
    state[state::SENT] = random.below(2) as u8;
    state[state::STARTS] = random.below(1 << setup.n) as u8;
    state[state::NONCE + 7] = 1;
    for byte in &mut state[state::CLOCK + 1..state::CLOCK + 8] {
        *byte = random.pick(&[0, 1, 255]);
    }
    numbers(random, setup, &mut state[state::OP_NUMBER..]);
    let reports = state[state::REPORTS..].chunks_exact_mut(state::REPORT);
    for report in reports.take(setup.n) {
        if random.chance(50) {
            report[0] = 1;
            report[1] = random.below(2) as u8;
            report[5] = random.below(4) as u8;
            numbers(random, setup, &mut report[6..]);
        }
    }
    memory
}

/// Totals in their range, and entries that keep the rules in the log, so that fees and refunds take effect.
fn money(random: &mut Random, memory: &mut Memory) {
    for total in memory.totals.chunks_exact_mut(8) {
        let cents: u64 = random.pick(&[0, 500, 50_000, 999_999_000, 1_000_000_000]);
        total.copy_from_slice(&cents.to_be_bytes());
    }
    for entry in memory.log.chunks_exact_mut(32) {
        let member = random.below(memory.totals.len() / 8 + 1) as u32;
        let cents: u64 = random.pick(&[1, 500, 5000, 1_000_000]);
        entry[16..20].copy_from_slice(&[random.pick(&[1, 2]), 0, 0, 0]);
        entry[20..24].copy_from_slice(&member.to_be_bytes());
        entry[24..].copy_from_slice(&cents.to_be_bytes());
    }
}

/// An op number at most L, and a commit number at most that.
fn numbers(random: &mut Random, setup: Setup, place: &mut [u8]) {
    let op = random.below(setup.room + 1);
    let commit = random.below(op + 1);
    place[..4].copy_from_slice(&(op as u32).to_be_bytes());
    place[4..8].copy_from_slice(&(commit as u32).to_be_bytes());
}

/// A call; what is promised of it.
fn called(
    random: &mut Random,
    memory: &mut Memory,
    before: &Memory,
    frame: Option<&[u8]>,
) -> Result<(), String> {
    let mut out = vec![0xa5; random.pick(&[0, 15, 40, 1000, 20_000])];
    let mut reps = vec![0xa5; random.pick(&[0, 36, 1000])];
    let (number, counts, offset) = answered(memory, frame, &mut out, &mut reps);
    if number == 1 {
        return Err("is refused by 1, so nothing was tried".into());
    }
    let malformed = frame.filter(|frame| parse(frame).is_none());
    let due = malformed.map_or(0, offset::of_frame);
    if (number == 2) != malformed.is_some() || offset != due {
        return Err(format!("gives {number} with offset {offset}, {due} is due"));
    }
    if number > 10 || counts.messages > out.len() || counts.replies > reps.len() {
        return Err(format!("gives {number} and {counts:?}"));
    }
    if number != 0 && (counts != raw::Counts::default() || memory != before) {
        return Err(format!("changed though refused by {number}"));
    }
    let past = out[counts.messages..].iter().chain(&reps[counts.replies..]);
    match past.into_iter().all(|byte| *byte == 0xa5) {
        true => Ok(()),
        false => Err("bytes past the counts changed".into()),
    }
}
