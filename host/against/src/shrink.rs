//! A failing schedule, made short: calls are left out as long as what is left still fails (delta debugging), then what was tried
//! before a call, as far as it isn't needed.

use crate::case::{Case, Lends};
use crate::clients;
use crate::counts::Counts;
use crate::offset;
use crate::pair::Pair;
use crate::parse::parse;
use crate::play::{Fault, Found};
use schedules::run::hex;
use schedules::rust::{Call, Start};
use std::fmt::Write;

/// The shortest list of these items that still fails, by leaving out parts, large ones first.
pub fn shortest<T: Clone>(mut items: Vec<T>, mut fails: impl FnMut(&[T]) -> bool) -> Vec<T> {
    let mut part = items.len().div_ceil(2).max(1);
    loop {
        let mut place = 0;
        let mut shorter = false;
        while place < items.len() {
            let mut left = items[..place].to_vec();
            left.extend_from_slice(&items[(place + part).min(items.len())..]);
            if fails(&left) {
                items = left;
                shorter = true;
            } else {
                place += part;
            }
        }
        if part == 1 && !shorter {
            return items;
        }
        if !shorter {
            part = part.div_ceil(2);
        }
    }
}

/// What a case gives when its calls are given again: the fault, and at which call.
pub fn again(case: &Case) -> Result<(), (usize, String)> {
    let mut counts = Counts::default();
    let made = Pair::new(case.setup, case.start);
    let (mut pair, _) = made.map_err(|text| (0, text))?;
    for (place, step) in case.steps.iter().enumerate() {
        pair.step(step.clone(), &mut counts)
            .map_err(|text| (place, text))?;
    }
    let last = case.steps.len().saturating_sub(1);
    pair.end(&mut counts).map_err(|text| (last, text))
}

fn fails(case: &Case) -> bool {
    again(case).is_err()
}

/// The shortest calls that lead to the fault.
fn shrunk(case: &Case) -> Case {
    let with = |steps: &[_]| Case {
        steps: steps.to_vec(),
        ..case.clone()
    };
    let mut case = with(&shortest(case.steps.clone(), |steps| fails(&with(steps))));
    for place in 0..case.steps.len() {
        let lends = std::mem::take(&mut case.steps[place].lends);
        if !fails(&case) {
            case.steps[place].lends = Lends {
                more: (0, 0),
                ..lends
            };
            if !fails(&case) {
                case.steps[place].lends = lends;
            }
        }
    }
    case
}

/// A fault in words, with the shortest calls that lead to it.
pub fn told(fault: Fault) -> String {
    let mut text = format!("the two sides differ: {}\n", fault.text);
    match fault.found {
        Found::Creation => {}
        Found::Replica(case) => {
            let whole = case.steps.len();
            let case = shrunk(&case);
            writeln!(text, "{} calls, shrunk to {}:", whole, case.steps.len()).expect("written");
            text += &lines(&case);
            match again(&case) {
                Err((place, fault)) => writeln!(text, "call {}: {fault}", place + 1),
                Ok(()) => writeln!(text, "given again, the calls don't fail"),
            }
            .expect("written");
        }
        Found::Client(case) => {
            let with = |steps: &[_]| clients::Case {
                steps: steps.to_vec(),
                ..case.clone()
            };
            let steps = shortest(case.steps.clone(), |steps| {
                clients::again(&with(steps)).is_err()
            });
            writeln!(text, "{:#?}", with(&steps)).expect("written");
        }
    }
    text
}

/// A case in lines: the creation and the frames as FORMAT.md has them, and what each frame says.
fn lines(case: &Case) -> String {
    let s = case.setup;
    let sizes = format!("{} {} {} {} {}", s.n, s.id, s.timeout, s.room, s.members);
    let mut text = match case.start {
        Start::New => format!("N {sizes}\n"),
        Start::Back { view, nonce } => format!("R {sizes} {view} {nonce} {}\n", 20 * (s.n - 1)),
    };
    for (place, step) in case.steps.iter().enumerate() {
        write!(text, "{}: ", place + 1).expect("written");
        match &step.frame {
            None => text += "T",
            Some(frame) => {
                let said = match parse(frame) {
                    Some(Call::Frame { addressee, message }) => {
                        let mut said = format!("to {addressee}, {message:?}");
                        said.truncate(600);
                        said
                    }
                    _ => format!("malformed, offset {}", offset::of_frame(frame)),
                };
                let mut bytes = hex(frame);
                bytes.truncate(4000);
                write!(text, "M {bytes} ({said})").expect("written");
            }
        }
        if step.lends != Lends::default() {
            write!(text, " lent {:?}", step.lends).expect("written");
        }
        text += "\n";
    }
    text
}

#[cfg(test)]
mod tests {
    use super::*;

    #[test]
    fn leaves_out_what_is_not_needed() {
        let items: Vec<u32> = (0..100).collect();
        let left = shortest(items, |left| left.contains(&17) && left.contains(&80));
        assert_eq!(left, [17, 80]);
    }
}
