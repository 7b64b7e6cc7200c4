//! The table that is printed: a line a case, with times for people.

use crate::measure::{Time, Times};

/// What stands above the columns.
pub fn heading() {
    line(["", "ours", "vsr-rs", "ratio", "with frames", "ratio"]);
}

/// A case with each of vsr-rs's times and its ratio to ours.
pub fn row(name: &str, [ours, as_it_is, framed]: Times) {
    line([
        name,
        &shown(ours),
        &shown(as_it_is),
        &ratio(as_it_is, ours),
        &shown(framed),
        &ratio(framed, ours),
    ]);
}

/// What stands above the columns of calls that vsr-rs doesn't have.
pub fn beside_plain_heading() {
    two(["", "ours", "plain Rust", "ratio"]);
}

/// Such a call, and plain Rust that does the same.
pub fn beside_plain(name: &str, [ours, plain]: [Time; 2]) {
    two([name, &shown(ours), &shown(plain), &ratio(plain, ours)]);
}

fn two([name, ours, plain, ratio]: [&str; 4]) {
    println!("{name:<50}{ours:>12}{plain:>12}{ratio:>8}");
}

/// A case through one side.
pub fn single(name: &str, time: Time) {
    println!("{name:<50}{:>12}", shown(time));
}

fn line([name, ours, as_it_is, ratio, framed, framed_ratio]: [&str; 6]) {
    println!("{name:<50}{ours:>12}{as_it_is:>12}{ratio:>8}{framed:>14}{framed_ratio:>8}");
}

fn shown(time: Time) -> String {
    match time {
        None => String::from("-"),
        Some(nanos @ ..10_000.0) => format!("{nanos:.0} ns"),
        Some(nanos) => format!("{:.1} us", nanos / 1_000.0),
    }
}

fn ratio(theirs: Time, ours: Time) -> String {
    let (Some(theirs), Some(ours)) = (theirs, ours) else {
        return String::from("-");
    };
    match theirs / ours {
        ratio @ ..0.1 => format!("{ratio:.3}"),
        ratio => format!("{ratio:.2}"),
    }
}

#[cfg(test)]
mod tests {
    use super::*;

    #[test]
    fn a_time_has_its_unit() {
        assert_eq!(shown(Some(322.6)), "323 ns");
        assert_eq!(shown(Some(12_340.0)), "12.3 us");
        assert_eq!(shown(None), "-");
    }

    #[test]
    fn a_ratio_needs_both_times() {
        assert_eq!(ratio(Some(300.0), Some(200.0)), "1.50");
        assert_eq!(ratio(Some(3.0), Some(200.0)), "0.015");
        assert_eq!(ratio(None, Some(200.0)), "-");
    }
}
