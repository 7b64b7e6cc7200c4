//! Numbers with their nouns, amounts, and places in a journal.

use whitherhaul::journal::FRAME_LENGTH;
use whitherhaul::Fault;

/// So many of something: "1 crash", "4 crashes".
pub fn count(number: u64, one: &str, many: &str) -> String {
    match number {
        1 => format!("1 {one}"),
        _ => format!("{number} {many}"),
    }
}

/// A number as people write it: 12,345.
pub fn grouped(number: u64) -> String {
    let digits = number.to_string();
    let mut grouped = String::new();
    for (place, digit) in digits.chars().enumerate() {
        if place > 0 && place % 3 == digits.len() % 3 {
            grouped.push(',');
        }
        grouped.push(digit);
    }
    grouped
}

/// Cents as people write them: 12,345.60.
pub fn money(cents: u64) -> String {
    format!("{}.{:02}", grouped(cents / 100), cents % 100)
}

/// Which frame is bad, and why.
pub fn bad_frame(offset: usize, fault: Fault) -> String {
    let op = offset / FRAME_LENGTH + 1;
    format!("bad frame at byte {offset} (op {op}): {fault}")
}

#[cfg(test)]
mod tests {
    use super::*;

    #[test]
    fn only_one_is_singular() {
        let shown = [0, 1, 2, 11].map(|number| count(number, "crash", "crashes"));
        assert_eq!(shown, ["0 crashes", "1 crash", "2 crashes", "11 crashes"]);
    }

    #[test]
    fn money_is_grouped() {
        let shown = [5, 150, 99_999, 100_000, 123_456_789].map(money);
        let expected = ["0.05", "1.50", "999.99", "1,000.00", "1,234,567.89"];
        assert_eq!(shown, expected);
        assert_eq!(money(u64::MAX), "184,467,440,737,095,516.15");
    }
}
