//! The recorded calls of `../shared/vectors/orders`, whose form is described in `FORMAT.md` there.

use std::path::Path;

/// The text of a file of recorded calls.
pub fn text(name: &str) -> String {
    let folder = Path::new(env!("CARGO_MANIFEST_DIR")).join("../../../shared/vectors/orders");
    let path = folder.join(name);
    std::fs::read_to_string(&path).unwrap_or_else(|fault| panic!("{path:?}: {fault}"))
}

/// Its calls, each with its answer.
pub fn calls(text: &str) -> Vec<(&str, &str)> {
    let said = |line: &&str| !line.is_empty() && !line.starts_with('#');
    let lines: Vec<&str> = text.lines().filter(said).collect();
    let answered = |pair: &[&'_ str]| pair.len() == 2;
    assert!(lines.chunks(2).all(answered), "a call without an answer");
    lines.chunks(2).map(|pair| (pair[0], pair[1])).collect()
}

/// The front of a line, to be shown.
pub fn shortened(line: &str) -> &str {
    &line[..line.len().min(300)]
}

/// The bytes of a list of entries.
pub fn entries(list: &str) -> Vec<u8> {
    let part = |part: &str| match part.split_once('*') {
        Some((run, times)) => hex(run).repeat(times.parse().expect("a count")),
        None => hex(part),
    };
    list.split(',').flat_map(part).collect()
}

/// The bytes of a run in hexadecimal, `-` where it is empty.
pub fn hex(run: &str) -> Vec<u8> {
    let digits = run.trim_matches('-').as_bytes().chunks(2);
    let byte = |pair| u8::from_str_radix(std::str::from_utf8(pair).expect("ASCII"), 16);
    digits.map(|pair| byte(pair).expect("two digits")).collect()
}

/// A run of an answer: in hexadecimal, or where it is long its length and digest.
pub fn shown(run: &[u8]) -> String {
    shown_as(run, |run| {
        run.iter().map(|byte| format!("{byte:02x}")).collect()
    })
}

/// The same, where a short one is shown in another way.
pub fn shown_as(run: &[u8], short: impl FnOnce(&[u8]) -> String) -> String {
    match run.len() {
        0 => String::from("-"),
        1..=4000 => short(run),
        length => format!("#{length}:{:016x}", digest(run)),
    }
}

/// FNV-1a of 64 bits.
fn digest(run: &[u8]) -> u64 {
    run.iter().fold(0xcbf2_9ce4_8422_2325, |digest, byte| {
        (digest ^ u64::from(*byte)).wrapping_mul(0x100_0000_01b3)
    })
}
