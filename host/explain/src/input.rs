//! Bytes from text in hex.

/// What may stand between bytes.
fn parts(byte: u8) -> bool {
    byte.is_ascii_whitespace() || byte == b':' || byte == b','
}

/// The bytes of a text: pairs of hex digits, with blanks, line ends, colons or commas between them
/// as one likes, and `0x` before any word. What is wrong is said in a sentence.
pub fn bytes(text: &[u8], has_lines: bool) -> Result<Vec<u8>, String> {
    let mut bytes = Vec::new();
    for (line, text) in text.split(|&byte| byte == b'\n').enumerate() {
        let words = text.split(|&byte| parts(byte)).filter(|w| !w.is_empty());
        for (place, word) in words.enumerate() {
            let read = word_bytes(word).map_err(|why| {
                let line = match has_lines {
                    true => format!("line {}, ", line + 1),
                    false => String::new(),
                };
                format!("{line}word {}, {}, {why}", place + 1, shown(word))
            })?;
            bytes.extend(read);
        }
    }
    Ok(bytes)
}

/// The bytes of a word.
fn word_bytes(word: &[u8]) -> Result<Vec<u8>, &'static str> {
    let digits = match word {
        [b'0', b'x' | b'X', digits @ ..] => digits,
        digits => digits,
    };
    let value = |&digit: &u8| char::from(digit).to_digit(16).map(|value| value as u8);
    let Some(values) = digits.iter().map(value).collect::<Option<Vec<u8>>>() else {
        return Err("isn't hex");
    };
    if values.is_empty() || values.len() % 2 != 0 {
        return Err("isn't hex bytes: each has two digits");
    }
    Ok(values
        .chunks(2)
        .map(|pair| pair[0] << 4 | pair[1])
        .collect())
}

/// A word as it can be shown, however long it is and whatever it holds.
fn shown(word: &[u8]) -> String {
    let text = String::from_utf8_lossy(word);
    let mut shown: String = text.chars().take(20).flat_map(char::escape_debug).collect();
    if text.chars().nth(20).is_some() {
        shown.push_str("..");
    }
    format!("'{shown}'")
}

#[cfg(test)]
mod tests {
    use super::*;

    #[test]
    fn bytes_are_read_however_they_are_parted() {
        let frame = [0x00, 0x00, 0x00, 0x0B, 0x01, 0xFF];
        for text in [
            "0000000b01ff",
            "00 00 00 0B 01 FF",
            "00:00:00:0b:01:ff",
            "0x00, 0x00, 0x00, 0x0B,\r\n\t0x01, 0xff,\n",
            "0000000B\n01FF",
            "0x0000000b01fF",
        ] {
            assert_eq!(bytes(text.as_bytes(), true), Ok(frame.to_vec()), "{text}");
        }
        assert_eq!(bytes(b"", true), Ok(Vec::new()));
        assert_eq!(bytes(b" \n", true), Ok(Vec::new()));
    }

    #[test]
    fn what_is_no_hex_is_named() {
        let odd = "isn't hex bytes: each has two digits";
        for (text, lines, said) in [
            ("00 zz", false, String::from("word 2, 'zz', isn't hex")),
            (
                "00\n00 0g 01",
                true,
                String::from("line 2, word 2, '0g', isn't hex"),
            ),
            ("00 1", true, format!("line 1, word 2, '1', {odd}")),
            ("0x", false, format!("word 1, '0x', {odd}")),
            ("+1", false, String::from("word 1, '+1', isn't hex")),
            ("é0", false, String::from("word 1, 'é0', isn't hex")),
            (
                "\u{1b}[1m",
                false,
                String::from("word 1, '\\u{1b}[1m', isn't hex"),
            ),
        ] {
            assert_eq!(bytes(text.as_bytes(), lines), Err(said), "{text}");
        }
        let long = "g".repeat(1000);
        let said = bytes(long.as_bytes(), false).unwrap_err();
        assert_eq!(said, format!("word 1, '{}..', isn't hex", "g".repeat(20)));
    }
}
