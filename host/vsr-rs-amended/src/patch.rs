//! Patches of a text: lines that stand in it exactly once, and the lines in their place. `patches/README.md` says how one is written.

/// A patch, as its file has it.
pub struct Patch {
    pub name: String,
    pub text: String,
}

/// Lines that have to stand in the text exactly once, and what stands in their place.
#[derive(Default)]
struct Piece<'a> {
    stands: Vec<&'a str>,
    becomes: Vec<&'a str>,
}

/// Where in a patch a line is.
enum Within {
    Words,
    Stands,
    Becomes,
}

/// The text with all patches applied, in the order of their names; or what didn't fit, and in which patch.
pub fn amended(text: &str, mut patches: Vec<Patch>) -> Result<String, String> {
    patches.sort_by(|one, other| one.name.cmp(&other.name));
    let mut text = text.to_string();
    for patch in &patches {
        let named = |why| format!("{}: {why}", patch.name);
        for piece in pieces(&patch.text).map_err(named)? {
            text = piece.applied(&text).map_err(named)?;
        }
    }
    Ok(text)
}

/// The pieces of a patch. Lines outside of them are words for people.
fn pieces(patch: &str) -> Result<Vec<Piece<'_>>, String> {
    let mut pieces: Vec<Piece> = Vec::new();
    let mut within = Within::Words;
    for (place, line) in patch.lines().enumerate() {
        within = match (within, line, pieces.last_mut()) {
            (Within::Words, "[stands]", _) => {
                pieces.push(Piece::default());
                Within::Stands
            }
            (Within::Stands, "[becomes]", Some(piece)) if !piece.stands.is_empty() => {
                Within::Becomes
            }
            (Within::Becomes, "[end]", _) => Within::Words,
            (_, "[stands]" | "[becomes]" | "[end]", _) => {
                return Err(format!("line {} is {line}, out of its turn", place + 1));
            }
            (Within::Stands, _, Some(piece)) => {
                piece.stands.push(line);
                Within::Stands
            }
            (Within::Becomes, _, Some(piece)) => {
                piece.becomes.push(line);
                Within::Becomes
            }
            _ => Within::Words,
        };
    }
    match (within, pieces.is_empty()) {
        (Within::Words, false) => Ok(pieces),
        (Within::Words, true) => Err("it has no [stands]".into()),
        _ => Err("it has no [end] at its end".into()),
    }
}

impl Piece<'_> {
    /// The text with this piece applied.
    fn applied(&self, text: &str) -> Result<String, String> {
        let lines: Vec<&str> = text.split_inclusive('\n').collect();
        let fits = |from: &usize| {
            let here = lines[*from..].iter().take(self.stands.len());
            here.map(|line| line.trim_end_matches('\n'))
                .eq(self.stands.iter().copied())
        };
        let places: Vec<usize> = (0..lines.len()).filter(fits).collect();
        let [place] = places[..] else {
            let times = places.len();
            let wanted = self.stands.join("\n");
            return Err(format!(
                "these lines stand in the Rust {times} times, not exactly once:\n{wanted}"
            ));
        };
        let mut amended = lines[..place].concat();
        for line in &self.becomes {
            amended += line;
            amended.push('\n');
        }
        Ok(amended + &lines[place + self.stands.len()..].concat())
    }
}

#[cfg(test)]
mod tests {
    use super::*;

    const RUST: &str = "\
fn one() {
    work();
}

fn two() {
    work();
    rest();
}
";

    const SLEEP: &str = "\
Sleeps where it rested.
[stands]
    rest();
[becomes]
    sleep();
[end]
";

    /// These patches, by name and text, applied to the made-up text.
    fn with(patches: &[(&str, &str)]) -> Result<String, String> {
        let patch = |(name, text): &(&str, &str)| Patch {
            name: name.to_string(),
            text: text.to_string(),
        };
        amended(RUST, patches.iter().map(patch).collect())
    }

    #[test]
    fn no_patch_leaves_the_text_as_it_is() {
        assert_eq!(with(&[]).unwrap(), RUST);
        assert_eq!(amended("no line end", vec![]).unwrap(), "no line end");
    }

    #[test]
    fn a_patch_is_applied() {
        let due = RUST.replace("rest", "sleep");
        assert_eq!(with(&[("sleep", SLEEP)]).unwrap(), due);
    }

    #[test]
    fn several_pieces_are_applied() {
        let twice = "[stands]\nfn one() {\n    work();\n[becomes]\nfn one() {\n[end]\n".to_string();
        let due = RUST
            .replacen("    work();\n", "", 1)
            .replace("rest", "sleep");
        assert_eq!(with(&[("both", &(twice + SLEEP))]).unwrap(), due);
    }

    #[test]
    fn patches_are_applied_in_the_order_of_their_names() {
        let dream = "[stands]\n    sleep();\n[becomes]\n    sleep();\n    dream();\n[end]\n";
        let due = RUST.replace("rest();\n", "sleep();\n    dream();\n");
        let both = with(&[("2-dream", dream), ("1-sleep", SLEEP)]);
        assert_eq!(both.unwrap(), due);
        let why = with(&[("1-dream", dream), ("2-sleep", SLEEP)]).unwrap_err();
        assert!(why.starts_with("1-dream: "), "{why}");
    }

    #[test]
    fn lines_that_are_missing_are_named_with_their_patch() {
        let why = with(&[("eat", "[stands]\n    eat();\n[becomes]\n[end]\n")]).unwrap_err();
        assert_eq!(
            why,
            "eat: these lines stand in the Rust 0 times, not exactly once:\n    eat();"
        );
    }

    #[test]
    fn lines_that_stand_twice_are_named_with_their_patch() {
        let why = with(&[("work", "[stands]\n    work();\n[becomes]\n[end]\n")]).unwrap_err();
        assert!(why.starts_with("work: these lines stand in the Rust 2 times"));
    }

    #[test]
    fn part_of_a_line_does_not_fit() {
        assert!(with(&[("rest", "[stands]\nrest();\n[becomes]\n[end]\n")]).is_err());
    }

    #[test]
    fn a_patch_that_is_badly_written_is_named() {
        for (text, why) in [
            ("words alone\n", "odd: it has no [stands]"),
            (
                "[stands]\na\n[becomes]\n",
                "odd: it has no [end] at its end",
            ),
            (
                "[stands]\n[becomes]\nb\n[end]\n",
                "odd: line 2 is [becomes], out of its turn",
            ),
            (
                "[stands]\na\n[end]\n",
                "odd: line 3 is [end], out of its turn",
            ),
        ] {
            assert_eq!(with(&[("odd", text)]).unwrap_err(), why);
        }
    }
}
