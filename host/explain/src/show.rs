//! A frame as a table of its fields, with a mark under the first wrong byte.

use crate::rules::{judge, number, Field, Layout, Verdict};
use crate::shapes::{Name, Reader, ENTRY, ENTRY_BYTES, REPLY};
use crate::words::{counted, hex, kind, operation_words, outcome_words};

/// The first entries of a log that are always shown.
const FIRST: usize = 2;
/// A log of so many entries is shown whole.
const FEW: usize = 4;
/// The bytes in a line of those that aren't read, and the most of such lines.
const LINE: usize = 8;
const LINES: usize = 3;

/// A frame, judged.
pub struct Shown<'a> {
    /// Who reads it.
    pub reader: Reader,
    /// Its bytes.
    pub frame: &'a [u8],
    /// What is wrong with it.
    pub verdict: Verdict,
    /// Where its fields stand, if its length and kind are good.
    pub layout: Option<Layout>,
    /// Whether every entry is shown.
    pub all: bool,
}

impl<'a> Shown<'a> {
    /// Judges a frame.
    pub fn new(reader: Reader, frame: &'a [u8], all: bool) -> Shown<'a> {
        let verdict = judge(reader, frame);
        let good = verdict.offset().unwrap_or(frame.len());
        let layout = Layout::of(reader, &frame[..good]);
        Shown {
            reader,
            frame,
            verdict,
            layout,
            all,
        }
    }

    /// The table.
    pub fn table(&self) -> String {
        let mut lines = vec![self.line("place", "bytes", "field", "value")];
        let mut place = 0;
        while let Some(field) = self.field(place) {
            let starts = field.name == ENTRY[0] && field.entry.is_some();
            if let (true, Some(entry), Some(layout)) = (starts, field.entry, self.layout) {
                if !self.is_shown(entry) {
                    let next = self.next_shown(entry);
                    lines.push(self.left_out(entry, next));
                    place = layout.log() + next * ENTRY_BYTES;
                    continue;
                }
                let heading = format!("entry {} of {}", entry + 1, layout.count);
                lines.push(self.line("", "", &heading, ""));
            }
            let size = field.name.size();
            let value = self.value(field);
            self.bytes(&mut lines, place, size, field.name.words(), &value);
            place += size;
        }
        self.rest(&mut lines, place);
        lines.concat()
    }

    /// The field that begins at this place, if it is to be shown: up to a wrong length, version or
    /// kind, and as far as there are bytes; but the field with the first missing byte is.
    fn field(&self, place: usize) -> Option<Field> {
        let is_next = self.verdict == Verdict::Missing(place);
        if place >= self.frame.len() && !is_next {
            return None;
        }
        let (name, entry) = match (place, self.verdict) {
            (0, _) => (Name::Length, None),
            (4 | 5, Verdict::Wrong(wrong)) if wrong < place => return None,
            (4, _) => (Name::Version, None),
            (5, _) => (Name::Kind, None),
            _ => return self.layout?.field(place),
        };
        Some(Field { name, place, entry })
    }

    /// The entry that the first wrong or missing byte is in.
    fn marked_entry(&self) -> Option<usize> {
        self.layout?.field(self.verdict.offset()?)?.entry
    }

    fn is_shown(&self, entry: usize) -> bool {
        let last = self.last_entry();
        let is_marked = self.marked_entry() == Some(entry);
        self.all || last < FEW || entry < FIRST || entry >= last || is_marked
    }

    /// The first entry behind this one that is shown.
    fn next_shown(&self, entry: usize) -> usize {
        let mut behind = entry + 1..self.last_entry();
        let next = behind.find(|&entry| self.is_shown(entry));
        next.unwrap_or(self.last_entry().max(entry + 1))
    }

    /// The last entry of which there is a byte.
    fn last_entry(&self) -> usize {
        let Some(layout) = self.layout else { return 0 };
        let there = self.frame.len().min(layout.end());
        let inside = there.saturating_sub(layout.log());
        inside.div_ceil(ENTRY_BYTES).saturating_sub(1)
    }

    /// The line in place of some entries.
    fn left_out(&self, from: usize, to: usize) -> String {
        let until = self.layout.map_or(0, |l| l.log() + to * ENTRY_BYTES);
        let is_good = self.verdict.offset().is_none_or(|offset| until <= offset);
        let judged = if is_good { "all good" } else { "not judged" };
        let count = counted((to - from) as u64, "more entry", "more entries");
        self.line("", &format!("... {count}, {judged}"), "", "")
    }

    /// What isn't read: behind a wrong length, version or kind, or behind the frame's end.
    fn rest(&self, lines: &mut Vec<String>, from: usize) {
        let what = match self.layout {
            Some(_) => "too many",
            None => "not read",
        };
        for line in 0..LINES {
            let place = from + line * LINE;
            if place >= self.frame.len() {
                return;
            }
            let size = LINE.min(self.frame.len() - place);
            self.bytes(lines, place, size, if line == 0 { what } else { "" }, "");
        }
        let left = self.frame.len() - (from + LINES * LINE).min(self.frame.len());
        if left > 0 {
            let words = format!("... {}", counted(left as u64, "more byte", "more bytes"));
            lines.push(self.line("", &words, "", ""));
        }
    }

    /// The line of some bytes, `--` for each that is missing, and a line with the mark if one of
    /// them is the first wrong or missing one.
    fn bytes(&self, lines: &mut Vec<String>, place: usize, size: usize, name: &str, value: &str) {
        let there = &self.frame[place..self.frame.len().min(place + size)];
        let missing = vec!["--"; size - there.len()].join(" ");
        let cells = format!("{} {missing}", hex(there));
        lines.push(self.line(&place.to_string(), cells.trim(), name, value));
        let mark = match self.verdict {
            Verdict::Missing(_) => "^^ missing",
            _ => "^^ wrong",
        };
        let offset = self.verdict.offset();
        if let Some(offset) = offset.filter(|at| (place..place + size).contains(at)) {
            let cells = format!("{}{mark}", "   ".repeat(offset - place));
            lines.push(self.line("", &cells, "", ""));
        }
    }

    fn line(&self, place: &str, bytes: &str, name: &str, value: &str) -> String {
        let width = self.frame.len().to_string().len().max(5);
        let line = format!("{place:>width$}  {bytes:<23}  {name:<17} {value}");
        format!("{}\n", line.trim_end())
    }

    /// What a field says, if all of it is there.
    fn value(&self, field: Field) -> String {
        let bytes = self.frame.get(field.place..field.place + field.name.size());
        let Some(bytes) = bytes else {
            return String::new();
        };
        let number = number(bytes);
        let is_reply = self.layout.is_some_and(|l| l.shape.kind == REPLY);
        match field.name {
            Name::Kind => kind(bytes[0]),
            Name::Addressee if is_reply => number.to_string(),
            Name::Addressee | Name::Sender => format!("replica {number}"),
            Name::Mark if number == 0 => String::from("0, without a log"),
            Name::Mark if number == 1 => String::from("1, with a log"),
            Name::Zeros if number > 0 => String::from("not zero"),
            Name::Operation => operation_words(bytes[0]),
            Name::Outcome => outcome_words(bytes[0]),
            Name::Cents | Name::Total => {
                format!("{number} ({}.{:02})", number / 100, number % 100)
            }
            _ => number.to_string(),
        }
    }
}
