//! A bar on standard error, for what takes long.
//!
//! It is drawn only where standard error is a terminal, and where no output comes into its midst:
//! none into a pipe, whose reader may show it on the same terminal, and beside what is printed none
//! on a terminal. Long is what takes more than half a second. A journal from disk takes
//! milliseconds, so that the bar is for a slow pipe, a table that goes to a slow disk, or one of
//! millions of rows that comes back.

use crate::words::grouped;
use std::fs::File;
use std::io::{self, IsTerminal, Stderr, Write};
use std::os::fd::AsFd;
use std::time::{Duration, Instant};

/// How long something takes before the bar is drawn.
const PATIENCE: Duration = Duration::from_millis(500);
/// How long a drawn bar stays as it is.
const STAYS: Duration = Duration::from_millis(100);
/// How many places it has.
const PLACES: usize = 20;

/// A bar, which is taken away when it is dropped.
#[derive(Debug)]
pub struct Bar<W: Write = Stderr> {
    out: Option<W>,
    what: &'static str,
    most: Option<usize>,
    unit: &'static str,
    next: Instant,
    drawn: bool,
}

impl Bar {
    /// A bar on standard error for so many of something, or where that isn't known for any number,
    /// before anything is printed.
    pub fn before_output(what: &'static str, most: Option<usize>, unit: &'static str) -> Bar {
        Bar::where_free(
            output_is_file() || io::stdout().is_terminal(),
            what,
            most,
            unit,
        )
    }

    /// A bar on standard error for so many of something that is printed.
    pub fn beside_output(what: &'static str, most: usize, unit: &'static str) -> Bar {
        Bar::where_free(output_is_file(), what, Some(most), unit)
    }

    fn where_free(free: bool, what: &'static str, most: Option<usize>, unit: &'static str) -> Bar {
        let out = (io::stderr().is_terminal() && free).then(io::stderr);
        Bar::on(out, what, most, unit, Instant::now())
    }
}

impl<W: Write> Bar<W> {
    fn on(
        out: Option<W>,
        what: &'static str,
        most: Option<usize>,
        unit: &'static str,
        now: Instant,
    ) -> Bar<W> {
        Bar {
            out,
            what,
            most,
            unit,
            next: now + PATIENCE,
            drawn: false,
        }
    }

    /// So many are done.
    pub fn at(&mut self, done: usize) {
        self.at_time(done, Instant::now());
    }

    fn at_time(&mut self, done: usize, now: Instant) {
        if now < self.next {
            return;
        }
        let line = self.line(done);
        if let Some(out) = &mut self.out {
            // A bar that can't be drawn is no reason to stop.
            let _ = write!(out, "\r{line}\x1b[K").and_then(|()| out.flush());
            self.drawn = true;
            self.next = now + STAYS;
        }
    }

    fn line(&self, done: usize) -> String {
        let Bar { what, unit, .. } = self;
        let shown = grouped(done as u64);
        let Some(most) = self.most else {
            return format!("{what} {shown} {unit}");
        };
        let full = PLACES * done.min(most) / most.max(1);
        let places = format!("{}{}", "#".repeat(full), ".".repeat(PLACES - full));
        let most = grouped(most as u64);
        format!("{what} [{places}] {shown} {unit} of at most {most}")
    }
}

impl<W: Write> Drop for Bar<W> {
    fn drop(&mut self) {
        if let (Some(out), true) = (&mut self.out, self.drawn) {
            let _ = write!(out, "\r\x1b[K").and_then(|()| out.flush());
        }
    }
}

/// Whether standard output is a file on disk.
fn output_is_file() -> bool {
    let output = io::stdout().as_fd().try_clone_to_owned();
    let kind = output.and_then(|output| File::from(output).metadata());
    kind.is_ok_and(|kind| kind.is_file())
}

#[cfg(test)]
mod tests {
    use super::*;

    /// What a bar draws for a hundred lines of which these were done after so many milliseconds.
    fn drawn(steps: &[(u64, usize)]) -> String {
        drawn_of(Some(100), steps)
    }

    fn drawn_of(most: Option<usize>, steps: &[(u64, usize)]) -> String {
        let (mut out, begun) = (Vec::new(), Instant::now());
        let mut bar = Bar::on(Some(&mut out), "printing", most, "lines", begun);
        for (after, done) in steps {
            bar.at_time(*done, begun + Duration::from_millis(*after));
        }
        drop(bar);
        String::from_utf8(out).expect("text")
    }

    #[test]
    fn what_is_quick_has_no_bar() {
        assert_eq!(drawn(&[(0, 1), (100, 50), (499, 100)]), "");
    }

    #[test]
    fn what_is_slow_has_one_that_goes_away() {
        let steps = [(10, 1), (500, 50), (510, 51), (700, 60)];
        let half = "\rprinting [##########..........] 50 lines of at most 100\x1b[K";
        let more = "\rprinting [############........] 60 lines of at most 100\x1b[K";
        assert_eq!(drawn(&steps), format!("{half}{more}\r\x1b[K"));
    }

    #[test]
    fn one_past_the_most_stays_inside() {
        let full = "#".repeat(PLACES);
        let line = drawn(&[(900, 101)]);
        assert!(
            line.contains(&format!("[{full}] 101 lines of at most 100")),
            "{line}"
        );
    }

    #[test]
    fn what_has_no_known_end_is_counted() {
        let line = drawn_of(None, &[(900, 12_345)]);
        assert_eq!(line, "\rprinting 12,345 lines\x1b[K\r\x1b[K");
    }
}
