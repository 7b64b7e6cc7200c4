//! `./explain`: status 0 where the frame is well formed, 1 where it is malformed, 2 where it can't
//! be read.

use explain::options::{read, Asked, Options, Source, HELP};
use explain::rules::Verdict;
use explain::shapes::Reader;
use explain::show::Shown;
use explain::{input, tell};
use std::io::{ErrorKind, IsTerminal, Read, Write};
use std::process::ExitCode;

fn main() -> ExitCode {
    let done = match read(std::env::args_os().skip(1)) {
        Ok(Asked::Help) => print(&format!("{HELP}\n")).map(|()| 0),
        Ok(Asked::Frame(options)) => explain(&options),
        Err(why) => Err(why),
    };
    match done {
        Ok(status) => ExitCode::from(status),
        Err(why) => {
            eprintln!("explain: {why}");
            ExitCode::from(2)
        }
    }
}

/// Shows the frame that was asked for, and gives the status.
fn explain(options: &Options) -> Result<u8, String> {
    let frame = frame(options)?;
    let reader = options.reader.unwrap_or_else(|| tell::guessed(&frame));
    let shown = Shown::new(reader, &frame, options.all);
    let mut text = String::new();
    if options.reader.is_none() && reader == Reader::Desk {
        text.push_str(tell::GUESSED);
    }
    text.push_str(&tell::tell(&shown));
    print(&text)?;
    Ok(u8::from(shown.verdict != Verdict::WellFormed))
}

/// The frame's bytes.
fn frame(options: &Options) -> Result<Vec<u8>, String> {
    let (content, name) = match &options.source {
        Source::Words(words) => {
            let bytes = input::bytes(words.as_bytes(), false);
            return bytes.map_err(|why| format!("{why}; --file reads a file"));
        }
        Source::File(path) => (std::fs::read(path), path.display().to_string()),
        Source::Input => (standard_input(), String::from("standard input")),
    };
    let content = content.map_err(|fault| format!("{name} can't be read: {fault}"))?;
    if options.raw {
        return Ok(content);
    }
    let hint = "; --raw reads bytes that aren't in hex";
    input::bytes(&content, true).map_err(|why| format!("{name}: {why}{hint}"))
}

fn standard_input() -> std::io::Result<Vec<u8>> {
    let mut input = std::io::stdin();
    if input.is_terminal() {
        eprintln!("explain: reads a frame in hex from here; Ctrl-D ends it (--help says more)");
    }
    let mut content = Vec::new();
    input.read_to_end(&mut content)?;
    Ok(content)
}

/// Prints a text. Who closed the pipe has seen enough.
fn print(text: &str) -> Result<(), String> {
    let mut out = std::io::stdout().lock();
    let done = out.write_all(text.as_bytes()).and_then(|()| out.flush());
    match done {
        Err(fault) if fault.kind() != ErrorKind::BrokenPipe => Err(format!("can't print: {fault}")),
        _ => Ok(()),
    }
}
