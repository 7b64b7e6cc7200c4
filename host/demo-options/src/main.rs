//! Reads the demo's options and plays nothing: status 0 where they ask for a day, 1 where --help was printed, 2 where one is
//! wrong. `./demo` asks it before anything is proved or linked.

use demo_options::{read, Asked, HELP};
use std::process::ExitCode;

fn main() -> ExitCode {
    match read(std::env::args_os().skip(1)) {
        Ok(Asked::Day(_)) => ExitCode::SUCCESS,
        Ok(Asked::Help) => {
            println!("{HELP}");
            ExitCode::from(1)
        }
        Err(why) => {
            eprintln!("demo: {why}");
            ExitCode::from(2)
        }
    }
}
