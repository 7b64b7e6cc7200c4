//! Reads the options of `./ledger` and no file: status 0 where they ask for one, 1 where --help or
//! --version was answered, 2 where one is wrong. `./ledger` asks it before anything is proved or
//! linked.

use ledger_options::{print, read, Asked};
use std::process::ExitCode;

fn main() -> ExitCode {
    let asked = read(std::env::args_os().skip(1)).and_then(|asked| match asked {
        Asked::Say(text) => print(text).map(|()| 1),
        Asked::Check(..) | Asked::Show(..) | Asked::Export(..) | Asked::Import(..) => Ok(0),
    });
    match asked {
        Ok(status) => ExitCode::from(status),
        Err(why) => {
            eprintln!("ledger: {why}");
            ExitCode::from(2)
        }
    }
}
