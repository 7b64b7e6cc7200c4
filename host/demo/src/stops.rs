//! Calls that panic. A machine whose library panics stops, and the day goes on without it.

use std::any::Any;
use std::cell::Cell;
use std::panic::{self, AssertUnwindSafe};

thread_local! {
    /// Whether a panic is caught, and so isn't printed.
    static CAUGHT: Cell<bool> = const { Cell::new(false) };
}

/// The status of a program whose reader went away, as a shell counts it.
const READER_GONE: i32 = 141;

/// From here on a panic that is caught by `caught` prints nothing, and where nobody reads what is printed any more (`./demo |
/// head`) the program ends without a word; any other panic prints what it would have printed.
pub fn silence() {
    let print = panic::take_hook();
    panic::set_hook(Box::new(move |panic| {
        if first_line(panic.payload()).starts_with("failed printing to stdout") {
            std::process::exit(READER_GONE);
        }
        if !CAUGHT.get() {
            print(panic);
        }
    }));
}

/// What a call gives, or the first line of what it panicked with. What it was changing is no longer to be used then.
pub fn caught<T>(call: impl FnOnce() -> T) -> Result<T, String> {
    CAUGHT.set(true);
    let given = panic::catch_unwind(AssertUnwindSafe(call));
    CAUGHT.set(false);
    given.map_err(|panic| first_line(panic.as_ref()))
}

fn first_line(panic: &(dyn Any + Send)) -> String {
    let text = match panic.downcast_ref::<String>() {
        Some(text) => text,
        None => panic.downcast_ref().copied().unwrap_or("a panic"),
    };
    String::from(text.lines().next().unwrap_or_default())
}

#[cfg(test)]
mod tests {
    use super::*;

    #[test]
    fn a_panic_is_told_by_its_first_line() {
        silence();
        assert_eq!(caught(|| 7), Ok(7));
        let number = 3;
        let told: [Result<(), String>; 2] = [
            caught(|| panic!("plain words\nmore")),
            caught(|| panic!("with {number}")),
        ];
        assert_eq!(told, [Err("plain words".into()), Err("with 3".into())]);
    }
}
