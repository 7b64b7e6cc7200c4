//! A stand-in for the crate `log`: `trace!` looks at its arguments and drops them.

/// Takes what the real `trace!` takes, and says nothing.
#[macro_export]
macro_rules! trace {
    ($($argument:tt)*) => {{
        let _ = ::core::format_args!($($argument)*);
    }};
}
