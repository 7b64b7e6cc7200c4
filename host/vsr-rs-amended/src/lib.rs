//! vsr-rs's own text with the patches of `patches/` applied: `build.rs` writes it, and it stands in the module `amended`.

#[cfg(test)]
mod patch;

// The module, and the names of the patches.
include!(concat!(env!("OUT_DIR"), "/module.rs"));

pub use amended::*;

/// The names of the patches that were applied, in their order.
pub fn patches() -> &'static [&'static str] {
    PATCHES
}
