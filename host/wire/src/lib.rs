//! What drives vsr-rs here shares this: document 01's frames for its messages, the fee rules as its state machine, and random
//! numbers.
//!
//! Two crates have this text: `wire` over the unchanged vsr-rs, and `wire-amended` over `vsr-rs-amended`, whose types are others.
//! Without the feature `vsr-rs` there are only the random numbers, which need no `../shared`.

#[cfg(feature = "vsr-rs")]
pub mod fees;
#[cfg(feature = "vsr-rs")]
pub mod frames;
pub mod random;

/// A cluster of so many replicas.
#[cfg(feature = "vsr-rs")]
pub fn config(replicas: usize) -> vsr_rs::Config {
    let mut config = vsr_rs::Config::new();
    for _ in 0..replicas {
        config.add_replica();
    }
    config
}
