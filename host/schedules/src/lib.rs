//! Drives vsr-rs, as `vsr-rs-amended` has it, with document 01's fees, and knows document 01's refusals: what `schedules` writes its
//! traces with, and what `against` compares the proved library with. How refusals are told, which the Rust hasn't: see `rust`.

pub mod adversary;
pub mod alone;
pub mod choose;
pub mod client;
pub mod cluster;
pub mod directed;
pub mod examples;
pub mod inside;
pub mod run;
pub mod rust;
pub mod stored;

/// How a trace names the Rust that answered.
pub fn answered_by() -> &'static str {
    match vsr_rs::patches() {
        [] => "the unchanged vsr-rs",
        _ => "the amended vsr-rs",
    }
}
