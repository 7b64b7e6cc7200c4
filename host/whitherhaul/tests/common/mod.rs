//! What tests share. Each of them uses a part.
#![allow(dead_code)]

pub mod frames;
pub mod lent;
pub mod model;
pub mod random;
pub mod table;
pub mod vectors;
