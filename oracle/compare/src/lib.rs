//! The proved reader and the Rust original in one process, compared call by call.

// What lent memory has to be stands once, beside `Reader`.
#![allow(clippy::missing_safety_doc)]

pub mod calls;
pub mod inputs;
mod memory;
pub mod model;
pub mod proved;
pub mod round;
pub mod shrink;
