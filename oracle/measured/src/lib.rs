//! The Rust original with a starting budget and a report of what it did (build.rs lists the patch).

pub use bytecode::FunctionDef;
pub use runtime_type::RuntimeType;

pub mod report;

include!("../../stubs.rs");
include!(concat!(env!("OUT_DIR"), "/modules.rs"));
