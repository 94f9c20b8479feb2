//! The Rust original, as it stands in VOB_SRC.

pub use bytecode::FunctionDef;
pub use runtime_type::RuntimeType;

include!("../../stubs.rs");
include!(concat!(env!("OUT_DIR"), "/modules.rs"));
