//! The part of the crate `num_enum` that the sources use, written by hand so that nothing comes from a registry:
//! `#[derive(TryFromPrimitive)]` on an enum with explicit `u8` discriminants.

pub use num_enum_derive::TryFromPrimitive;

#[derive(Debug)]
pub struct TryFromPrimitiveError(pub u8);

pub trait TryFromPrimitive: Sized {
    fn try_from_primitive(number: u8) -> Result<Self, TryFromPrimitiveError>;
}
