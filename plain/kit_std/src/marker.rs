// Made by tools/plain-rust of tools/plain/kit_std/src/marker.rs: change that.
//! Traits that only mark a type.

/// A type that the contracts see as another value. Plain Rust has no contracts, so nothing is in it.
pub trait Model {}
