//! Traits that only mark a type.

/// A type that the contracts see as another value. Plain Rust has no contracts, so nothing is in it.
pub trait Model {}
