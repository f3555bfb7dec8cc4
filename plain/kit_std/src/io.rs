// Made by tools/plain-rust of tools/plain/kit_std/src/io.rs: change that.
//! Reading and writing.

pub use crate::streams::Stream;
pub use std::io::{Error, ErrorKind, Read, Result, Write};

/// The standard input.
pub type Stdin = Stream;
