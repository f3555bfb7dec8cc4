//! Reading and writing.

pub use crate::streams::Stream;
pub use std::io::{Error, ErrorKind, Read, Result, Write};

/// The standard input.
pub type Stdin = Stream;
