//! The root of the crate whose other files are rustsat's own, and what those name that is in none of
//! the nine files.

pub mod encodings;
pub mod instances;
pub mod types;
pub mod utils;

/// The encoding ran out of memory.
#[derive(thiserror::Error, Debug, Clone, Copy, PartialEq, Eq)]
#[error("out of memory")]
pub struct OutOfMemory;

/// An operation needs a clause.
#[derive(thiserror::Error, Debug, Clone, Copy, PartialEq, Eq)]
#[error("not a clause")]
pub struct RequiresClausal;
