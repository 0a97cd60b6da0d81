//! The two names that `instances.rs` re-exports; nothing here uses them.

pub struct Cnf;
pub struct Instance;
