//! Declared by `encodings.rs`; nothing here uses it.
