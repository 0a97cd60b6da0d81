//! Declared by `encodings.rs`. As a child of that module it sees the totalizer database, which is
//! private without rustsat's feature `_internals`, and hands it to the comparison.

use std::num::NonZeroUsize;

pub use super::nodedb::{NodeById, NodeCon, NodeId, NodeLike};
pub use super::totdb::{Db, Node, Semantics};

/// A connection with an offset and a limit, 0 for none.
pub fn connection(id: NodeId, offset: usize, limit: usize) -> NodeCon {
    NodeCon {
        offset,
        len_limit: NonZeroUsize::new(limit),
        ..NodeCon::full(id)
    }
}
