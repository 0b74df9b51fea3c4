//! What the locks in a set do.

use crate::preempt::NodeSet;
use crate::table::{Table, BLOCKING, MASK};

/// The numbers of the locks in a set, rising.
pub fn locks_in(set: u32) -> impl Iterator<Item = usize> {
    (0..32).filter(move |k| set >> k & 1 == 1)
}

/// The blocking locks of a set, as a set again.
pub fn blocking_part(table: &Table, set: u32) -> u32 {
    locks_in(set)
        .filter(|&k| table.locks[k].kind == BLOCKING)
        .fold(0, |part, k| part | 1 << k)
}

/// The nodes that the masks of a set name. A task at or below one is covered.
pub fn masked_nodes(table: &Table, set: u32) -> NodeSet {
    locks_in(set)
        .filter(|&k| table.locks[k].kind == MASK)
        .fold(0, |nodes, k| nodes | 1 << table.locks[k].covered)
}
