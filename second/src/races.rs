//! The list of races and the list of illegal locks, by first number and then
//! second.

use crate::locks::{blocking_part, locks_in, masked_nodes};
use crate::preempt::{Ancestry, NodeSet};
use crate::table::{Access, Table};

/// An access with what its set holds, worked out once.
struct Held<'a> {
    access: &'a Access,
    blocking: u32,
    masked: NodeSet,
}

/// Every pair (i, j) of accesses that is a race.
pub fn races(table: &Table) -> Vec<(u8, u8)> {
    let ancestry = Ancestry::of(table);
    let held: Vec<Held> = table
        .accesses
        .iter()
        .map(|access| hold(table, access))
        .collect();
    let mut pairs = Vec::new();
    for (i, first) in held.iter().enumerate() {
        for (j, second) in held.iter().enumerate() {
            if is_race(&ancestry, first, second) {
                pairs.push((i as u8, j as u8));
            }
        }
    }
    pairs
}

fn hold<'a>(table: &Table, access: &'a Access) -> Held<'a> {
    Held {
        access,
        blocking: blocking_part(table, access.set),
        masked: masked_nodes(table, access.set),
    }
}

/// The task of the second comes in while the first is open.
fn is_race(ancestry: &Ancestry, first: &Held, second: &Held) -> bool {
    let (i, j) = (first.access, second.access);
    i.task != j.task
        && i.resource == j.resource
        && ancestry.may_preempt(j.task, i.task)
        && !ancestry.at_or_below_any(j.task, first.masked)
        && first.blocking & second.blocking == 0
}

/// Every pair (access, lock) where the lock is blocking and its provider is no
/// ancestor of the access's task.
pub fn illegal(table: &Table) -> Vec<(u8, u8)> {
    let ancestry = Ancestry::of(table);
    let mut pairs = Vec::new();
    for (i, access) in table.accesses.iter().enumerate() {
        for k in locks_in(blocking_part(table, access.set)) {
            if !ancestry.is_ancestor(table.locks[k].provider, access.task) {
                pairs.push((i as u8, k as u8));
            }
        }
    }
    pairs
}
