//! Priorities and thresholds. The walk of document 01 meets the tasks in the
//! order of their paths from the root, so the paths are sorted and the tasks
//! numbered in that order.

use crate::table::{Refusal, Table, FIFO, NON_PREEMPTIVE, TIME_SLICED};

/// What a scheduler shows, priority and threshold.
const NONE: u8 = 255;

/// Two bytes a node, priority and then threshold, or refusal 13.
pub fn thresholds(table: &Table) -> Result<Vec<u8>, Refusal> {
    if !has_thresholds(table) {
        return Err(Refusal {
            number: 13,
            place: 0,
        });
    }
    let mut bytes = vec![NONE; 2 * table.nodes.len()];
    let mut counter = 0;
    // The scheduler of the task met last, and the first number given under it.
    let mut last: Option<(usize, u8)> = None;
    for task in in_walk_order(table) {
        let scheduler = table.nodes[task].parent;
        let first = match last {
            Some((same, first)) if same == scheduler => first,
            _ => counter,
        };
        last = Some((scheduler, first));
        let (priority, threshold) = match table.nodes[scheduler].kind {
            FIFO => (first, first),
            NON_PREEMPTIVE => (counter, first),
            // Under kind 1, and a root that is a task (its own parent byte).
            _ => (counter, counter),
        };
        bytes[2 * task] = priority;
        bytes[2 * task + 1] = threshold;
        counter = priority + 1;
    }
    Ok(bytes)
}

/// No time slicing, and under kinds 2 and 3 tasks alone.
fn has_thresholds(table: &Table) -> bool {
    let sliced = table.nodes.iter().any(|node| node.kind == TIME_SLICED);
    let nested = (1..table.nodes.len()).any(|n| {
        let above = table.nodes[table.nodes[n].parent].kind;
        table.is_scheduler(n) && (above == NON_PREEMPTIVE || above == FIFO)
    });
    !sliced && !nested
}

/// The tasks in the order in which the walk meets them.
fn in_walk_order(table: &Table) -> Vec<usize> {
    let mut tasks: Vec<usize> = (0..table.nodes.len())
        .filter(|&n| table.is_task(n))
        .collect();
    tasks.sort_by_cached_key(|&task| path(table, task));
    tasks
}

/// The nodes from the root down to n. Of two children the smaller number
/// ranks higher, so paths compare as the walk goes.
fn path(table: &Table, n: usize) -> Vec<usize> {
    let mut path = vec![n];
    let mut at = n;
    while at != 0 {
        at = table.nodes[at].parent;
        path.push(at);
    }
    path.reverse();
    path
}
