//! Which task may preempt which. A set of nodes is a number of 128 bits, node
//! n as bit n: a table has 128 nodes at most.

use crate::table::{Table, PREEMPTIVE, TIME_SLICED};

pub type NodeSet = u128;

/// For each node, the set of the node itself and all that is above it.
pub struct Ancestry<'a> {
    table: &'a Table,
    lines: Vec<NodeSet>,
}

impl<'a> Ancestry<'a> {
    pub fn of(table: &'a Table) -> Self {
        let mut lines: Vec<NodeSet> = Vec::with_capacity(table.nodes.len());
        for (n, node) in table.nodes.iter().enumerate() {
            // A parent comes before its children, so its line is known.
            let above = if n == 0 { 0 } else { lines[node.parent] };
            lines.push(above | 1 << n);
        }
        Ancestry { table, lines }
    }

    /// Is node n one of `nodes`, or below one of them?
    pub fn at_or_below_any(&self, n: usize, nodes: NodeSet) -> bool {
        self.lines[n] & nodes != 0
    }

    /// Is scheduler p above node n?
    pub fn is_ancestor(&self, p: usize, n: usize) -> bool {
        p != n && self.lines[n] >> p & 1 == 1
    }

    /// May task t preempt task u? No, when either is no task.
    pub fn may_preempt(&self, t: usize, u: usize) -> bool {
        if t == u || !self.table.is_task(t) || !self.table.is_task(u) {
            return false;
        }
        // Parents have smaller numbers: the nearest common scheduler is the
        // largest common number, its child toward a task the smallest number
        // that is not common.
        let common = self.lines[t] & self.lines[u];
        let nearest = largest(common);
        let child_of_t = smallest(self.lines[t] & !common);
        let child_of_u = smallest(self.lines[u] & !common);
        match self.table.nodes[nearest].kind {
            TIME_SLICED => true,
            PREEMPTIVE => child_of_t < child_of_u,
            _ => false,
        }
    }
}

fn largest(set: NodeSet) -> usize {
    127 - set.leading_zeros() as usize
}

fn smallest(set: NodeSet) -> usize {
    set.trailing_zeros() as usize
}
