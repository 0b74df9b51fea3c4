//! A valid table drawn up section by section, then written as bytes.

use super::trees::add_nodes;
use super::Dice;
use crate::table::{BLOCKING, MASK, TASK};

/// A table on its way to bytes.
#[derive(Clone, Debug, Default)]
pub struct Draft {
    /// Parent and kind.
    pub nodes: Vec<(u8, u8)>,
    /// Provider, kind and covered node.
    pub locks: Vec<(u8, u8, u8)>,
    pub labels: Vec<u16>,
    /// Task, resource and lock set.
    pub accesses: Vec<(u8, u8, u32)>,
}

impl Draft {
    pub fn bytes(&self) -> Vec<u8> {
        let mut bytes = vec![1, self.nodes.len() as u8];
        for &(parent, kind) in &self.nodes {
            bytes.extend([parent, kind]);
        }
        bytes.push(self.locks.len() as u8);
        for &(provider, kind, covered) in &self.locks {
            bytes.extend([provider, kind, covered]);
        }
        bytes.push(self.labels.len() as u8);
        for label in &self.labels {
            bytes.extend(label.to_be_bytes());
        }
        bytes.push(self.accesses.len() as u8);
        for &(task, resource, set) in &self.accesses {
            bytes.extend([task, resource]);
            bytes.extend(set.to_be_bytes());
        }
        bytes
    }

    /// The nodes whose kind is wanted.
    pub fn of_kind(&self, wanted: impl Fn(u8) -> bool) -> Vec<u8> {
        let numbered = self.nodes.iter().enumerate();
        numbered
            .filter(|(_, node)| wanted(node.1))
            .map(|(n, _)| n as u8)
            .collect()
    }
}

/// The counts of the four sections, as far as the table allows them: without
/// a scheduler there is no lock, without a task or resource no access.
#[derive(Clone, Copy)]
pub struct Size {
    pub nodes: usize,
    pub locks: usize,
    pub resources: usize,
    pub accesses: usize,
}

pub fn draft(dice: &mut Dice, size: Size) -> Draft {
    let mut draft = Draft::default();
    add_nodes(dice, &mut draft, size.nodes);
    add_locks(dice, &mut draft, size.locks);
    add_resources(dice, &mut draft, size.resources);
    add_accesses(dice, &mut draft, size.accesses);
    draft
}

fn add_locks(dice: &mut Dice, draft: &mut Draft, count: usize) {
    let masks_in_hundred = dice.pick(&[0, 0, 30, 60, 100]);
    let schedulers = draft.of_kind(|kind| kind != TASK);
    if schedulers.is_empty() {
        return;
    }
    for _ in 0..count {
        let lock = if draft.nodes.len() > 1 && dice.chance(masks_in_hundred) {
            let covered = dice.between(1, draft.nodes.len() - 1);
            (draft.nodes[covered].0, MASK, covered as u8)
        } else {
            (dice.pick(&schedulers), BLOCKING, 0)
        };
        draft.locks.push(lock);
    }
}

fn add_resources(dice: &mut Dice, draft: &mut Draft, count: usize) {
    let label = |dice: &mut Dice, style| match style {
        0 => 257,
        1 => dice.below(4) as u16,
        2 => dice.pick(&[0, 9, 10, 99, 100, 255, 256, 999, 1000, 9999, 10000, 65535]),
        _ => dice.number() as u16,
    };
    let style = dice.below(4);
    draft.labels = (0..count).map(|_| label(dice, style)).collect();
}

fn add_accesses(dice: &mut Dice, draft: &mut Draft, count: usize) {
    let tasks = draft.of_kind(|kind| kind == TASK);
    if tasks.is_empty() || draft.labels.is_empty() {
        return;
    }
    // Sometimes few of the tasks and few of the resources, so that they meet.
    let tasks = &tasks[..dice.pick(&[tasks.len(), tasks.len(), tasks.len().min(3)])];
    let resources = dice.pick(&[1, 2.min(draft.labels.len()), draft.labels.len()]);
    let locks_in_hundred = dice.pick(&[0, 10, 30, 60, 100]);
    for n in 0..count {
        let access = if n > 0 && dice.chance(5) {
            draft.accesses[dice.below(n)]
        } else {
            let set = lock_set(dice, draft.locks.len(), locks_in_hundred);
            (dice.pick(tasks), dice.below(resources) as u8, set)
        };
        draft.accesses.push(access);
    }
}

fn lock_set(dice: &mut Dice, locks: usize, in_hundred: usize) -> u32 {
    let mut set = 0;
    for k in 0..locks {
        if dice.chance(in_hundred) {
            set |= 1 << k;
        }
    }
    // One lock more often than chance would have it.
    if locks > 0 && dice.chance(20) {
        set = 1 << dice.below(locks);
    }
    set
}
