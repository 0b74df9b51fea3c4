//! Scheduler trees of every shape: flat, deep, and anything between.

use super::draft::Draft;
use super::Dice;
use crate::table::{FIFO, NON_PREEMPTIVE, PREEMPTIVE, TASK, TIME_SLICED};

/// Which kinds the schedulers of a table may have.
#[derive(Clone, Copy, PartialEq)]
enum Kinds {
    Any,
    Only(u8),
    /// Kinds 1, 2 and 3, and under 2 and 3 tasks alone.
    WithThresholds,
}

/// Where the next node hangs.
#[derive(Clone, Copy)]
enum Shape {
    Flat,
    Deep,
    Anywhere,
    /// Under one of the last three schedulers.
    Late,
}

pub fn add_nodes(dice: &mut Dice, draft: &mut Draft, count: usize) {
    let kinds = match dice.below(8) {
        0..=2 => Kinds::Any,
        3 => Kinds::Only(TIME_SLICED),
        4 => Kinds::Only(PREEMPTIVE),
        _ => Kinds::WithThresholds,
    };
    let shape = dice.pick(&[
        Shape::Flat,
        Shape::Deep,
        Shape::Anywhere,
        Shape::Anywhere,
        Shape::Late,
    ]);
    let tasks_in_hundred = dice.pick(&[10, 50, 70, 85, 100]);
    let root = if count == 1 {
        dice.below(5) as u8
    } else {
        scheduler(dice, kinds)
    };
    draft.nodes.push((0, root));
    for _ in 1..count {
        let task = dice.chance(tasks_in_hundred);
        let wanted = if task { TASK } else { scheduler(dice, kinds) };
        let node = place(dice, draft, kinds, shape, wanted);
        draft.nodes.push(node);
    }
}

fn scheduler(dice: &mut Dice, kinds: Kinds) -> u8 {
    match kinds {
        Kinds::Only(kind) => kind,
        Kinds::Any => dice.pick(&[PREEMPTIVE, PREEMPTIVE, NON_PREEMPTIVE, FIFO, TIME_SLICED]),
        Kinds::WithThresholds => dice.pick(&[PREEMPTIVE, PREEMPTIVE, NON_PREEMPTIVE, FIFO]),
    }
}

/// A parent for a node of the wanted kind; a scheduler for which there is no
/// fitting parent becomes a task.
fn place(dice: &mut Dice, draft: &Draft, kinds: Kinds, shape: Shape, wanted: u8) -> (u8, u8) {
    let narrow = kinds == Kinds::WithThresholds && wanted != TASK;
    let fitting = draft.of_kind(|kind| {
        if narrow {
            kind == PREEMPTIVE
        } else {
            kind != TASK
        }
    });
    if fitting.is_empty() {
        return place(dice, draft, kinds, shape, TASK);
    }
    let last = fitting.len() - 1;
    let chosen = match shape {
        Shape::Flat => 0,
        Shape::Deep => last,
        Shape::Anywhere => dice.below(last + 1),
        Shape::Late => dice.between(last.saturating_sub(2), last),
    };
    (fitting[chosen], wanted)
}
