//! Steps to ask of the machine.

use super::Dice;
use crate::machine::{step, CLOSE, FINISH, IDLE, OPEN, START};
use crate::table::Table;

/// A step worth asking in this state: mostly one that our machine grants,
/// else one for each refusal as far as there is one.
pub fn choose(dice: &mut Dice, parsed: &Table, state: &[u8]) -> (u8, usize) {
    if dice.chance(5) {
        return odd_step(dice, parsed);
    }
    let mut granted = Vec::new();
    let mut refused = Vec::new();
    let wanted = dice.pick(&[15, 16, 17, 17, 18, 18, 18]);
    for (kind, n) in steps_at_hand(dice, parsed, state) {
        match step(parsed, state, kind, n) {
            Ok(_) => granted.push((kind, n)),
            Err(refusal) if refusal.number == wanted => refused.push((kind, n)),
            Err(_) => (),
        }
    }
    if !refused.is_empty() && (granted.is_empty() || dice.chance(35)) {
        return dice.pick(&refused);
    }
    // Forward more often than back, so that many tasks come to be active.
    let is_forward = |&(kind, _): &(u8, usize)| kind == START || kind == OPEN;
    if granted.iter().any(is_forward) && dice.chance(60) {
        granted.retain(is_forward);
    }
    match granted.is_empty() {
        true => any_step(dice, parsed),
        false => dice.pick(&granted),
    }
}

/// Every step of a small table; of a large one some, those that are about
/// active tasks first.
fn steps_at_hand(dice: &mut Dice, parsed: &Table, state: &[u8]) -> Vec<(u8, usize)> {
    let mut steps = Vec::new();
    for n in 0..=parsed.nodes.len() {
        steps.extend([START, CLOSE, FINISH].map(|kind| (kind, n)));
    }
    steps.extend((0..=parsed.accesses.len()).map(|i| (OPEN, i)));
    if steps.len() <= 60 {
        return steps;
    }
    let is_active = |&(kind, n): &(u8, usize)| {
        let task = if kind == OPEN {
            parsed.accesses.get(n).map(|a| a.task)
        } else {
            Some(n)
        };
        task.is_some_and(|task| state.get(task).is_some_and(|&value| value != IDLE))
    };
    let (about_active, rest): (Vec<_>, Vec<_>) = steps.into_iter().partition(is_active);
    let mut some = Vec::new();
    for group in [about_active, rest] {
        if !group.is_empty() {
            some.extend((0..20).map(|_| dice.pick(&group)));
        }
    }
    some
}

/// A step of one of the four kinds, with a number that may name nothing.
pub fn any_step(dice: &mut Dice, parsed: &Table) -> (u8, usize) {
    let kind = dice.below(4) as u8;
    let numbers = if kind == OPEN {
        parsed.accesses.len()
    } else {
        parsed.nodes.len()
    };
    let n = dice.below(numbers + 2);
    // A scheduler is tried once more, so that most steps name a task.
    if kind != OPEN && !parsed.is_task(n) {
        (kind, dice.below(numbers + 2))
    } else {
        (kind, n)
    }
}

/// A step with a number that names nothing, or with an unknown kind.
pub fn odd_step(dice: &mut Dice, parsed: &Table) -> (u8, usize) {
    let (kind, n) = any_step(dice, parsed);
    match dice.below(3) {
        0 => (odd_kind(dice), n),
        _ => (kind, odd_number(dice, n)),
    }
}

/// Numbers that name no node and no access, most of them a small number plus
/// something that a narrow type would lose.
pub fn odd_number(dice: &mut Dice, small: usize) -> usize {
    let wide = [
        small + 128,
        small + 256,
        small + 512,
        small + 65_536,
        usize::MAX,
        usize::MAX - small,
        (small as u64 | 1 << 32) as usize,
        small | 1 << (usize::BITS - 1),
        255,
        dice.between(128, 300),
    ];
    dice.pick(&wide)
}

/// A step code that is none of the four.
pub fn odd_kind(dice: &mut Dice) -> u8 {
    dice.pick(&[4, 5, 6, 7, 128, 129, 255])
}
