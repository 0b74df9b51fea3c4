//! Valid tables of every size up to the limits.

use super::draft::{draft, Size};
use super::Dice;

/// A valid table, small ones more often than large ones.
pub fn valid(dice: &mut Dice) -> Vec<u8> {
    let size = match dice.below(20) {
        0..=8 => small_size(dice),
        9..=15 => any_size(
            dice,
            Size {
                nodes: 30,
                locks: 10,
                resources: 8,
                accesses: 30,
            },
        ),
        16..=18 => any_size(dice, LARGEST),
        _ => edge_size(dice),
    };
    draft(dice, size).bytes()
}

pub const LARGEST: Size = Size {
    nodes: 128,
    locks: 32,
    resources: 64,
    accesses: 128,
};

fn small_size(dice: &mut Dice) -> Size {
    any_size(
        dice,
        Size {
            nodes: 8,
            locks: 4,
            resources: 2,
            accesses: 8,
        },
    )
}

fn any_size(dice: &mut Dice, most: Size) -> Size {
    // A table without locks, resources or accesses comes often enough so.
    let mut count = |most| {
        if dice.chance(8) {
            0
        } else {
            dice.between(1, most)
        }
    };
    let (locks, resources, accesses) = (
        count(most.locks),
        count(most.resources),
        count(most.accesses),
    );
    Size {
        nodes: dice.between(1, most.nodes),
        locks,
        resources,
        accesses,
    }
}

/// Each count at one of its limits, or one inside.
fn edge_size(dice: &mut Dice) -> Size {
    Size {
        nodes: dice.pick(&[1, 2, 127, 128]),
        locks: dice.pick(&[0, 1, 31, 32]),
        resources: dice.pick(&[0, 1, 63, 64]),
        accesses: dice.pick(&[0, 1, 127, 128]),
    }
}

/// A table of exactly 1,253 bytes.
pub fn maximal(dice: &mut Dice) -> Vec<u8> {
    loop {
        let draft = draft(dice, LARGEST);
        if draft.accesses.len() == LARGEST.accesses {
            return draft.bytes();
        }
    }
}

/// A table small enough to try every run of the machine on it.
pub fn tiny(dice: &mut Dice) -> Vec<u8> {
    let size = Size {
        nodes: dice.pick(&[1, 2, 3, 4, 4, 5, 5, 6, 6, 6]),
        locks: dice.between(0, 3),
        resources: dice.pick(&[1, 1, 1, 2]),
        accesses: dice.pick(&[0, 1, 2, 3, 3, 4, 4, 4]),
    };
    draft(dice, size).bytes()
}
