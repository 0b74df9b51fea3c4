//! Machine states to ask about, well formed and malformed.

use super::Dice;
use crate::machine::{fresh, State, ACTIVE, PLACES};
use crate::table::Table;

/// A well-formed state, reached by some run or not.
pub fn well_formed_state(dice: &mut Dice, table: &Table) -> State {
    let mut state = fresh();
    let tasks: Vec<usize> = (0..table.nodes.len())
        .filter(|&n| table.is_task(n))
        .collect();
    if tasks.is_empty() {
        return state;
    }
    for _ in 0..dice.pick(&[1, 1, 2, 2, 3, 5, 20]) {
        state[dice.pick(&tasks)] = ACTIVE;
    }
    if !table.accesses.is_empty() {
        for _ in 0..dice.pick(&[0, 1, 1, 2, 5]) {
            let i = dice.below(table.accesses.len());
            state[table.accesses[i].task] = 2 + i as u8;
        }
    }
    state
}

/// The ways in which a lent state can be malformed.
pub const MALFORMED: [&str; 6] = [
    "state: wrong length",
    "state: place N or above not idle",
    "state: scheduler not idle",
    "state: access that does not exist",
    "state: access of another task",
    "state: noise",
];

/// A state malformed in the given way, or nothing where the table has no room
/// for that.
pub fn malformed_state(dice: &mut Dice, table: &Table, way: usize) -> Option<Vec<u8>> {
    let mut state = well_formed_state(dice, table).to_vec();
    let nodes = table.nodes.len();
    let accesses = table.accesses.len();
    let (place, value) = match way {
        0 => {
            let length = dice.pick(&[0, 1, nodes, 64, 126, 127, 129, 130, 256, 384]);
            state.resize(length, 0);
            return (length != PLACES).then_some(state);
        }
        1 => (pick_place(dice, |n| n >= nodes)?, dice.pick(&[1, 2, 255])),
        2 => (
            pick_place(dice, |n| table.is_scheduler(n))?,
            dice.pick(&[1, 2, 255]),
        ),
        3 => (
            pick_place(dice, |n| table.is_task(n))?,
            dice.between(2 + accesses, 255) as u8,
        ),
        4 => {
            let i = (accesses > 0).then(|| dice.below(accesses))?;
            let place = pick_place(dice, |n| n != table.accesses[i].task)?;
            (place, 2 + i as u8)
        }
        _ => {
            let length = if dice.chance(80) {
                PLACES
            } else {
                dice.between(0, 300)
            };
            return Some(dice.bytes(length));
        }
    };
    state[place] = value;
    Some(state)
}

fn pick_place(dice: &mut Dice, fits: impl Fn(usize) -> bool) -> Option<usize> {
    let places: Vec<usize> = (0..PLACES).filter(|&n| fits(n)).collect();
    (!places.is_empty()).then(|| dice.pick(&places))
}
