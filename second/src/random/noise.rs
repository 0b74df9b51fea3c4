//! Bytes that were never a table, or only at their beginning.

use super::valid::valid;
use super::Dice;

/// Bytes that were never a table.
pub fn noise(dice: &mut Dice) -> Vec<u8> {
    let length = match dice.below(4) {
        0 => dice.between(0, 12),
        1 => dice.between(0, 200),
        2 => dice.between(1240, 1270),
        _ => dice.between(0, 3500),
    };
    let low = dice.pick(&[2, 5, 256]);
    (0..length).map(|_| dice.below(low) as u8).collect()
}

/// Noise after a beginning that could be a table's.
pub fn noise_after_beginning(dice: &mut Dice) -> Vec<u8> {
    let mut bytes = match dice.below(3) {
        0 => vec![1],
        1 => vec![1, dice.between(1, 128) as u8, 0, dice.between(1, 4) as u8],
        _ => {
            let mut table = valid(dice);
            table.truncate(dice.below(table.len() + 1));
            table
        }
    };
    bytes.extend(noise(dice));
    bytes
}
