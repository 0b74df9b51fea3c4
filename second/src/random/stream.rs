//! The stream of tables that a comparison goes through: first the tables of
//! document 01 and the limits, then chance.

use std::collections::VecDeque;

use super::damaged::{damaged, other_values, Layout};
use super::noise::{noise, noise_after_beginning};
use super::valid::{maximal, valid};
use super::Dice;

/// Table W of document 01.
pub const W: [u8; 45] = [
    1, 7, 0, 1, 0, 1, 0, 4, 1, 0, 1, 0, 2, 0, 2, 0, 2, 0, 1, 1, 2, 0, 0, 1, 1, 1, 3, 3, 0, 0, 0, 0,
    0, 5, 0, 0, 0, 0, 1, 6, 0, 0, 0, 0, 2,
];

/// Table V of document 01.
pub const V: [u8; 21] = [
    1, 8, 0, 1, 0, 3, 0, 0, 0, 2, 1, 0, 1, 0, 3, 0, 3, 0, 0, 0, 0,
];

/// An endless row of tables, valid, damaged and noise.
pub struct Stream {
    dice: Dice,
    waiting: VecDeque<Vec<u8>>,
}

impl Stream {
    pub fn new(seed: u64) -> Self {
        let mut dice = Dice::new(seed);
        let mut waiting = VecDeque::from([W.to_vec(), V.to_vec()]);
        waiting.extend(limits(&mut dice));
        waiting.extend(every_cut(&W));
        waiting.extend(every_change(&W));
        Stream { dice, waiting }
    }

    pub fn table(&mut self) -> Vec<u8> {
        if let Some(table) = self.waiting.pop_front() {
            return table;
        }
        let dice = &mut self.dice;
        match dice.below(200) {
            0 => {
                let table = maximal(dice);
                let worse = damaged(dice, &table);
                self.waiting.push_back(worse);
                table
            }
            1 => {
                let table = valid(dice);
                self.waiting.extend(some_of(dice, every_cut(&table), 100));
                table
            }
            2 => {
                let table = valid(dice);
                self.waiting
                    .extend(some_of(dice, every_change(&table), 150));
                table
            }
            3..=99 => valid(dice),
            100..=180 => {
                let table = valid(dice);
                damaged(dice, &table)
            }
            181..=190 => noise(dice),
            _ => noise_after_beginning(dice),
        }
    }
}

/// The table cut short after each of its bytes.
fn every_cut(table: &[u8]) -> Vec<Vec<u8>> {
    (0..table.len())
        .map(|length| table[..length].to_vec())
        .collect()
}

/// The table with each byte changed, to several values one after another.
fn every_change(table: &[u8]) -> Vec<Vec<u8>> {
    let mut tables = Vec::new();
    for place in 0..table.len() {
        for value in other_values(table[place]) {
            let mut changed = table.to_vec();
            changed[place] = value;
            tables.push(changed);
        }
    }
    tables
}

/// At most so many of the tables, one after another from somewhere.
fn some_of(dice: &mut Dice, tables: Vec<Vec<u8>>, most: usize) -> Vec<Vec<u8>> {
    let first = dice.below(tables.len().saturating_sub(most) + 1);
    tables.into_iter().skip(first).take(most).collect()
}

/// The maximal table, then with each count one too many (and a record more),
/// one byte less, one byte more and many.
fn limits(dice: &mut Dice) -> Vec<Vec<u8>> {
    let table = maximal(dice);
    let layout = Layout::of(&table);
    let mut tables = vec![table.clone()];
    let sections = [
        (layout.nodes, 2),
        (layout.locks, 3),
        (layout.resources, 2),
        (layout.accesses, 6),
    ];
    for (count, width) in sections {
        let mut more = table.clone();
        more[count] += 1;
        tables.push(more.clone());
        for byte in 0..width {
            // The section's first record once more: as valid as before.
            more.insert(count + 1 + byte, table[count + 1 + byte]);
        }
        tables.push(more);
    }
    tables.push(table[..table.len() - 1].to_vec());
    for more in [1, 2, 1000] {
        tables.push([table.clone(), vec![0; more]].concat());
    }
    tables
}
