//! The public calls, on slices. Each answers the refusal number (0 where there
//! is none) times 2^32 plus a value: the answer, or the refusal's place. A
//! refused call leaves every lent byte as found; an accepted one writes the
//! bytes of its answer from the start of the buffer, and no other.

use crate::table::{Refusal, Table};
use crate::{machine, preempt, races, table, thresholds};

type Answer = Result<usize, Refusal>;

pub fn read(bytes: &[u8]) -> u64 {
    number(table::read(bytes).map(|_| 0))
}

/// May task t preempt task u?
pub fn preempts(bytes: &[u8], t: usize, u: usize) -> u64 {
    let may = |table: Table| preempt::Ancestry::of(&table).may_preempt(t, u);
    number(table::read(bytes).map(|table| usize::from(may(table))))
}

pub fn races(bytes: &[u8], out: &mut [u8]) -> u64 {
    number(table::read(bytes).and_then(|table| write_pairs(races::races(&table), out)))
}

pub fn illegal(bytes: &[u8], out: &mut [u8]) -> u64 {
    number(table::read(bytes).and_then(|table| write_pairs(races::illegal(&table), out)))
}

/// Refusal 13 comes before 12.
pub fn thresholds(bytes: &[u8], out: &mut [u8]) -> u64 {
    let answer = table::read(bytes).and_then(|table| thresholds::thresholds(&table));
    number(answer.and_then(|numbers| write(&numbers, out)))
}

pub fn fresh(state: &mut [u8]) -> u64 {
    number(write(&machine::fresh(), state))
}

pub fn step(bytes: &[u8], state: &mut [u8], kind: u8, n: usize) -> u64 {
    let answer = table::read(bytes).and_then(|table| machine::step(&table, state, kind, n));
    number(answer.map(|after| {
        state.copy_from_slice(&after);
        0
    }))
}

/// Only 12 can refuse it: a refused table has a text too.
pub fn listing(bytes: &[u8], out: &mut [u8]) -> u64 {
    number(write(crate::listing::listing(bytes).as_bytes(), out))
}

fn number(answer: Answer) -> u64 {
    match answer {
        Ok(value) => value as u64,
        Err(refusal) => u64::from(refusal.number) << 32 | refusal.place as u64,
    }
}

/// Two bytes a pair; answers the number of pairs.
fn write_pairs(pairs: Vec<(u8, u8)>, out: &mut [u8]) -> Answer {
    let bytes: Vec<u8> = pairs
        .iter()
        .flat_map(|&(first, second)| [first, second])
        .collect();
    write(&bytes, out).map(|_| pairs.len())
}

/// All the bytes or none; answers the number of bytes.
fn write(bytes: &[u8], out: &mut [u8]) -> Answer {
    let needed = bytes.len();
    let Some(part) = out.get_mut(..needed) else {
        return Err(Refusal {
            number: 12,
            place: needed,
        });
    };
    part.copy_from_slice(bytes);
    Ok(needed)
}
