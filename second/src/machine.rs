//! The stepping machine. A state has 128 places: 0 idle, 1 active, 2 + i
//! inside access i.

use crate::locks::{blocking_part, masked_nodes};
use crate::preempt::Ancestry;
use crate::table::{Access, Refusal, Table};

pub const PLACES: usize = 128;
pub type State = [u8; PLACES];

pub const IDLE: u8 = 0;
pub const ACTIVE: u8 = 1;

pub const START: u8 = 0;
pub const OPEN: u8 = 1;
pub const CLOSE: u8 = 2;
pub const FINISH: u8 = 3;

/// All 128 places idle.
pub fn fresh() -> State {
    [IDLE; PLACES]
}

/// The state after a granted step, or why the step is refused. The number is
/// a task, for open an access.
pub fn step(table: &Table, state: &[u8], kind: u8, number: usize) -> Result<State, Refusal> {
    let mut state = well_formed(table, state).ok_or(refusal(14))?;
    let task = task_of_step(table, kind, number).ok_or(refusal(15))?;
    let after = after_step(state[task], kind, number).ok_or(refusal(16))?;
    if !may_take_processor(table, &state, task) {
        return Err(refusal(17));
    }
    if kind == OPEN && lock_is_held(table, &state, &table.accesses[number]) {
        return Err(refusal(18));
    }
    state[task] = after;
    Ok(state)
}

fn refusal(number: u32) -> Refusal {
    Refusal { number, place: 0 }
}

/// The lent bytes as a state, if they are a well-formed one.
pub fn well_formed(table: &Table, bytes: &[u8]) -> Option<State> {
    let state: State = bytes.try_into().ok()?;
    (0..PLACES)
        .all(|n| place_fits(table, n, state[n]))
        .then_some(state)
}

fn place_fits(table: &Table, n: usize, value: u8) -> bool {
    match value {
        IDLE => true,
        ACTIVE => table.is_task(n),
        _ => open_access(table, value).is_some_and(|access| access.task == n),
    }
}

/// The access that a place's value says is open, if there is one.
fn open_access(table: &Table, value: u8) -> Option<&Access> {
    let number = usize::from(value).checked_sub(2)?;
    table.accesses.get(number)
}

/// The task that a step is about, if the step names one.
fn task_of_step(table: &Table, kind: u8, number: usize) -> Option<usize> {
    match kind {
        OPEN => table.accesses.get(number).map(|access| access.task),
        START | CLOSE | FINISH => table.is_task(number).then_some(number),
        _ => None,
    }
}

/// The task's new value, if the step fits its phase.
fn after_step(value: u8, kind: u8, number: usize) -> Option<u8> {
    match (kind, value) {
        (START, IDLE) => Some(ACTIVE),
        // The access exists, so its number is at most 127.
        (OPEN, ACTIVE) => Some(2 + number as u8),
        (CLOSE, 2..) => Some(ACTIVE),
        (FINISH, ACTIVE) => Some(IDLE),
        _ => None,
    }
}

/// Every other active task counts, inside or outside.
fn may_take_processor(table: &Table, state: &State, task: usize) -> bool {
    let ancestry = Ancestry::of(table);
    others(state, task).all(|(other, value)| {
        let masked = match open_access(table, value) {
            Some(open) => masked_nodes(table, open.set),
            None => 0,
        };
        ancestry.may_preempt(task, other) && !ancestry.at_or_below_any(task, masked)
    })
}

/// Is a blocking lock of this access in the set of another task's open access?
fn lock_is_held(table: &Table, state: &State, access: &Access) -> bool {
    let wanted = blocking_part(table, access.set);
    others(state, access.task)
        .filter_map(|(_, value)| open_access(table, value))
        .any(|open| open.set & wanted != 0)
}

/// The other tasks that are not idle, each with its place's value.
fn others(state: &State, task: usize) -> impl Iterator<Item = (usize, u8)> + '_ {
    let places = state.iter().copied().enumerate();
    places.filter(move |&(other, value)| other != task && value != IDLE)
}
