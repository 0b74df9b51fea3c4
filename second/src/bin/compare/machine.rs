//! The call `step`: random walks from fresh, well-formed states that no run
//! reaches, and malformed ones. A walk follows our own machine, so that its
//! steps can be asked before the library's answers are known.

use second::calls;
use second::machine::{fresh, ACTIVE, IDLE, OPEN};
use second::random::states::{malformed_state, well_formed_state, MALFORMED};
use second::random::steps::{any_step, choose, odd_step};
use second::table::{read, Table};
use second::tally::Tally;

use crate::asking::Chance;
use crate::call::Call;
use crate::check::Check;

const GRANTED_ON_OTHERS: &str = "step: granted while another task is active";
const GRANTED_OPEN: [&str; 2] = ["step: open granted", "step: open granted beside another"];

pub fn not_met(tally: &Tally) -> Vec<String> {
    let all_refusals: Vec<usize> = (0..=11).chain(14..=18).collect();
    let mut missing = tally.not_met("step", &all_refusals);
    let notes = [GRANTED_ON_OTHERS].into_iter().chain(GRANTED_OPEN);
    for note in notes.chain(MALFORMED) {
        missing.extend(tally.note_not_met(note));
    }
    missing
}

pub fn add(table: &[u8], chance: &mut Chance, checks: &mut Vec<Check>) {
    let Ok(parsed) = read(table) else {
        return add_refused(table, chance, checks);
    };
    let walks = match parsed.nodes.len() {
        1 => 1,
        2..=12 => 3,
        _ => 1,
    };
    for _ in 0..walks {
        add_walk(table, &parsed, chance, checks);
    }
    add_unreached(table, &parsed, chance, checks);
    add_malformed(table, &parsed, chance, checks);
}

/// A refused table: neither state nor step matters.
fn add_refused(table: &[u8], chance: &mut Chance, checks: &mut Vec<Check>) {
    let dice = &mut chance.dice;
    let wrong = dice.between(0, 200);
    for before in [fresh().to_vec(), dice.bytes(128), dice.bytes(wrong)] {
        let step = (dice.below(5) as u8, dice.below(8));
        checks.push(check(table, before, step));
    }
}

/// Steps one after another from fresh, most of them granted.
fn add_walk(table: &[u8], parsed: &Table, chance: &mut Chance, checks: &mut Vec<Check>) {
    let mut state = fresh().to_vec();
    for _ in 0..30 {
        let step = choose(&mut chance.dice, parsed, &state);
        let check = check(table, state, step);
        state = check.after.clone();
        checks.push(check);
    }
}

fn add_unreached(table: &[u8], parsed: &Table, chance: &mut Chance, checks: &mut Vec<Check>) {
    for _ in 0..6 {
        let state = well_formed_state(&mut chance.dice, parsed);
        for _ in 0..3 {
            let step = choose(&mut chance.dice, parsed, &state);
            checks.push(check(table, state.to_vec(), step));
        }
    }
}

fn add_malformed(table: &[u8], parsed: &Table, chance: &mut Chance, checks: &mut Vec<Check>) {
    let dice = &mut chance.dice;
    for (way, name) in MALFORMED.into_iter().enumerate() {
        let Some(state) = malformed_state(dice, parsed, way) else {
            continue;
        };
        let step = match dice.below(3) {
            0 => odd_step(dice, parsed),
            _ => any_step(dice, parsed),
        };
        let mut check = check(table, state, step);
        check.notes.push(name);
        checks.push(check);
    }
}

fn check(table: &[u8], before: Vec<u8>, (kind, n): (u8, usize)) -> Check {
    let ours = |state: &mut [u8]| calls::step(table, state, kind, n);
    let mut check = Check::lent(Call::Step, before, ours);
    (check.first, check.second) = (u64::from(kind), n as u64);
    if check.answer == 0 {
        note_granted(kind, &mut check);
    }
    check
}

fn note_granted(kind: u8, check: &mut Check) {
    let (before, after) = (&check.before, &check.after);
    let others = (0..before.len()).filter(|&n| before[n] != IDLE && before[n] == after[n]);
    let (active, open): (Vec<usize>, Vec<usize>) = others.partition(|&n| before[n] == ACTIVE);
    if !active.is_empty() || !open.is_empty() {
        check.notes.push(GRANTED_ON_OTHERS);
    }
    if kind == OPEN {
        check
            .notes
            .push(GRANTED_OPEN[usize::from(!open.is_empty())]);
    }
}
