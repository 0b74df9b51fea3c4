//! An outside check of the theorem: on small random tables every state that
//! the second program's machine reaches from fresh, against its race list.

use std::collections::{BTreeSet, HashSet, VecDeque};
use std::process::ExitCode;

use second::arguments::{arguments, hex};
use second::machine::{fresh, step, State, ACTIVE, CLOSE, FINISH, IDLE, OPEN, START};
use second::races::races;
use second::random::valid::tiny;
use second::random::Dice;
use second::table::{read, Table};

const TABLES: usize = 1000;
const SEED: u64 = 31_415;
/// More states than any table of this size has.
const MOST_STATES: usize = 100_000;

#[derive(Default)]
struct Seen {
    with_races: usize,
    races: usize,
    states: usize,
    granted: usize,
    meetings: usize,
    deepest: usize,
}

fn main() -> ExitCode {
    let asked = match arguments(TABLES, SEED) {
        Ok(asked) => asked,
        Err(trouble) => {
            eprintln!("{trouble}");
            return ExitCode::from(2);
        }
    };
    println!("seed {}", asked.seed);
    let mut dice = Dice::new(asked.seed);
    let mut seen = Seen::default();
    for n in 0..asked.tables {
        let bytes = tiny(&mut dice);
        if asked.trace {
            eprintln!("table {n}: {}", hex(&bytes));
        }
        if let Err(exception) = explore(&bytes, &mut seen) {
            println!("table {n}: {}\n{exception}", hex(&bytes));
            return ExitCode::FAILURE;
        }
    }
    println!("states {}, granted steps {}", seen.states, seen.granted);
    println!("most tasks active at once {}", seen.deepest);
    println!(
        "tables with races {}, races {}",
        seen.with_races, seen.races
    );
    println!(
        "states with two tasks inside one resource {}",
        seen.meetings
    );
    let without = asked.tables - seen.with_races;
    if asked.tables > 0 && (seen.with_races == 0 || without == 0) {
        println!("explored {} tables: too little was met", asked.tables);
        return ExitCode::FAILURE;
    }
    println!("explored {} tables: no exception", asked.tables);
    ExitCode::SUCCESS
}

fn explore(bytes: &[u8], seen: &mut Seen) -> Result<(), String> {
    let table = read(bytes).map_err(|refusal| format!("refused: {refusal:?}"))?;
    let races = races(&table);
    let states = reached(&table, seen)?;
    seen.states += states.len();
    seen.races += races.len();
    seen.with_races += usize::from(!races.is_empty());
    let meetings = check_meetings(&table, &states, &races)?;
    seen.meetings += meetings;
    if (meetings > 0) == races.is_empty() {
        return Err(format!(
            "{} races, but {meetings} states with a meeting",
            races.len()
        ));
    }
    for &race in &races {
        check_race_is_reached(&table, race)?;
    }
    check_draining(&table, &states)
}

/// Every step that names a task or an access.
fn steps(table: &Table) -> Vec<(u8, usize)> {
    let mut steps = Vec::new();
    for n in (0..table.nodes.len()).filter(|&n| table.is_task(n)) {
        steps.extend([START, CLOSE, FINISH].map(|kind| (kind, n)));
    }
    steps.extend((0..table.accesses.len()).map(|i| (OPEN, i)));
    steps
}

/// Every state that granted steps lead to from fresh.
fn reached(table: &Table, seen: &mut Seen) -> Result<HashSet<State>, String> {
    let steps = steps(table);
    let mut states = HashSet::from([fresh()]);
    let mut waiting = VecDeque::from([fresh()]);
    while let Some(state) = waiting.pop_front() {
        seen.deepest = seen
            .deepest
            .max(state.iter().filter(|&&value| value != IDLE).count());
        for &(kind, n) in &steps {
            let Ok(after) = step(table, &state, kind, n) else {
                continue;
            };
            seen.granted += 1;
            if states.insert(after) {
                waiting.push_back(after);
            }
        }
        if states.len() > MOST_STATES {
            return Err("more states than can be explored".to_string());
        }
    }
    Ok(states)
}

/// In how many states two tasks are inside one resource. Each such pair of
/// accesses must be a reported race, in one order or the other.
fn check_meetings(
    table: &Table,
    states: &HashSet<State>,
    races: &[(u8, u8)],
) -> Result<usize, String> {
    let races: BTreeSet<(u8, u8)> = races.iter().copied().collect();
    let mut meetings = 0;
    for state in states {
        let open: Vec<u8> = state
            .iter()
            .filter(|&&value| value > ACTIVE)
            .map(|v| v - 2)
            .collect();
        let mut met = false;
        for (n, &i) in open.iter().enumerate() {
            for &j in &open[n + 1..] {
                let resource = |access: u8| table.accesses[usize::from(access)].resource;
                if resource(i) != resource(j) {
                    continue;
                }
                met = true;
                if !races.contains(&(i, j)) && !races.contains(&(j, i)) {
                    return Err(format!(
                        "accesses {i} and {j} are open at once, and no race"
                    ));
                }
            }
        }
        meetings += usize::from(met);
    }
    Ok(meetings)
}

/// Start, open, start, open: four granted steps lead to the race.
fn check_race_is_reached(table: &Table, (i, j): (u8, u8)) -> Result<(), String> {
    let mut state = fresh();
    for access in [i, j].map(usize::from) {
        let task = table.accesses[access].task;
        for (kind, n) in [(START, task), (OPEN, access)] {
            state = step(table, &state, kind, n).map_err(|refusal| {
                format!(
                    "race ({i}, {j}): step {kind} of {n} refused with {}",
                    refusal.number
                )
            })?;
        }
    }
    Ok(())
}

/// What is left to do: one finish for an active task, a close more if it is
/// inside. So it is at most two for each active task.
fn left_to_do(state: &State) -> usize {
    state.iter().map(|&value| usize::from(value.min(2))).sum()
}

/// Closes and finishes alone lead from every state to all idle. Each lowers
/// what is left to do by one, so states are tried from the least upward.
fn check_draining(table: &Table, states: &HashSet<State>) -> Result<(), String> {
    let mut rising: Vec<&State> = states.iter().collect();
    rising.sort_by_key(|state| left_to_do(state));
    let mut draining: HashSet<State> = HashSet::new();
    for state in rising {
        let tasks = || (0..table.nodes.len()).filter(|&n| state[n] != IDLE);
        let closes_and_finishes = tasks().flat_map(|n| [(CLOSE, n), (FINISH, n)]);
        let drains = left_to_do(state) == 0
            || closes_and_finishes
                .filter_map(|(kind, n)| step(table, state, kind, n).ok())
                .any(|after| {
                    left_to_do(&after) + 1 == left_to_do(state) && draining.contains(&after)
                });
        if !drains {
            return Err(format!("no way to idle from state {}", hex(state)));
        }
        draining.insert(*state);
    }
    Ok(())
}
