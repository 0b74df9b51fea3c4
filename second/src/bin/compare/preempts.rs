//! The call `preempts`.

use second::calls;
use second::random::steps::odd_number;
use second::table::read;
use second::tally::Tally;

use crate::asking::Chance;
use crate::call::Call;
use crate::check::Check;

const YES: &str = "preempts: answers yes";

pub fn not_met(tally: &Tally) -> Vec<String> {
    let refusals = tally.not_met("preempts", &[0, 1, 2, 3, 4, 5, 6, 7, 8, 9, 10, 11]);
    [refusals, tally.note_not_met(YES)].concat()
}

/// Up to this many nodes every pair is asked.
const SMALL: usize = 9;

pub fn add(table: &[u8], chance: &mut Chance, checks: &mut Vec<Check>) {
    let dice = &mut chance.dice;
    let mut ask = |t, u| checks.push(check(table, t, u));
    let Ok(parsed) = read(table) else {
        return ask(dice.below(10), dice.below(300));
    };
    let nodes = parsed.nodes.len();
    if nodes <= SMALL {
        for t in 0..nodes + 2 {
            for u in 0..nodes + 2 {
                ask(t, u);
            }
        }
    }
    let tasks: Vec<usize> = (0..nodes).filter(|&n| parsed.is_task(n)).collect();
    for _ in 0..40 {
        let any = (dice.below(nodes + 1), dice.below(nodes + 1));
        let (t, u) = if tasks.is_empty() || dice.chance(20) {
            any
        } else {
            (dice.pick(&tasks), dice.pick(&tasks))
        };
        ask(t, u);
    }
    for _ in 0..8 {
        let (t, u) = (dice.below(nodes), dice.below(nodes));
        let odd = odd_number(dice, t);
        ask(odd, u);
        ask(u, odd);
        ask(odd, odd);
    }
}

fn check(table: &[u8], t: usize, u: usize) -> Check {
    let mut check = Check::lent(Call::Preempts, Vec::new(), |_| calls::preempts(table, t, u));
    (check.first, check.second) = (t as u64, u as u64);
    if check.answer == 1 {
        check.notes.push(YES);
    }
    check
}
