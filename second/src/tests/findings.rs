//! Races, illegal locks, thresholds and preemption.

use super::{table, w_with};
use crate::calls;
use crate::listing::listing;
use crate::preempt::Ancestry;
use crate::random::draft::Draft;
use crate::random::stream::{V, W};
use crate::random::valid::valid;
use crate::random::Dice;
use crate::table::{Table, PREEMPTIVE, TIME_SLICED};
use crate::{races, thresholds};

#[test]
fn w_has_three_races_and_no_illegal_pair() {
    assert_eq!(races::races(&table(&W)), [(1, 2), (2, 0), (2, 1)]);
    assert_eq!(races::illegal(&table(&W)), []);
}

#[test]
fn six_bytes_hold_the_races_of_w() {
    let mut six = [9; 6];
    assert_eq!(calls::races(&W, &mut six), 3);
    assert_eq!(six, [1, 2, 2, 0, 2, 1]);
    let mut five = [9; 5];
    assert_eq!(calls::races(&W, &mut five), 12 << 32 | 6);
    assert_eq!(five, [9; 5]);
    assert_eq!(calls::illegal(&W, &mut []), 0);
}

#[test]
fn w_listing() {
    let text = "races 3\nrace 257 1 5 2 6\nrace 257 2 6 0 3\nrace 257 2 6 1 5\nillegal 0\n";
    assert_eq!(listing(&W), text);
    assert_eq!(listing(&[]), "refused 1 at 0\n");
    assert_eq!(listing(&w_with(38, 5)), "refused 10 at 35\n");
}

#[test]
fn illegal_lines_name_access_task_and_lock() {
    // Access 0 of task 3 takes the blocking lock of scheduler 2.
    assert_eq!(
        listing(&w_with(32, 2)).lines().last(),
        Some("illegal 0 3 1")
    );
}

#[test]
fn masks_are_no_mutex() {
    // Two time-sliced tasks that both mask the first scheduler still race.
    let draft = Draft {
        nodes: vec![(0, 1), (0, 0), (0, 4), (2, 0), (2, 0)],
        locks: vec![(0, 1, 1)],
        labels: vec![7],
        accesses: vec![(3, 0, 1), (4, 0, 1)],
    };
    assert_eq!(races::races(&table(&draft.bytes())), [(0, 1), (1, 0)]);
}

#[test]
fn numbers_of_v() {
    let none = 255;
    let expected = [
        none, none, none, none, 1, 1, none, none, 0, 0, 0, 0, 2, 2, 3, 2,
    ];
    assert_eq!(thresholds::thresholds(&table(&V)), Ok(expected.to_vec()));
    let mut out = [7; 17];
    assert_eq!(calls::thresholds(&V, &mut out), 16);
    assert_eq!((&out[..16], out[16]), (&expected[..], 7));
    assert_eq!(calls::thresholds(&V, &mut [0; 15]), 12 << 32 | 16);
}

#[test]
fn no_thresholds_comes_before_a_short_buffer() {
    assert_eq!(calls::thresholds(&W, &mut []), 13 << 32);
    // A root that is a task; a childless scheduler of kind 4; one under FIFO.
    assert_eq!(calls::thresholds(&[1, 1, 0, 0, 0, 0, 0], &mut [9, 9]), 2);
    assert_eq!(
        calls::thresholds(&[1, 1, 0, 4, 0, 0, 0], &mut [9, 9]),
        13 << 32
    );
    assert_eq!(
        calls::thresholds(&[1, 2, 0, 3, 0, 1, 0, 0, 0], &mut [9; 4]),
        13 << 32
    );
}

/// Preemption in the document's words, by walking up: the first scheduler
/// above u that is also above t, and the child that each came through.
fn preempts_by_walking(table: &Table, t: usize, u: usize) -> bool {
    if t == u || !table.is_task(t) || !table.is_task(u) {
        return false;
    }
    let mut child_of_u = u;
    loop {
        let p = table.nodes[child_of_u].parent;
        let mut child_of_t = t;
        while child_of_t != 0 {
            if table.nodes[child_of_t].parent == p {
                let kind = table.nodes[p].kind;
                return kind == TIME_SLICED || kind == PREEMPTIVE && child_of_t < child_of_u;
            }
            child_of_t = table.nodes[child_of_t].parent;
        }
        child_of_u = p;
    }
}

#[test]
fn the_sets_agree_with_walking_up() {
    let mut dice = Dice::new(2);
    for _ in 0..300 {
        let table = table(&valid(&mut dice));
        let ancestry = Ancestry::of(&table);
        for t in 0..table.nodes.len() + 2 {
            for u in 0..table.nodes.len() + 2 {
                assert_eq!(
                    ancestry.may_preempt(t, u),
                    preempts_by_walking(&table, t, u)
                );
            }
        }
    }
}

#[test]
fn preemption_asked_of_strange_numbers() {
    assert_eq!(calls::preempts(&W, 3, 5), 1);
    assert_eq!(calls::preempts(&W, 5, 3), 0);
    assert_eq!(calls::preempts(&W, 5, 6), 1);
    assert_eq!(calls::preempts(&W, 3, 4), 1);
    assert_eq!(calls::preempts(&W, 256 + 3, 5), 0);
    assert_eq!(calls::preempts(&W, usize::MAX, 5), 0);
    assert_eq!(calls::preempts(&W[..44], 0, 0), 1 << 32 | 44);
}
