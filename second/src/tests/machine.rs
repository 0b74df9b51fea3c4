//! Runs of the machine, and states that it does not take.

use super::{table, w_with};
use crate::calls;
use crate::machine::{fresh, step, CLOSE, FINISH, OPEN, START};
use crate::random::stream::W;

/// Plays the steps on W from fresh; the refusal number of each, 0 for granted.
fn play(steps: &[(u8, usize)]) -> Vec<u64> {
    let mut state = fresh();
    steps
        .iter()
        .map(|&(kind, n)| calls::step(&W, &mut state, kind, n) >> 32)
        .collect()
}

#[test]
fn two_runs_on_w() {
    assert_eq!(
        play(&[(START, 6), (OPEN, 2), (START, 3), (OPEN, 0)]),
        [0, 0, 0, 0]
    );
    assert_eq!(play(&[(START, 5), (OPEN, 1), (START, 3)]), [0, 0, 17]);
}

#[test]
fn phases_and_names() {
    assert_eq!(play(&[(OPEN, 1), (CLOSE, 5), (FINISH, 5)]), [16, 16, 16]);
    assert_eq!(
        play(&[(START, 5), (START, 5), (CLOSE, 5), (FINISH, 5)]),
        [0, 16, 16, 0]
    );
    assert_eq!(
        play(&[(START, 5), (OPEN, 1), (OPEN, 1), (FINISH, 5)]),
        [0, 0, 16, 16]
    );
    assert_eq!(play(&[(START, 0), (START, 7), (OPEN, 3), (4, 5)]), [15; 4]);
    assert_eq!(
        play(&[(START, 256 + 5), (OPEN, 256), (START, usize::MAX)]),
        [15; 3]
    );
}

#[test]
fn a_held_lock_refuses_the_open() {
    // Access 1 takes the blocking lock that access 2 has.
    let bytes = w_with(38, 2);
    let mut state = fresh();
    for (kind, n) in [(START, 6), (OPEN, 2), (START, 5)] {
        assert_eq!(calls::step(&bytes, &mut state, kind, n), 0);
    }
    let before = state;
    assert_eq!(calls::step(&bytes, &mut state, OPEN, 1), 18 << 32);
    assert_eq!(state, before);
}

#[test]
fn malformed_states() {
    let w = table(&W);
    let number = |state: &[u8]| step(&w, state, 9, 9).map_err(|refusal| refusal.number);
    let with = |place: usize, value: u8| {
        let mut state = fresh();
        state[place] = value;
        state
    };
    assert_eq!(number(&fresh()), Err(15));
    for (place, value) in [(7, 1), (127, 2), (0, 1), (2, 4), (3, 3), (5, 5), (3, 255)] {
        assert_eq!(number(&with(place, value)), Err(14), "{value} at {place}");
    }
    for (place, value) in [(3, 1), (3, 2), (5, 3), (6, 4)] {
        assert_eq!(number(&with(place, value)), Err(15), "{value} at {place}");
    }
    assert_eq!(number(&[0; 127]), Err(14));
    assert_eq!(number(&[0; 129]), Err(14));
}

#[test]
fn fresh_needs_128_bytes() {
    let mut short = [9; 127];
    assert_eq!(calls::fresh(&mut short), 12 << 32 | 128);
    assert_eq!(short, [9; 127]);
    let mut long = [9; 130];
    assert_eq!(calls::fresh(&mut long), 128);
    assert_eq!((&long[..128], &long[128..]), (&[0; 128][..], &[9, 9][..]));
}
