//! Which tables are read, and where the first fault of the others is.

use super::w_with;
use crate::random::damaged::Layout;
use crate::random::stream::{Stream, W};
use crate::random::valid::{maximal, valid};
use crate::random::Dice;
use crate::table::{read, Refusal, LONGEST};

fn refused(bytes: &[u8]) -> (u32, usize) {
    let Err(Refusal { number, place }) = read(bytes) else {
        panic!("not refused");
    };
    (number, place)
}

#[test]
fn damaged_w() {
    assert_eq!(refused(&[]), (1, 0));
    assert_eq!(refused(&W[..44]), (1, 44));
    assert_eq!(refused(&[&W[..], &[0]].concat()), (11, 45));
    assert_eq!(refused(&w_with(4, 1)), (4, 4));
    assert_eq!(refused(&w_with(19, 3)), (7, 19));
    assert_eq!(refused(&w_with(27, 2)), (8, 27));
    assert_eq!(refused(&w_with(38, 5)), (10, 35));
}

#[test]
fn other_faults() {
    assert_eq!(refused(&w_with(0, 0)), (2, 0));
    assert_eq!(refused(&w_with(1, 0)), (3, 1));
    assert_eq!(refused(&w_with(2, 1)), (4, 2));
    assert_eq!(refused(&w_with(5, 5)), (5, 5));
    assert_eq!(refused(&w_with(17, 3)), (6, 17));
    assert_eq!(refused(&w_with(18, 2)), (5, 18));
    assert_eq!(refused(&w_with(19, 0)), (7, 19));
    assert_eq!(refused(&w_with(22, 1)), (7, 22));
    assert_eq!(refused(&w_with(28, 1)), (9, 28));
    // A record is complete before its fields are tested; a section need not be.
    assert_eq!(refused(&[1, 3, 0, 1, 5, 1]), (4, 4));
    assert_eq!(refused(&[1, 3, 0, 1, 5]), (1, 5));
    // A task as root with more nodes: the next node has no scheduler.
    assert_eq!(refused(&[1, 2, 0, 0, 0, 0, 0, 0, 0]), (4, 4));
    assert_eq!(refused(&[1, 2, 0, 0, 0]), (1, 5));
    assert!(read(&[1, 1, 0, 0, 0, 0, 0]).is_ok());
}

#[test]
fn limits_on_both_sides() {
    let bytes = maximal(&mut Dice::new(1));
    assert_eq!(bytes.len(), 1253);
    assert!(read(&bytes).is_ok());
    let layout = Layout::of(&bytes);
    for count in [
        layout.nodes,
        layout.locks,
        layout.resources,
        layout.accesses,
    ] {
        let mut more = bytes.clone();
        more[count] += 1;
        assert_eq!(refused(&more), (3, count));
    }
    assert_eq!(refused(&bytes[..1252]), (1, 1252));
    assert_eq!(refused(&[&bytes[..], &[1]].concat()), (11, 1253));
}

#[test]
fn random_valid_tables_are_valid() {
    let mut dice = Dice::new(3);
    for _ in 0..2000 {
        assert!(read(&valid(&mut dice)).is_ok());
    }
}

#[test]
fn one_byte_beyond_the_longest_is_enough() {
    let mut stream = Stream::new(4);
    for _ in 0..5000 {
        let bytes = stream.table();
        let cut = &bytes[..bytes.len().min(LONGEST + 1)];
        assert_eq!(read(cut), read(&bytes));
    }
}
