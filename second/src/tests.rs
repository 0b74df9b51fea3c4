//! Document 01's worked examples, and the limits on both sides.

mod findings;
mod machine;
mod reading;

use crate::random::stream::W;
use crate::table::{read, Table};

/// W with one byte set to another value.
fn w_with(place: usize, value: u8) -> Vec<u8> {
    let mut bytes = W.to_vec();
    bytes[place] = value;
    bytes
}

fn table(bytes: &[u8]) -> Table {
    read(bytes).expect("a valid table")
}

#[test]
fn w_as_the_document_writes_it() {
    let text = "01 07 0001 0001 0004 0100 0100 0200 0200 02 000101 020000 01 0101 \
                03 030000000000 050000000001 060000000002";
    let digits: String = text.split_whitespace().collect();
    assert_eq!(crate::arguments::hex(&W), digits);
}
