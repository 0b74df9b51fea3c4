//! The calls that write a list into a lent buffer: `races`, `illegal`,
//! `thresholds`, `listing` and `fresh`.

use second::calls;
use second::table::read;
use second::tally::Tally;

use crate::asking::Chance;
use crate::call::Call;
use crate::check::Check;

pub fn not_met(call: Call, tally: &Tally) -> Vec<String> {
    let numbers: &[usize] = match call {
        Call::Thresholds => &[0, 12, 13],
        _ => &[0, 12],
    };
    tally.not_met(call.name(), numbers)
}

/// With more accesses than this the pairs take long.
const MANY_ACCESSES: usize = 24;

/// With buffers of every interesting length: none, too short, one short,
/// exact, longer; with one of these where the list takes long to make.
pub fn add(call: Call, table: &[u8], chance: &mut Chance, checks: &mut Vec<Check>) {
    let none = ours(call, table, &mut []);
    let mut lengths = match (none >> 32, none as u32 as usize) {
        (12, needed) => vec![0, needed / 2, needed - 1, needed, needed + 1, needed + 37],
        _ => vec![0, 1, 40],
    };
    if takes_long(call, table) {
        lengths = vec![chance.dice.pick(&lengths)];
    }
    for length in lengths {
        let before = chance.pattern.bytes(length);
        checks.push(Check::lent(call, before, |out| ours(call, table, out)));
    }
}

fn takes_long(call: Call, table: &[u8]) -> bool {
    let has_pairs = call == Call::Races || call == Call::Listing;
    has_pairs && read(table).is_ok_and(|parsed| parsed.accesses.len() > MANY_ACCESSES)
}

fn ours(call: Call, table: &[u8], out: &mut [u8]) -> u64 {
    match call {
        Call::Races => calls::races(table, out),
        Call::Illegal => calls::illegal(table, out),
        Call::Thresholds => calls::thresholds(table, out),
        Call::Listing => calls::listing(table, out),
        Call::Fresh => calls::fresh(out),
        Call::Read | Call::Preempts | Call::Step => unreachable!("it writes no list"),
    }
}
