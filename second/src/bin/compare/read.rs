//! The call `read`.

use second::calls;
use second::tally::Tally;

use crate::call::Call;
use crate::check::Check;

pub fn not_met(tally: &Tally) -> Vec<String> {
    tally.not_met("read", &[0, 1, 2, 3, 4, 5, 6, 7, 8, 9, 10, 11])
}

pub fn add(table: &[u8], checks: &mut Vec<Check>) {
    checks.push(Check::lent(Call::Read, Vec::new(), |_| calls::read(table)));
}
