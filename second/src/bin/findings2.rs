//! Reads a table from standard input and writes its findings.

use std::io::{self, Read, Write};

use second::listing::listing;
use second::table::LONGEST;

fn main() -> io::Result<()> {
    // One byte beyond the longest table is enough to know that bytes follow.
    let mut bytes = Vec::new();
    io::stdin()
        .take(LONGEST as u64 + 1)
        .read_to_end(&mut bytes)?;
    io::stdout().write_all(listing(&bytes).as_bytes())
}
