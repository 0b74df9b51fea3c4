//! How many races a table has: `count < TABLE`. Links libchinebright.a, so it is for x86-64.

use std::io::Read;

extern "C" {
    fn chinebright_races(table: *const u8, table_length: usize, out: *mut u8, out_length: usize) -> u64;
}

/// The number of races, or the refusal's number and place.
fn races(table: &[u8]) -> Result<u32, (u32, u32)> {
    let mut pairs = vec![0u8; 2 * 128 * 128];
    // SAFETY: both are lent with their own length, and are apart.
    let answer = unsafe { chinebright_races(table.as_ptr(), table.len(), pairs.as_mut_ptr(), pairs.len()) };
    match (answer >> 32, answer as u32) {
        (0, count) => Ok(count),
        (number, place) => Err((number as u32, place)),
    }
}

fn main() {
    let mut table = Vec::new();
    std::io::stdin().read_to_end(&mut table).expect("standard input");
    match races(&table) {
        Ok(count) => println!("races {count}"),
        Err((number, place)) => println!("refused {number} at {place}"),
    }
}
