//! The least time of the second program's race list and listing on one table,
//! in nanoseconds: `timing TABLE`.

use second::calls;
use std::hint::black_box;
use std::time::Instant;

fn least(mut call: impl FnMut() -> u64) -> u128 {
    let each = |call: &mut dyn FnMut() -> u64| {
        let start = Instant::now();
        for _ in 0..20 {
            black_box(call());
        }
        start.elapsed().as_nanos() / 20
    };
    (0..20).map(|_| each(&mut call)).min().unwrap_or(0)
}

fn main() {
    let Some(path) = std::env::args().nth(1) else {
        eprintln!("usage: timing TABLE");
        std::process::exit(2);
    };
    let table = std::fs::read(path).expect("the table");
    let mut out = vec![0u8; 1 << 20];
    println!("races {}", least(|| calls::races(&table, &mut out)));
    println!("listing {}", least(|| calls::listing(&table, &mut out)));
}
