//! Writes the first tables of a comparison's stream, each into a file of its
//! own, for the fuzzer to begin with: `seeds --into FOLDER --tables N`.

use std::path::Path;
use std::process::ExitCode;

use second::arguments::arguments_and;
use second::random::stream::Stream;

const TABLES: usize = 1000;
const SEED: u64 = 20_250_117;

fn main() -> ExitCode {
    match write_seeds() {
        Ok(()) => ExitCode::SUCCESS,
        Err(trouble) => {
            eprintln!("{trouble}");
            ExitCode::from(2)
        }
    }
}

fn write_seeds() -> Result<(), String> {
    let asked = arguments_and(TABLES, SEED, &["--into"])?;
    let folder = asked
        .own
        .get("--into")
        .ok_or("say where to: --into FOLDER")?;
    let mut stream = Stream::new(asked.seed);
    for n in 0..asked.tables {
        let path = Path::new(folder).join(format!("table-{n}"));
        std::fs::write(&path, stream.table())
            .map_err(|why| format!("{}: {why}", path.display()))?;
    }
    Ok(())
}
