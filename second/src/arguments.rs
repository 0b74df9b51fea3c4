//! The arguments of the programs: `--tables N`, `--seed S`, `--trace`, and
//! those of one program alone.

use std::collections::BTreeMap;

pub struct Arguments {
    pub tables: usize,
    pub seed: u64,
    /// Write each table to standard error before it is used.
    pub trace: bool,
    /// What the program's own arguments were set to.
    pub own: BTreeMap<&'static str, String>,
}

/// What the user asked for, or how to ask.
pub fn arguments(tables: usize, seed: u64) -> Result<Arguments, String> {
    arguments_and(tables, seed, &[])
}

/// The same for a program with arguments of its own, each with a value.
pub fn arguments_and(tables: usize, seed: u64, own: &[&'static str]) -> Result<Arguments, String> {
    let mut found = Arguments {
        tables,
        seed,
        trace: false,
        own: BTreeMap::new(),
    };
    let mut words = std::env::args().skip(1);
    while let Some(word) = words.next() {
        match word.as_str() {
            "--tables" => found.tables = value(words.next())?,
            "--seed" => found.seed = value(words.next())?,
            "--trace" => found.trace = true,
            _ => {
                let Some(name) = own.iter().find(|&&name| name == word) else {
                    return Err(how_to_ask(&word, own));
                };
                let value = words.next().ok_or(format!("{name} needs a value"))?;
                found.own.insert(name, value);
            }
        }
    }
    Ok(found)
}

fn how_to_ask(word: &str, own: &[&str]) -> String {
    let known = [own, &["--tables", "--seed", "--trace"]].concat();
    format!("unknown argument {word}: use {}", known.join(", "))
}

fn value<T: std::str::FromStr>(word: Option<String>) -> Result<T, String> {
    let word = word.ok_or("a number is missing")?;
    word.parse().map_err(|_| format!("{word} is no number"))
}

/// Bytes as the user can read and paste them.
pub fn hex(bytes: &[u8]) -> String {
    bytes.iter().map(|byte| format!("{byte:02x}")).collect()
}
