//! Compares the library, through its C interface, with the second program:
//! answers, and every byte of every lent buffer. A program of its own, the
//! caller, has the library in it and runs beside this one.

mod asking;
mod call;
mod caller;
mod check;
mod lists;
mod machine;
mod preempts;
mod read;

use std::process::ExitCode;
use std::sync::mpsc::Receiver;

use second::arguments::{arguments_and, hex, Arguments};
use second::tally::Tally;

use asking::{start_asking, Asked, Batch, Plan};
use call::Call;
use caller::{start_caller, Caller};
use check::Check;

const TABLES: usize = 10_000;
const SEED: u64 = 20_250_117;

fn main() -> ExitCode {
    let (arguments, calls, command) = match understand() {
        Ok(understood) => understood,
        Err(trouble) => {
            eprintln!("{trouble}");
            return ExitCode::from(2);
        }
    };
    println!("seed {}", arguments.seed);
    let mut tally = Tally::default();
    if let Err(trouble) = compare(&arguments, &calls, &command, &mut tally) {
        println!("after {} tables: {trouble}", tally.tables);
        return ExitCode::FAILURE;
    }
    tally.print();
    let missing = not_met(&calls, &tally);
    for what in &missing {
        println!("never met: {what}");
    }
    if !missing.is_empty() {
        println!("compared {} tables: too little was met", tally.tables);
        return ExitCode::FAILURE;
    }
    println!("compared {} tables: no difference", tally.tables);
    ExitCode::SUCCESS
}

/// The arguments, the calls to compare, and how to start the caller.
fn understand() -> Result<(Arguments, Vec<Call>, String), String> {
    let mut arguments = arguments_and(TABLES, SEED, &["--caller", "--calls"])?;
    let calls = match arguments.own.remove("--calls") {
        Some(names) => names
            .split(',')
            .map(Call::named)
            .collect::<Result<_, _>>()?,
        None => Call::ALL.to_vec(),
    };
    let command = arguments.own.remove("--caller");
    let command = command.ok_or("say how to start the caller: --caller 'PROGRAM ARGUMENTS'")?;
    Ok((arguments, calls, command))
}

/// Compares all tables, or says what ended it.
fn compare(
    arguments: &Arguments,
    calls: &[Call],
    command: &str,
    tally: &mut Tally,
) -> Result<(), String> {
    let (mut caller, requests) = start_caller(command)?;
    let plan = Plan {
        seed: arguments.seed,
        tables: arguments.tables,
        calls: calls.to_vec(),
        one_by_one: arguments.trace,
    };
    let asked = start_asking(plan, requests);
    let compared = compare_tables(arguments.trace, asked, &mut caller, tally);
    let compared = compared.and_then(|()| caller.end());
    caller.stop();
    compared
}

fn compare_tables(
    trace: bool,
    asked: Receiver<Batch>,
    caller: &mut Caller,
    tally: &mut Tally,
) -> Result<(), String> {
    for Asked { table, checks } in asked.into_iter().flatten() {
        if trace {
            eprintln!("table {}: {}", tally.tables, hex(&table));
        }
        tally.table(&table);
        for check in checks {
            compare_call(&check, &table, caller)?;
            check.count(tally);
        }
    }
    Ok(())
}

fn compare_call(check: &Check, table: &[u8], caller: &mut Caller) -> Result<(), String> {
    let Some(reply) = caller.reply(check) else {
        let theirs = format!("the caller ended, {}", caller.status());
        return Err(check.difference(table, &theirs));
    };
    if !reply.in_library {
        let name = check.call.name();
        return Err(format!("chinebright_{name} is not in the library"));
    }
    check.compare(table, &reply)
}

/// What the run should have met, and did not.
fn not_met(calls: &[Call], tally: &Tally) -> Vec<String> {
    let mut missing = tally.tables_not_met();
    for &call in calls {
        missing.extend(match call {
            Call::Read => read::not_met(tally),
            Call::Preempts => preempts::not_met(tally),
            Call::Step => machine::not_met(tally),
            _ => lists::not_met(call, tally),
        });
    }
    missing
}
