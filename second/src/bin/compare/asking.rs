//! Asking: draws the tables and sends the caller all calls on each, many
//! tables ahead of its replies.

use std::io::Write;
use std::process::ChildStdin;
use std::sync::mpsc::{sync_channel, Receiver, SyncSender};
use std::thread;

use second::random::stream::Stream;
use second::random::Dice;

use crate::call::Call;
use crate::caller::put_request;
use crate::check::Check;
use crate::{lists, machine, preempts, read};

/// A table and the calls asked of it.
pub struct Asked {
    pub table: Vec<u8>,
    pub checks: Vec<Check>,
}

/// Tables whose requests are written together.
pub type Batch = Vec<Asked>;

/// A batch ends when it has so many tables, or so many bytes of requests.
const BATCH_TABLES: usize = 64;
const BATCH_BYTES: usize = 1 << 18;
/// So many batches wait to be compared.
const BATCHES_AHEAD: usize = 4;

/// What to ask.
pub struct Plan {
    pub seed: u64,
    pub tables: usize,
    pub calls: Vec<Call>,
    /// Ask of one table, and of the next when that one has been compared.
    pub one_by_one: bool,
}

/// Chance for what is asked of a table, with other seeds than the tables have.
pub struct Chance {
    pub dice: Dice,
    /// Bytes to fill a lent buffer with.
    pub pattern: Dice,
}

/// Starts to ask, beside the comparing. What is asked comes out of the answer.
pub fn start_asking(plan: Plan, requests: ChildStdin) -> Receiver<Batch> {
    let ahead = if plan.one_by_one { 0 } else { BATCHES_AHEAD };
    let (hand_over, asked) = sync_channel(ahead);
    thread::spawn(move || ask(&plan, &hand_over, requests));
    asked
}

/// Asks until all tables are done or nobody listens any more.
fn ask(plan: &Plan, hand_over: &SyncSender<Batch>, mut requests: ChildStdin) {
    let mut stream = Stream::new(plan.seed);
    let mut chance = Chance {
        dice: Dice::new(!plan.seed),
        pattern: Dice::new(plan.seed ^ 0x5555),
    };
    let mut left = plan.tables;
    while left > 0 {
        let (batch, bytes) = next_batch(plan, left, &mut stream, &mut chance);
        left -= batch.len();
        // Handed over before it is written: so the replies are read while the
        // requests are written, and nobody waits for ever.
        if hand_over.send(batch).is_err() || requests.write_all(&bytes).is_err() {
            return;
        }
    }
}

/// Some tables with their checks, and the requests as bytes.
fn next_batch(
    plan: &Plan,
    left: usize,
    stream: &mut Stream,
    chance: &mut Chance,
) -> (Batch, Vec<u8>) {
    let most = if plan.one_by_one { 1 } else { BATCH_TABLES };
    let mut batch = Vec::new();
    let mut bytes = Vec::new();
    while batch.len() < most.min(left) && bytes.len() < BATCH_BYTES {
        let table = stream.table();
        let mut checks = Vec::new();
        for &call in &plan.calls {
            add_checks(call, &table, chance, &mut checks);
        }
        for check in &checks {
            put_request(check, &table, &mut bytes);
        }
        batch.push(Asked { table, checks });
    }
    (batch, bytes)
}

fn add_checks(call: Call, table: &[u8], chance: &mut Chance, checks: &mut Vec<Check>) {
    match call {
        Call::Read => read::add(table, checks),
        Call::Preempts => preempts::add(table, chance, checks),
        Call::Step => machine::add(table, chance, checks),
        Call::Races | Call::Illegal | Call::Thresholds | Call::Fresh | Call::Listing => {
            lists::add(call, table, chance, checks)
        }
    }
}
