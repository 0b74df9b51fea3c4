//! The caller: a program that has the library in it. It is sent requests
//! through a pipe and answers each, in order, through another. Numbers are
//! little-endian.
//!
//! A request: 4 bytes each for the call's number, the table's length, the lent
//! buffer's length and 0; 8 bytes each for two numbers (t and u of `preempts`,
//! kind and n of `step`); the table; the buffer. A reply: 4 bytes each for the
//! status (0 done, 1 not in the library) and the harm done (1 before the
//! table, 2 to the table, 4 before the buffer, or a sum); 8 bytes for the
//! answer; the buffer as it is after the call. `caller/caller.c` says the same.

use std::io::{BufReader, Read};
use std::process::{Child, ChildStdin, ChildStdout, Command, Stdio};

use crate::call::Call;
use crate::check::Check;

pub struct Reply {
    pub in_library: bool,
    pub harm: u32,
    pub answer: u64,
    pub after: Vec<u8>,
}

/// The caller, and its replies.
pub struct Caller {
    child: Child,
    replies: BufReader<ChildStdout>,
}

const CHUNK: usize = 1 << 18;

/// Starts the caller: a program and its arguments, with spaces between. The
/// requests are written to what comes with it.
pub fn start_caller(command: &str) -> Result<(Caller, ChildStdin), String> {
    let mut words = command.split_whitespace();
    let program = words.next().ok_or("--caller names no program")?;
    let started = Command::new(program)
        .args(words)
        .stdin(Stdio::piped())
        .stdout(Stdio::piped())
        .spawn();
    let mut child = started.map_err(|trouble| format!("cannot start {program}: {trouble}"))?;
    let (Some(requests), Some(replies)) = (child.stdin.take(), child.stdout.take()) else {
        return Err(format!("{program} has no pipes"));
    };
    let replies = BufReader::with_capacity(CHUNK, replies);
    Ok((Caller { child, replies }, requests))
}

pub fn put_request(check: &Check, table: &[u8], to: &mut Vec<u8>) {
    let table = match check.call {
        Call::Fresh => &[],
        _ => table,
    };
    let numbers = [
        check.call as u32,
        table.len() as u32,
        check.before.len() as u32,
        0,
    ];
    to.extend(numbers.map(u32::to_le_bytes).as_flattened());
    to.extend(check.first.to_le_bytes());
    to.extend(check.second.to_le_bytes());
    to.extend(table);
    to.extend(&check.before);
}

impl Caller {
    /// The next reply, or nothing where the caller has ended.
    pub fn reply(&mut self, check: &Check) -> Option<Reply> {
        let status = u32::from_le_bytes(self.bytes()?);
        let harm = u32::from_le_bytes(self.bytes()?);
        let answer = u64::from_le_bytes(self.bytes()?);
        let mut after = vec![0; check.before.len()];
        self.replies.read_exact(&mut after).ok()?;
        Some(Reply {
            in_library: status == 0,
            harm,
            answer,
            after,
        })
    }

    fn bytes<const N: usize>(&mut self) -> Option<[u8; N]> {
        let mut bytes = [0; N];
        self.replies.read_exact(&mut bytes).ok()?;
        Some(bytes)
    }

    /// How the caller ended.
    pub fn status(&mut self) -> String {
        match self.child.wait() {
            Ok(status) => status.to_string(),
            Err(trouble) => trouble.to_string(),
        }
    }

    /// After the last reply: the caller says no more, and ends well.
    pub fn end(&mut self) -> Result<(), String> {
        if self.bytes::<1>().is_some() {
            return Err("the caller answers more than it was asked".to_string());
        }
        match self.child.wait() {
            Ok(status) if status.success() => Ok(()),
            _ => Err(format!("the caller ended, {}", self.status())),
        }
    }

    /// Ends the caller, unless it has ended by itself.
    pub fn stop(mut self) {
        if self.child.kill().is_ok() {
            let _ = self.child.wait();
        }
    }
}
