//! One call to compare: what is lent, and what the second program makes of it.

use second::arguments::hex;
use second::tally::Tally;

use crate::call::Call;
use crate::caller::Reply;

pub struct Check {
    pub call: Call,
    /// The task t of `preempts`, the kind of `step`.
    pub first: u64,
    /// The task u of `preempts`, the number of `step`.
    pub second: u64,
    /// The lent buffer; no bytes where the call takes none.
    pub before: Vec<u8>,
    /// The second program's answer, and what it leaves in the buffer.
    pub answer: u64,
    pub after: Vec<u8>,
    /// What is worth counting about this call.
    pub notes: Vec<&'static str>,
}

/// The harm that a reply can tell of.
const HARMS: [(u32, &str); 3] = [
    (1, "wrote before the table"),
    (2, "wrote to the table"),
    (4, "wrote before the buffer"),
];

impl Check {
    /// A call that is lent the buffer `before`, made on our side.
    pub fn lent(call: Call, before: Vec<u8>, ours: impl FnOnce(&mut [u8]) -> u64) -> Self {
        let mut after = before.clone();
        let answer = ours(&mut after);
        Check {
            call,
            first: 0,
            second: 0,
            before,
            answer,
            after,
            notes: Vec::new(),
        }
    }

    /// The same answer, the same bytes, nothing else written; or the
    /// difference.
    pub fn compare(&self, table: &[u8], reply: &Reply) -> Result<(), String> {
        if reply.answer != self.answer {
            return Err(self.difference(table, &in_words(reply.answer)));
        }
        let (before, after) = (&self.before, &self.after);
        if let Some(n) = (0..after.len()).find(|&n| reply.after[n] != after[n]) {
            let (theirs, ours, was) = (reply.after[n], after[n], before[n]);
            let theirs = format!("byte {n} is {theirs}, not {ours}; it was {was}");
            return Err(self.difference(table, &theirs));
        }
        for (bit, harm) in HARMS {
            if reply.harm & bit != 0 {
                return Err(self.difference(table, harm));
            }
        }
        Ok(())
    }

    /// What the two programs do not agree on, for the user to read.
    pub fn difference(&self, table: &[u8], theirs: &str) -> String {
        let (call, ours) = (self.in_words(), in_words(self.answer));
        let (length, table) = (table.len(), hex(table));
        format!(
            "difference in {call}\ntable ({length} bytes): {table}\n\
             library: {theirs}\nsecond:  {ours}"
        )
    }

    pub fn count(&self, tally: &mut Tally) {
        tally.answer(self.call.name(), self.answer);
        for note in &self.notes {
            tally.note(note, 1);
        }
    }

    fn in_words(&self) -> String {
        let name = self.call.name();
        let (first, second, lent) = (self.first, self.second, self.before.len());
        match self.call {
            Call::Read => name.to_string(),
            Call::Preempts => format!("{name}, t {first}, u {second}"),
            Call::Step => {
                let state = hex(&self.before);
                format!("{name}, kind {first}, number {second}, lent {lent} bytes: {state}")
            }
            _ => format!("{name}, lent {lent} bytes"),
        }
    }
}

/// An answer in words.
fn in_words(answer: u64) -> String {
    let (number, value) = (answer >> 32, answer as u32);
    match number {
        0 => format!("answer {value}"),
        _ => format!("refusal {number}, place {value}"),
    }
}
