//! What a comparison met: it is worth only what it went through.

use std::collections::BTreeMap;

use crate::table::read;

#[derive(Default)]
pub struct Tally {
    pub tables: usize,
    accepted: usize,
    longest_accepted: usize,
    /// How often each table refusal came, by number and section of its place.
    places: BTreeMap<(u32, &'static str), usize>,
    /// For each call, how often each refusal number came; 0 for none.
    calls: BTreeMap<&'static str, [usize; 19]>,
    notes: BTreeMap<&'static str, usize>,
}

/// Count, record and record's width of each section.
const SECTIONS: [(&str, &str, usize); 4] = [
    ("node count", "node", 2),
    ("lock count", "lock", 3),
    ("resource count", "resource", 2),
    ("access count", "access", 6),
];

/// The section in which a place lies. The counts before it have been read.
fn section_of(bytes: &[u8], place: usize) -> &'static str {
    if place == 0 {
        return "form";
    }
    let mut at = 1;
    for (count, record, width) in SECTIONS {
        if place == at {
            return count;
        }
        at += 1 + width * usize::from(bytes[at]);
        if place < at {
            return record;
        }
    }
    "end"
}

/// Every refusal number of a table with every section in which it can come.
const TO_MEET: [(u32, &[&str]); 11] = [
    (
        1,
        &[
            "form",
            "node count",
            "node",
            "lock count",
            "lock",
            "resource count",
            "resource",
            "access count",
            "access",
        ],
    ),
    (2, &["form"]),
    (
        3,
        &["node count", "lock count", "resource count", "access count"],
    ),
    (4, &["node"]),
    (5, &["node", "lock"]),
    (6, &["lock"]),
    (7, &["lock"]),
    (8, &["access"]),
    (9, &["access"]),
    (10, &["access"]),
    (11, &["end"]),
];

impl Tally {
    pub fn table(&mut self, bytes: &[u8]) {
        self.tables += 1;
        match read(bytes) {
            Ok(_) => {
                self.accepted += 1;
                self.longest_accepted = self.longest_accepted.max(bytes.len());
            }
            Err(refusal) => {
                let section = section_of(bytes, refusal.place);
                *self.places.entry((refusal.number, section)).or_default() += 1;
            }
        }
    }

    /// An answer of a call on which both agree.
    pub fn answer(&mut self, call: &'static str, answer: u64) {
        let number = (answer >> 32) as usize;
        self.calls.entry(call).or_insert([0; 19])[number] += 1;
    }

    pub fn note(&mut self, what: &'static str, count: usize) {
        *self.notes.entry(what).or_default() += count;
    }

    pub fn print(&self) {
        println!("tables {}", self.tables);
        println!(
            "accepted {}, the longest {} bytes",
            self.accepted, self.longest_accepted
        );
        for (number, sections) in TO_MEET {
            let mut total = 0;
            let mut parts = Vec::new();
            for section in sections {
                let count = self.places.get(&(number, section)).copied().unwrap_or(0);
                total += count;
                parts.push(format!("{section} {count}"));
            }
            println!("refusal {number}: {total} ({})", parts.join(", "));
        }
        for (call, numbers) in &self.calls {
            let total: usize = numbers.iter().sum();
            let met = (1..19).filter(|&n| numbers[n] > 0);
            let met: Vec<String> = met.map(|n| format!("{n}: {}", numbers[n])).collect();
            println!(
                "{call}: {total} calls, {} not refused; {}",
                numbers[0],
                met.join(", ")
            );
        }
        for (what, count) in &self.notes {
            println!("{what}: {count}");
        }
    }

    /// What was never met of the table refusals, and whether a longest table
    /// was among the accepted.
    pub fn tables_not_met(&self) -> Vec<String> {
        let mut missing = Vec::new();
        for (number, sections) in TO_MEET {
            for section in sections {
                if !self.places.contains_key(&(number, section)) {
                    missing.push(format!("refusal {number} in {section}"));
                }
            }
        }
        if self.longest_accepted != crate::table::LONGEST {
            missing.push("an accepted table of the greatest length".to_string());
        }
        missing
    }

    /// The numbers that this call never gave (0 stands for no refusal).
    pub fn not_met(&self, call: &'static str, numbers: &[usize]) -> Vec<String> {
        let met = self.calls.get(call).copied().unwrap_or([0; 19]);
        let missing = numbers.iter().filter(|&&n| met[n] == 0);
        missing
            .map(|n| format!("{call} with refusal {n}"))
            .collect()
    }

    pub fn note_not_met(&self, what: &'static str) -> Vec<String> {
        let met = self.notes.get(what).is_some_and(|&count| count > 0);
        if met {
            Vec::new()
        } else {
            vec![what.to_string()]
        }
    }
}
