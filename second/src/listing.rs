//! The findings as text. Every line ends in a newline.

use crate::races::{illegal, races};
use crate::table::{read, Table};

/// The text for any input: the findings, or one line for a refused table.
pub fn listing(bytes: &[u8]) -> String {
    match read(bytes) {
        Ok(table) => findings(&table),
        Err(refusal) => format!("refused {} at {}\n", refusal.number, refusal.place),
    }
}

fn findings(table: &Table) -> String {
    let mut text = String::new();
    let races = races(table);
    text += &format!("races {}\n", races.len());
    for (i, j) in races {
        let (first, second) = (
            &table.accesses[usize::from(i)],
            &table.accesses[usize::from(j)],
        );
        let label = table.labels[first.resource];
        text += &format!("race {label} {i} {} {j} {}\n", first.task, second.task);
    }
    let illegal = illegal(table);
    text += &format!("illegal {}\n", illegal.len());
    for (i, k) in illegal {
        let task = table.accesses[usize::from(i)].task;
        text += &format!("illegal {i} {task} {k}\n");
    }
    text
}
