//! Reading a table, form 1: bytes into records, or the first fault.

/// Why a call was refused: document 01's number, and the place.
#[derive(Clone, Copy, Debug, PartialEq, Eq)]
pub struct Refusal {
    pub number: u32,
    pub place: usize,
}

pub const TASK: u8 = 0;
pub const PREEMPTIVE: u8 = 1;
pub const NON_PREEMPTIVE: u8 = 2;
pub const FIFO: u8 = 3;
pub const TIME_SLICED: u8 = 4;

pub const BLOCKING: u8 = 0;
pub const MASK: u8 = 1;

/// The longest table, in bytes.
pub const LONGEST: usize = 1253;

#[derive(Clone, Debug, PartialEq, Eq)]
pub struct Node {
    pub parent: usize,
    pub kind: u8,
}

#[derive(Clone, Debug, PartialEq, Eq)]
pub struct Lock {
    pub provider: usize,
    pub kind: u8,
    pub covered: usize,
}

#[derive(Clone, Debug, PartialEq, Eq)]
pub struct Access {
    pub task: usize,
    pub resource: usize,
    /// Lock k is in the set when bit k is set.
    pub set: u32,
}

#[derive(Clone, Debug, PartialEq, Eq, Default)]
pub struct Table {
    pub nodes: Vec<Node>,
    pub locks: Vec<Lock>,
    pub labels: Vec<u16>,
    pub accesses: Vec<Access>,
}

impl Table {
    /// Is n a task of the table? A number that names no node is none.
    pub fn is_task(&self, n: usize) -> bool {
        self.nodes.get(n).is_some_and(|node| node.kind == TASK)
    }

    pub fn is_scheduler(&self, n: usize) -> bool {
        self.nodes.get(n).is_some_and(|node| node.kind != TASK)
    }

    /// Is n a child of p? The root is nobody's child, whatever its parent byte.
    pub fn is_child(&self, n: usize, p: usize) -> bool {
        n != 0 && self.nodes.get(n).is_some_and(|node| node.parent == p)
    }
}

/// The input, and how far it has been read.
struct Input<'a> {
    bytes: &'a [u8],
    next: usize,
}

/// A record that is complete, with the place of its first byte.
struct Record<'a> {
    place: usize,
    bytes: &'a [u8],
}

impl Record<'_> {
    fn field(&self, n: usize) -> usize {
        usize::from(self.bytes[n])
    }

    /// A refusal at the record's byte n.
    fn refuse(&self, number: u32, n: usize) -> Refusal {
        Refusal {
            number,
            place: self.place + n,
        }
    }
}

impl<'a> Input<'a> {
    /// The next `width` bytes together, or refusal 1.
    fn record(&mut self, width: usize) -> Result<Record<'a>, Refusal> {
        let place = self.next;
        let Some(bytes) = self.bytes.get(place..place + width) else {
            return Err(Refusal {
                number: 1,
                place: self.bytes.len(),
            });
        };
        self.next += width;
        Ok(Record { place, bytes })
    }

    /// A count from `least` to `most`, or refusal 1 or 3.
    fn count(&mut self, least: usize, most: usize) -> Result<usize, Refusal> {
        let record = self.record(1)?;
        let count = record.field(0);
        if count < least || count > most {
            return Err(record.refuse(3, 0));
        }
        Ok(count)
    }
}

/// Reads the whole table; the first fault ends the reading.
pub fn read(bytes: &[u8]) -> Result<Table, Refusal> {
    let mut input = Input { bytes, next: 0 };
    let mut table = Table::default();
    read_form(&mut input)?;
    read_nodes(&mut input, &mut table)?;
    read_locks(&mut input, &mut table)?;
    read_resources(&mut input, &mut table)?;
    read_accesses(&mut input, &mut table)?;
    if input.next < bytes.len() {
        return Err(Refusal {
            number: 11,
            place: input.next,
        });
    }
    Ok(table)
}

fn read_form(input: &mut Input) -> Result<(), Refusal> {
    let record = input.record(1)?;
    if record.field(0) != 1 {
        return Err(record.refuse(2, 0));
    }
    Ok(())
}

fn read_nodes(input: &mut Input, table: &mut Table) -> Result<(), Refusal> {
    let count = input.count(1, 128)?;
    for n in 0..count {
        let record = input.record(2)?;
        let parent = record.field(0);
        // Only nodes already read are in the table, so a parent with a number
        // that is not smaller is no scheduler either.
        let parent_fits = if n == 0 {
            parent == 0
        } else {
            table.is_scheduler(parent)
        };
        if !parent_fits {
            return Err(record.refuse(4, 0));
        }
        let kind = record.bytes[1];
        if kind > TIME_SLICED {
            return Err(record.refuse(5, 1));
        }
        table.nodes.push(Node { parent, kind });
    }
    Ok(())
}

fn read_locks(input: &mut Input, table: &mut Table) -> Result<(), Refusal> {
    let count = input.count(0, 32)?;
    for _ in 0..count {
        let record = input.record(3)?;
        let provider = record.field(0);
        if !table.is_scheduler(provider) {
            return Err(record.refuse(6, 0));
        }
        let kind = record.bytes[1];
        if kind > MASK {
            return Err(record.refuse(5, 1));
        }
        let covered = record.field(2);
        let covered_fits = if kind == BLOCKING {
            covered == 0
        } else {
            table.is_child(covered, provider)
        };
        if !covered_fits {
            return Err(record.refuse(7, 2));
        }
        table.locks.push(Lock {
            provider,
            kind,
            covered,
        });
    }
    Ok(())
}

fn read_resources(input: &mut Input, table: &mut Table) -> Result<(), Refusal> {
    let count = input.count(0, 64)?;
    for _ in 0..count {
        let record = input.record(2)?;
        table
            .labels
            .push(u16::from_be_bytes([record.bytes[0], record.bytes[1]]));
    }
    Ok(())
}

fn read_accesses(input: &mut Input, table: &mut Table) -> Result<(), Refusal> {
    let count = input.count(0, 128)?;
    for _ in 0..count {
        let record = input.record(6)?;
        let task = record.field(0);
        if !table.is_task(task) {
            return Err(record.refuse(8, 0));
        }
        let resource = record.field(1);
        if resource >= table.labels.len() {
            return Err(record.refuse(9, 1));
        }
        let set = &record.bytes[2..6];
        let set = u32::from_be_bytes([set[0], set[1], set[2], set[3]]);
        let names_no_lock = (table.locks.len()..32).any(|k| set >> k & 1 == 1);
        if names_no_lock {
            return Err(record.refuse(10, 2));
        }
        table.accesses.push(Access {
            task,
            resource,
            set,
        });
    }
    Ok(())
}
