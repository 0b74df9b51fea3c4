//! Damaged tables: a valid one with a fault or two.

use super::Dice;

/// Where the sections of a valid table begin: the place of each count.
pub struct Layout {
    pub nodes: usize,
    pub locks: usize,
    pub resources: usize,
    pub accesses: usize,
}

impl Layout {
    pub fn of(bytes: &[u8]) -> Self {
        let after = |count: usize, width: usize| count + 1 + width * usize::from(bytes[count]);
        let nodes = 1;
        let locks = after(nodes, 2);
        let resources = after(locks, 3);
        let accesses = after(resources, 2);
        Layout {
            nodes,
            locks,
            resources,
            accesses,
        }
    }
}

/// One fault, or two, somewhere in a valid table. By luck it may stay valid.
pub fn damaged(dice: &mut Dice, bytes: &[u8]) -> Vec<u8> {
    match dice.below(14) {
        0 => bytes[..dice.below(bytes.len())].to_vec(),
        1 => changed(dice, bytes),
        2 => lengthened(dice, bytes),
        3 => shifted(dice, bytes),
        4 => {
            let once = changed(dice, bytes);
            changed(dice, &once)
        }
        5 => {
            let once = aimed(dice, bytes);
            let cut = dice.between(0, once.len());
            once[..cut].to_vec()
        }
        6 | 7 => ruined(dice, bytes),
        _ => aimed(dice, bytes),
    }
}

/// One byte changed, anywhere.
fn changed(dice: &mut Dice, bytes: &[u8]) -> Vec<u8> {
    let mut bytes = bytes.to_vec();
    let place = dice.below(bytes.len());
    let choices = other_values(bytes[place]);
    let random = dice.byte();
    bytes[place] = if dice.chance(30) {
        random
    } else {
        dice.pick(&choices)
    };
    bytes
}

/// Values worth setting a byte to.
pub fn other_values(value: u8) -> [u8; 8] {
    [
        value.wrapping_add(1),
        value.wrapping_sub(1),
        value ^ 0x80,
        0,
        1,
        3,
        5,
        255,
    ]
}

fn lengthened(dice: &mut Dice, bytes: &[u8]) -> Vec<u8> {
    let more = if dice.chance(70) {
        dice.between(1, 8)
    } else {
        dice.between(1, 2000)
    };
    let mut bytes = bytes.to_vec();
    if dice.chance(50) {
        bytes.resize(bytes.len() + more, 0);
    } else {
        bytes.extend(dice.bytes(more));
    }
    bytes
}

/// A byte put in or left out in the middle.
fn shifted(dice: &mut Dice, bytes: &[u8]) -> Vec<u8> {
    let mut bytes = bytes.to_vec();
    let place = dice.below(bytes.len());
    if dice.chance(50) {
        bytes.insert(place, dice.byte() % 6);
    } else {
        bytes.remove(place);
    }
    bytes
}

/// A fault in a chosen field of a chosen section.
fn aimed(dice: &mut Dice, bytes: &[u8]) -> Vec<u8> {
    let layout = Layout::of(bytes);
    let mut bytes = bytes.to_vec();
    match dice.below(10) {
        0 => bytes[0] = dice.pick(&[0, 2, 3, 255]),
        1 => spoil_count(dice, &mut bytes, &layout),
        2..=4 => spoil_node(dice, &mut bytes, &layout),
        5..=6 => spoil_lock(dice, &mut bytes, &layout),
        _ => spoil_access(dice, &mut bytes, &layout),
    }
    bytes
}

fn spoil_count(dice: &mut Dice, bytes: &mut [u8], layout: &Layout) {
    let (place, above) = dice.pick(&[
        (layout.nodes, 129),
        (layout.locks, 33),
        (layout.resources, 65),
        (layout.accesses, 129),
    ]);
    let value = bytes[place];
    bytes[place] = dice.pick(&[above, above, 255, 0, value.wrapping_sub(1), value + 1]);
}

/// The place of some record's first byte, if the section has any.
fn some_record(dice: &mut Dice, bytes: &[u8], count: usize, width: usize) -> Option<usize> {
    let records = usize::from(bytes[count]);
    (records > 0).then(|| count + 1 + width * dice.below(records))
}

/// Every field of one record set anew, so that the first of several faults
/// counts; sometimes the input ends inside that record.
fn ruined(dice: &mut Dice, bytes: &[u8]) -> Vec<u8> {
    let layout = Layout::of(bytes);
    let mut bytes = bytes.to_vec();
    let (count, width) = dice.pick(&[
        (layout.nodes, 2),
        (layout.locks, 3),
        (layout.locks, 3),
        (layout.accesses, 6),
    ]);
    let Some(place) = some_record(dice, &bytes, count, width) else {
        spoil_count(dice, &mut bytes, &layout);
        return bytes;
    };
    let any = dice.below(usize::from(bytes[layout.nodes])) as u8;
    for field in &mut bytes[place..place + width] {
        if dice.chance(70) {
            *field = dice.pick(&[0, 1, 2, 5, 255, any]);
        }
    }
    if dice.chance(30) {
        bytes.truncate(place + dice.between(0, width));
    }
    bytes
}

fn spoil_node(dice: &mut Dice, bytes: &mut [u8], layout: &Layout) {
    let nodes = bytes[layout.nodes];
    let n = dice.below(usize::from(nodes)) as u8;
    let place = layout.nodes + 1 + 2 * usize::from(n);
    if dice.chance(40) {
        // A valid kind may still not fit: children lose their scheduler.
        let valid = dice.below(5) as u8;
        bytes[place + 1] = dice.pick(&[5, 6, 128, 255, valid]);
    } else {
        // Itself, the next, one that is no node, any (perhaps a task).
        let any = dice.below(usize::from(nodes)) as u8;
        bytes[place] = dice.pick(&[n, n + 1, nodes, 255, any, any, any]);
    }
}

fn spoil_lock(dice: &mut Dice, bytes: &mut [u8], layout: &Layout) {
    let nodes = bytes[layout.nodes];
    let Some(place) = some_record(dice, bytes, layout.locks, 3) else {
        return spoil_count(dice, bytes, layout);
    };
    let any = dice.below(usize::from(nodes)) as u8;
    match dice.below(4) {
        0 => bytes[place] = dice.pick(&[nodes, nodes + 1, 128, 255, any, any]),
        1 => bytes[place + 1] = dice.pick(&[2, 3, 255, 1 ^ (bytes[place + 1] & 1)]),
        2 => bytes[place + 2] = dice.pick(&[0, 1, nodes, 255, any, any, bytes[place]]),
        // A mask that names the root as its own child.
        _ => bytes[place..place + 3].copy_from_slice(&[0, 1, 0]),
    }
}

fn spoil_access(dice: &mut Dice, bytes: &mut [u8], layout: &Layout) {
    let (nodes, locks, resources) = (
        bytes[layout.nodes],
        bytes[layout.locks],
        bytes[layout.resources],
    );
    let Some(place) = some_record(dice, bytes, layout.accesses, 6) else {
        return spoil_count(dice, bytes, layout);
    };
    let any = dice.below(usize::from(nodes)) as u8;
    match dice.below(3) {
        0 => bytes[place] = dice.pick(&[nodes, 128, 255, any, any]),
        1 => bytes[place + 1] = dice.pick(&[resources, resources + 1, 64, 255]),
        _ => {
            // Lock K, one in the next byte, or the last bit of all.
            let first = usize::from(locks);
            let bit = dice.pick(&[first, first + 8, 31]).min(31);
            bytes[place + 2 + 3 - bit / 8] |= 1 << (bit % 8);
        }
    }
}
