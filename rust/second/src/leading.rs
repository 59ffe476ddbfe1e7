//! Rows for the comparisons: paths, rings, chains of them, orders and random ones, under any numbering
//! of the devices.
//!
//! Reads, of document 01: "Claims and rows". To go from a device to the members of its row, and to come
//! back, is said there of any rows; no plan need have those that are made here.

use crate::line::DEVICES;
use crate::plain::{members, Rows};
use crate::random::Random;

/// How many rows there are.
const COUNT: usize = DEVICES as usize;
/// No device leads anywhere.
pub const NONE: Rows = [0; COUNT];
/// Each device leads to all.
pub const ALL: Rows = [u32::MAX; COUNT];

/// Devices one behind another, each of which leads to the next.
#[derive(Clone, Copy, Debug, PartialEq, Eq)]
pub enum Part {
    /// So many of them; the last leads no further.
    Path(usize),
    /// So many of them, at least one; the last leads to the first.
    Ring(usize),
}

impl Part {
    /// How many devices it has.
    pub fn devices(self) -> usize {
        match self {
            Part::Path(length) | Part::Ring(length) => length,
        }
    }
}

/// Parts beside each other, of at most 32 devices together, numbered from nought in their order.
pub fn parts(parts: &[Part]) -> Rows {
    let (mut rows, mut first) = (NONE, 0);
    for part in parts {
        let past = first + part.devices();
        for device in first + 1..past {
            rows[device - 1] |= 1 << device;
        }
        if matches!(part, Part::Ring(_)) {
            rows[past - 1] |= 1 << first;
        }
        first = past;
    }
    rows
}

/// The same as a chain: the last device of each part leads to the first of the next, too. Every
/// device leads to the one after it, and all that lead back are those of the rings.
pub fn chain(list: &[Part]) -> Rows {
    let devices = list.iter().map(|part| part.devices()).sum();
    union(&parts(list), &parts(&[Part::Path(devices)]))
}

/// Random parts of 32 devices together: rings, mostly short ones, and paths between them.
pub fn some_parts(random: &mut Random) -> Vec<Part> {
    let most = random.one_of(&[1, 2, 4, 8, 16]);
    let (mut list, mut left) = (Vec::new(), COUNT);
    while left > 0 {
        let length = 1 + random.below(most.min(left));
        list.push(if random.once_in(2) { Part::Path(length) } else { Part::Ring(length) });
        left -= length;
    }
    list
}

/// A full order: each device leads to every higher one.
pub fn order() -> Rows {
    std::array::from_fn(|device| !0 << device << 1)
}

/// Random rows, to which each device belongs about so many times of 32.
pub fn dense(random: &mut Random, times: usize) -> Rows {
    drawn(|_, _| random.below(COUNT) < times)
}

/// Random rows of at most so many members.
pub fn sparse(random: &mut Random, most: usize) -> Rows {
    std::array::from_fn(|_| (0..most).fold(0, |row, _| row | 1 << random.below(COUNT)))
}

/// Random rows without a circle: each device leads to each higher one about once in so many times.
pub fn forward(random: &mut Random, times: usize) -> Rows {
    drawn(|from, to| from < to && random.once_in(times))
}

/// The rows of the first four devices, as a square of bits says, a row in four of them; no other device
/// leads anywhere.
pub fn of_four(square: u16) -> Rows {
    drawn(|from, to| from < 4 && to < 4 && square >> (4 * from + to) & 1 == 1)
}

/// The rows in which a device leads to another where this is said of the two.
fn drawn(mut leads: impl FnMut(usize, usize) -> bool) -> Rows {
    let mut row = |from| (0..COUNT).fold(0, |row, to| row | u32::from(leads(from, to)) << to);
    std::array::from_fn(&mut row)
}

/// The rows that have what one or the other has.
pub fn union(one: &Rows, other: &Rows) -> Rows {
    std::array::from_fn(|device| one[device] | other[device])
}

/// The rows of the devices of a set; the others lead nowhere.
pub fn only_of(rows: &Rows, set: u32) -> Rows {
    std::array::from_fn(|device| if set >> device & 1 == 1 { rows[device] } else { 0 })
}

/// How the devices are numbered.
#[derive(Clone, Copy, Debug, PartialEq, Eq)]
pub enum Numbering {
    /// As they were made.
    Natural,
    /// The first is the last.
    Reversed,
    /// In no order.
    Shuffled,
}

impl Numbering {
    /// All of them.
    pub const EACH: [Numbering; 3] = [Numbering::Natural, Numbering::Reversed, Numbering::Shuffled];

    /// The rows with the devices numbered so.
    pub fn of(self, random: &mut Random, rows: &Rows) -> Rows {
        match self {
            Numbering::Natural => *rows,
            Numbering::Reversed => renamed(rows, &(0..DEVICES as u8).rev().collect::<Vec<u8>>()),
            Numbering::Shuffled => renamed(rows, &random.devices(COUNT)),
        }
    }
}

/// The rows with other names: each device has that at its place in the list.
pub fn renamed(rows: &Rows, names: &[u8]) -> Rows {
    let mut renamed = NONE;
    for (&row, &name) in rows.iter().zip(names) {
        let others = members(row).map(|device| names[device as usize]);
        renamed[usize::from(name)] = others.fold(0, |row, other| row | 1 << other);
    }
    renamed
}
