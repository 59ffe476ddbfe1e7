//! The second reading, the entries that fill lent lists, and what is printed.
//!
//! Reads, of document 01: the lengths and answers in the closing paragraph of "Refusal numbers"
//! and its case 11, and of "Plans with their verdicts" what the program `order` and the screens
//! print; of document 02: request 5, by which the order has the steps alone, and each entry has a
//! sibling for resumed plans. Here the siblings are told the settings that they read by. A refused call
//! leaves its list alone; an accepted one leaves alone what lies past the last entry written.

use super::{table, verdict, Order};
use crate::line::{pack, Refusal, Settings, MORNING};
use crate::read::{check_packed_by, read_by, write};

/// The least room of the screens' buffer: that of the longest order there is.
pub const SCREEN: usize = 4_027;

/// Refusal 11 where the lent list is shorter than needed.
pub(super) fn room(lent: usize, needed: usize) -> Result<(), Refusal> {
    if lent < needed {
        return Err(Refusal::at(11, needed));
    }
    Ok(())
}

/// Fills the front of a lent list, or refuses with the length needed.
pub(super) fn fill<T: Copy>(lent: &mut [T], entries: &[T]) -> Result<usize, Refusal> {
    room(lent.len(), entries.len())?;
    lent[..entries.len()].copy_from_slice(entries);
    Ok(entries.len())
}

/// Reads a text of the morning into a packed plan.
pub fn read_into(text: &[u8], plan: &mut [u32]) -> Result<usize, Refusal> {
    read_into_by(MORNING, text, plan)
}

/// Reads a text into a packed plan; the answer is the number of lines.
pub fn read_into_by(settings: Settings, text: &[u8], plan: &mut [u32]) -> Result<usize, Refusal> {
    fill(plan, &pack(&read_by(settings, text)?))
}

/// Writes a packed plan of the morning as text.
pub fn write_into(plan: &[u32], text: &mut [u8]) -> Result<usize, Refusal> {
    write_into_by(MORNING, plan, text)
}

/// Writes a packed plan as text; the answer is the number of bytes.
pub fn write_into_by(settings: Settings, plan: &[u32], text: &mut [u8]) -> Result<usize, Refusal> {
    fill(text, &write(&check_packed_by(settings, plan)?))
}

/// Works out the table of a packed plan of the morning.
pub fn table_into(plan: &[u32], sets: &mut [u32]) -> Result<usize, Refusal> {
    table_into_by(MORNING, plan, sets)
}

/// Works out the table of a packed plan; the answer is the number of lines.
pub fn table_into_by(settings: Settings, plan: &[u32], sets: &mut [u32]) -> Result<usize, Refusal> {
    fill(sets, &table(&check_packed_by(settings, plan)?))
}

/// Works out the order of a packed plan of the morning.
pub fn verdict_into(plan: &[u32], order: &mut [u16]) -> Result<u32, Refusal> {
    verdict_into_by(MORNING, plan, order)
}

/// Works out the order of a packed plan; the answer is the number of devices still held. A list
/// too short for the steps is refused before the verdict is looked at.
pub fn verdict_into_by(
    settings: Settings,
    plan: &[u32],
    order: &mut [u16],
) -> Result<u32, Refusal> {
    let lines = check_packed_by(settings, plan)?;
    room(order.len(), lines.iter().filter(|line| !line.is_held()).count())?;
    let Order { lines, held } = verdict(&lines)?;
    fill(order, &lines)?;
    Ok(held)
}

/// What the program `order` prints for a text.
pub fn printed(text: &[u8]) -> Vec<u8> {
    printed_by(MORNING, text)
}

/// What the program with these settings prints for a text.
pub fn printed_by(settings: Settings, text: &[u8]) -> Vec<u8> {
    let print = match read_by(settings, text).and_then(|plan| verdict(&plan)) {
        Ok(order) => {
            let header = format!("order\t{}\t{}\n", order.lines.len(), order.held);
            let numbers = order.lines.iter().map(|line| format!("{line}\n"));
            header + &numbers.collect::<String>()
        }
        Err(refusal) => format!("refused\t{}\t{}\n", refusal.number, refusal.place),
    };
    print.into_bytes()
}

/// What the screens are given for a text of the morning.
pub fn screen(text: &[u8], out: &mut [u8]) -> usize {
    screen_by(MORNING, text, out)
}

/// What the screens are given: the same bytes, and their count. A buffer with too little room for
/// the longest order is left alone, whatever the text, and the count is nought.
pub fn screen_by(settings: Settings, text: &[u8], out: &mut [u8]) -> usize {
    if out.len() < SCREEN {
        return 0;
    }
    fill(out, &printed_by(settings, text)).expect("the room is enough for every print")
}
