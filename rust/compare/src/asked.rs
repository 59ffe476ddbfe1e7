//! What an entry or the program was given, told in full where answers differ: the forms of a plan
//! are those of "The plan as text" of document 01.

use second::damage::spelt;
use second::plain::{members, Beside, Rows};
use second::random::Move;
use second::tally::Input;

/// What was given.
pub enum Asked<'a> {
    /// A text, and the length of the list that was lent, or the offset of a line in it.
    Text { text: &'a [u8], room: usize },
    /// A packed plan, and the length of the list that was lent.
    Packed { plan: &'a [u32], room: usize },
    /// A packed plan and a table that were lent, a line and a device.
    Move { plan: &'a [u32], sets: &'a [u32], line: u32, device: u32 },
    /// A packed plan, and the lengths of the lists that were lent for table, rows and held set.
    Build { plan: &'a [u32], rooms: [usize; 3] },
    /// A packed plan that was lent with table, rows and held set, and a move.
    Kept { plan: &'a [u32], beside: &'a Beside, to: Move },
    /// A packed plan and rows.
    Quick { plan: &'a [u32], rows: &'a [u32] },
    /// A packed plan, and an order from elsewhere.
    Order { plan: &'a [u32], order: &'a [u16] },
    /// Rows, one a device.
    Rows { rows: &'a Rows },
    /// A text on the program's standard input, in so many pieces.
    Fed { text: &'a [u8], pieces: usize },
    /// The program with a standard input or output that does not work.
    Streams { what: &'a str },
}

impl Asked<'_> {
    /// The length of the list that was lent, where there is one.
    pub fn room(&self) -> usize {
        match self {
            Asked::Text { room, .. } | Asked::Packed { room, .. } => *room,
            Asked::Move { sets, .. } => sets.len(),
            Asked::Kept { beside, .. } => beside.sets.len(),
            Asked::Build { .. } | Asked::Quick { .. } | Asked::Order { .. } => 0,
            Asked::Rows { .. } | Asked::Fed { .. } | Asked::Streams { .. } => 0,
        }
    }
}

/// A text with its length, one that can be put into a program as it is.
fn told_text(text: &[u8]) -> String {
    format!("text of {} bytes: b\"{}\"\n", text.len(), text.escape_ascii())
}

/// A packed plan, as numbers and as lines.
fn told_plan(plan: &[u32]) -> String {
    let lines = String::from_utf8_lossy(&spelt(plan)).into_owned();
    format!("packed plan of {} numbers: {plan:?}\n{lines}", plan.len())
}

/// A packed plan with its table, and what was asked of it.
fn told_move(plan: &[u32], sets: &[u32], Move { line, device }: Move) -> String {
    let table = format!("table of {}: {sets:?}", sets.len());
    format!("{}{table}\nline {line}, device {device}\n", told_plan(plan))
}

/// Rows, as numbers and member by member.
fn told_rows(rows: &[u32]) -> String {
    let mut told = format!("rows: {rows:?}\n");
    for (device, &row) in rows.iter().enumerate().filter(|(_, &row)| row != 0) {
        let to: Vec<String> = members(row).map(|member| member.to_string()).collect();
        told += &format!("device {device} leads to {}\n", to.join(", "));
    }
    told
}

impl Input for Asked<'_> {
    fn told(&self) -> String {
        match self {
            Asked::Text { text, room } => format!("{}list of {room}\n", told_text(text)),
            Asked::Packed { plan, room } => format!("{}list of {room}\n", told_plan(plan)),
            &Asked::Move { plan, sets, line, device } => {
                told_move(plan, sets, Move { line, device })
            }
            Asked::Build { plan, rooms } => format!("{}lists of {rooms:?}\n", told_plan(plan)),
            Asked::Kept { plan, beside, to } => {
                let told = told_move(plan, &beside.sets, *to) + &told_rows(&beside.rows);
                format!("{told}held set: {:?}\n", beside.held)
            }
            Asked::Quick { plan, rows } => told_plan(plan) + &told_rows(rows),
            Asked::Order { plan, order } => {
                format!("{}order of {} entries: {order:?}\n", told_plan(plan), order.len())
            }
            Asked::Rows { rows } => told_rows(*rows),
            Asked::Fed { text, pieces } => format!("{}in {pieces} pieces\n", told_text(text)),
            Asked::Streams { what } => format!("{what}\n"),
        }
    }
}
