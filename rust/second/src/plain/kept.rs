//! The second reading, what is kept beside the table: the rows and the set of the devices held to the
//! end, a move that keeps them, and the quick verdict.
//!
//! Reads, of document 02: request 4, whose case 11 covers these lists too. What is lent need not be the
//! plan's own: a move makes some rows anew, and two bits of the held set, and leaves the others.

use super::lent::{fill, room};
use super::{edited, held_to_end, lasting, move_claim, only, rows_by, still_held};
use super::{table, under, way, Rows};
use crate::line::{Line, Refusal, DEVICES};
use crate::read::check_packed;

/// How many rows there are.
const ROWS: usize = DEVICES as usize;

/// What is kept beside a plan, in lists that may be longer than needed: a set a line, a row a device,
/// and one set.
#[derive(Clone, Debug, PartialEq, Eq)]
pub struct Beside {
    /// The table.
    pub sets: Vec<u32>,
    /// The rows.
    pub rows: Vec<u32>,
    /// The devices held to the end.
    pub held: Vec<u32>,
}

impl Beside {
    /// The plan's own.
    pub fn of(plan: &[Line]) -> Beside {
        let sets = table(plan);
        let rows = rows_by(plan, &sets).to_vec();
        Beside { sets, rows, held: vec![held_to_end(plan).0] }
    }
}

/// Refusal 11 for the table, the rows, or the held set, whichever is the first that is too short.
fn have_room(lines: usize, sets: &[u32], rows: &[u32], held: &[u32]) -> Result<(), Refusal> {
    room(sets.len(), lines)?;
    room(rows.len(), ROWS)?;
    room(held.len(), 1)
}

/// Works out all that is kept beside a packed plan; the answer is the number of lines.
pub fn build(
    plan: &[u32],
    sets: &mut [u32],
    rows: &mut [u32],
    held: &mut [u32],
) -> Result<usize, Refusal> {
    let lines = check_packed(plan)?;
    have_room(lines.len(), sets, rows, held)?;
    let own = Beside::of(&lines);
    fill(sets, &own.sets)?;
    fill(rows, &own.rows)?;
    fill(held, &own.held)?;
    Ok(lines.len())
}

/// The devices whose rows a move makes anew: the old one, the new one, and those that have a lasting
/// take, before the edit or after it, among the lines whose sets the move may change.
pub fn concerned(plan: &[Line], at: usize, device: u8) -> u32 {
    let mut concerned = only(device) | plan[at].takes().map_or(0, only);
    for plan in [plan, &edited(plan, at, device)] {
        let lasting = lasting(plan);
        for on in way(plan, at).into_iter().chain(under(plan, at)) {
            concerned |= lasting[on].map_or(0, only);
        }
    }
    concerned
}

/// Moves a claim in the packed plan and its table, and keeps rows and held set. The answer is that of
/// the plain move, which tests everything but the further lists.
pub fn move_kept(
    plan: &mut [u32],
    sets: &mut [u32],
    rows: &mut [u32],
    held: &mut [u32],
    line: u32,
    device: u32,
) -> Result<u32, Refusal> {
    let lines = check_packed(plan)?;
    have_room(lines.len(), sets, rows, held)?;
    let changed = move_claim(plan, sets, line, device)?;
    let (at, new) = (line as usize - 1, device as u8);
    let edited = edited(&lines, at, new);
    // By the table as it is now, whatever was stored in it for lines that the move does not reach.
    let by_table = rows_by(&edited, sets);
    let concerned = concerned(&lines, at, new);
    for device in (0..ROWS).filter(|&device| concerned >> device & 1 == 1) {
        rows[device] = by_table[device];
    }
    let two = only(new) | lines[at].takes().map_or(0, only);
    held[0] = held[0] & !two | held_to_end(&edited).0 & two;
    Ok(changed)
}

/// The quick verdict on a packed plan: the number of devices held to the end. 10 is said of the first
/// 32 rows as they are lent.
pub fn quick(plan: &[u32], rows: &[u32]) -> Result<u32, Refusal> {
    let lines = check_packed(plan)?;
    room(rows.len(), ROWS)?;
    let mut first: Rows = [0; ROWS];
    first.copy_from_slice(&rows[..ROWS]);
    still_held(&lines, &first)
}
