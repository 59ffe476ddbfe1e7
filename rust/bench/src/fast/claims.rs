//! The table of claims.

use super::scan::{scan, CLAIMS};
use super::{job, kind, operand, refusal, LINES, START};

/// The table of a plan's claims: the number of lines.
pub fn table(plan: &[u32], sets: &mut [u32]) -> u64 {
    let mut flags = [0; LINES];
    if let Err(refusal) = scan(plan, &mut flags) {
        return refusal;
    }
    let Some(sets) = sets.get_mut(..plan.len()) else {
        return refusal(11, plan.len());
    };
    // From the end, for successors stand further down. Of each job the set of its first line so far is kept.
    let mut first = [0; 65];
    for ((&line, &flag), stored) in plan.iter().zip(&flags).zip(sets).rev() {
        let begun = if kind(line) == START { first[operand(line)] } else { 0 };
        let set = first[job(line)] | own(line, flag) | begun;
        first[job(line)] = set;
        *stored = set;
    }
    plan.len() as u64
}

/// What a line claims by itself: the device of an outermost take. Only takes have that flag, so that the shift of any
/// other line's operand, however high, shifts nothing.
#[inline]
pub fn own(line: u32, flag: u8) -> u32 {
    u32::from(flag & CLAIMS).wrapping_shl(operand(line) as u32)
}
