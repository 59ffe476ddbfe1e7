//! The judge of an order from elsewhere.

use super::claims::own;
use super::scan::{scan, Flags};
use super::{job, kind, operand, refusal, LINES, START};

/// An order from elsewhere, judged entry by entry: 0 if it is a legal order of the plan.
pub fn judge(plan: &[u32], order: &[u16]) -> u64 {
    let mut flags = [0; LINES];
    let jobs = match scan(plan, &mut flags) {
        Ok(jobs) => jobs,
        Err(refusal) => return refusal,
    };
    let steps = legal_steps(plan, &flags, &jobs.first, order);
    if steps == plan.len() && steps == order.len() {
        return 0;
    }
    refusal(15, steps + 1)
}

/// How many entries from the front are legal next steps. Of each job its next line is kept, 0 until it is started, and
/// which devices are held as a set. Which verb comes cannot be foretold, so only a take of what is held is a way of its
/// own: a line without a flag shifts a nought into the set, and one that starts no job sets the next line of a job 0,
/// that there is not.
fn legal_steps(plan: &[u32], flags: &Flags, first: &[usize; 65], order: &[u16]) -> usize {
    let (mut next, mut held) = ([0; 65], 0);
    next[1] = 1;
    for (at, &entry) in order.iter().enumerate() {
        let entry = usize::from(entry);
        let Some(&line) = plan.get(entry.wrapping_sub(1)) else {
            return at;
        };
        let flag = flags[entry - 1];
        if next[job(line)] != entry || held & own(line, flag) != 0 {
            return at;
        }
        held ^= u32::from(flag != 0).wrapping_shl(operand(line) as u32);
        next[job(line)] = entry + 1;
        let started = if kind(line) == START { operand(line) } else { 0 };
        next[started] = first[started];
    }
    order.len()
}
