//! Moving a claim.

use super::claims::own;
use super::scan::{scan, Flags, Jobs, CLAIMS};
use super::{job, kind, operand, refusal, GIVE, LINES, START, TAKE};

/// The claim of a line, counted from 1, moved to a device: the number of sets that changed.
pub fn move_claim(plan: &mut [u32], sets: &mut [u32], line: u32, device: u32) -> u64 {
    let mut flags = [0; LINES];
    let jobs = match scan(plan, &mut flags) {
        Ok(jobs) => jobs,
        Err(refusal) => return refusal,
    };
    if sets.len() < plan.len() {
        return refusal(11, plan.len());
    }
    match edit(plan, &mut flags, sets, &jobs, line, device) {
        Ok(answer) | Err(answer) => answer,
    }
}

/// The move of a plan without a fault, whose table is long enough, with the tests that are left: the number of sets
/// that changed, or the refusal. The flags of takes become those of the edited plan.
#[inline]
pub fn edit(
    plan: &mut [u32],
    flags: &mut Flags,
    sets: &mut [u32],
    jobs: &Jobs,
    line: u32,
    device: u32,
) -> Result<u64, u64> {
    let at = (line as usize).wrapping_sub(1);
    if at >= plan.len() || kind(plan[at]) != TAKE {
        return Err(refusal(12, line as usize));
    }
    if device > 31 {
        return Err(refusal(13, device as usize));
    }
    let until = match test_sets(plan, flags, sets, jobs, at) {
        Ok(until) => until,
        Err(stale) => return Err(refusal(14, stale + 1)),
    };
    if operand(plan[at]) == device as usize {
        return Ok(0);
    }
    mark(plan, flags, at, until, device);
    plan[at] = with_device(plan[at], device);
    if until < plan.len() && job(plan[until]) == job(plan[at]) {
        plan[until] = with_device(plan[until], device);
    }
    Ok(rewrite(plan, flags, sets, jobs, until - 1))
}

/// A take or give with another device.
fn with_device(line: u32, device: u32) -> u32 {
    line / 256 * 256 + device
}

/// Where the way goes on from a line: to the line before it in its job, or the line that starts the job.
fn before(plan: &[u32], jobs: &Jobs, at: usize) -> Option<usize> {
    let job = job(plan[at]);
    if jobs.first[job] < at + 1 {
        Some(at - 1)
    } else {
        jobs.starter[job].checked_sub(1)
    }
}

/// What a line takes and what is stored for its successors, in one set.
#[inline]
fn joined(plan: &[u32], flags: &Flags, sets: &[u32], jobs: &Jobs, at: usize) -> u32 {
    let line = plan[at];
    let next = match plan.get(at + 1) {
        Some(&next) if job(next) == job(line) => sets[at + 1],
        _ => 0,
    };
    let begun = if kind(line) == START { sets[jobs.first[operand(line)] - 1] } else { 0 };
    own(line, flags[at]) | next | begun
}

/// Tests the sets that a move may change, back along the way and then down the lines under the take: the stale one, or
/// where the lines under the take end, which is at its give or behind its job.
fn test_sets(
    plan: &[u32],
    flags: &Flags,
    sets: &[u32],
    jobs: &Jobs,
    from: usize,
) -> Result<usize, usize> {
    let is_stale = |at: usize| sets[at] != joined(plan, flags, sets, jobs, at);
    let mut on_way = Some(from);
    while let Some(at) = on_way {
        if is_stale(at) {
            return Err(at);
        }
        on_way = before(plan, jobs, at);
    }
    let mut open = 0;
    for (at, &line) in plan.iter().enumerate().skip(from + 1) {
        match kind(line) {
            _ if job(line) != job(plan[from]) => return Ok(at),
            GIVE if open == 0 => return Ok(at),
            GIVE => open -= 1,
            TAKE => open += 1,
            _ => {}
        }
        if is_stale(at) {
            return Err(at);
        }
    }
    Ok(plan.len())
}

/// Whether the job of a line holds a device before it: going back in the job, the nearest line that has a flag and
/// names the device decides.
fn holds(plan: &[u32], flags: &Flags, at: usize, device: usize) -> bool {
    let before = plan[..at].iter().zip(flags).rev();
    let mut of_job = before.take_while(|(&line, _)| job(line) == job(plan[at]));
    let nearest = of_job.find(|(&line, &flag)| flag != 0 && operand(line) == device);
    nearest.is_some_and(|(_, &flag)| flag == CLAIMS)
}

/// Sets the flags of the moved take and of the takes under it anew; those of gives are not asked for any more. Of the
/// old device, if it is not held from before, those are outermost now that have no other around them; of the new one
/// none is.
fn mark(plan: &[u32], flags: &mut Flags, at: usize, until: usize, device: u32) {
    let (old, new) = (operand(plan[at]), device as usize);
    let old_held = flags[at] == 0;
    let new_held = holds(plan, flags, at, new);
    flags[at] = u8::from(!new_held) * CLAIMS;
    let mut open = u32::from(old_held);
    for (&line, flag) in plan.iter().zip(flags).take(until).skip(at + 1) {
        match kind(line) {
            TAKE if operand(line) == old => {
                *flag = u8::from(open == 0) * CLAIMS;
                open += 1;
            }
            GIVE if operand(line) == old => open -= 1,
            TAKE if operand(line) == new => *flag = 0,
            _ => {}
        }
    }
}

/// Joins the sets anew, from a line back along the way: how many are another than before.
fn rewrite(plan: &[u32], flags: &Flags, sets: &mut [u32], jobs: &Jobs, from: usize) -> u64 {
    let mut changed = 0;
    let mut on_way = Some(from);
    while let Some(at) = on_way {
        let set = joined(plan, flags, sets, jobs, at);
        changed += u64::from(sets[at] != set);
        sets[at] = set;
        on_way = before(plan, jobs, at);
    }
    changed
}
