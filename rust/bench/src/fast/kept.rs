//! The rows and the set of the devices held to the end, kept beside the table: both are made anew after each accepted
//! move. And the quick verdict by the rows.

use super::claims::own;
use super::moving::edit;
use super::scan::{held as held_to_end, scan, Flags, CLAIMS};
use super::verdict::circles;
use super::{device, job, kind, operand, refusal, GIVE, LINES, START, TAKE};

/// The front of the lists for table, rows and held set, as far as it is needed; or the refusal for the first of them
/// that is too short.
fn fronts<'a>(
    lines: usize,
    sets: &'a mut [u32],
    rows: &'a mut [u32],
    held: &'a mut [u32],
) -> Result<(&'a mut [u32], &'a mut [u32; 32], &'a mut u32), u64> {
    let sets = sets.get_mut(..lines).ok_or(refusal(11, lines))?;
    let rows = rows.first_chunk_mut().ok_or(refusal(11, 32))?;
    let held = held.first_mut().ok_or(refusal(11, 1))?;
    Ok((sets, rows, held))
}

/// The takes of a plan that last, on a walk back: an outermost take does if no give wants it. Each give has its take in
/// its own job, so none is wanted where a job begins. Which verb comes cannot be foretold, and is no branch here.
#[derive(Default)]
struct Lasting {
    wanted: u32,
}

impl Lasting {
    /// Whether the line, one further up, is such a take.
    #[inline(always)]
    fn line(&mut self, line: u32, flag: u8) -> bool {
        let (take, give) = (kind(line) == TAKE, kind(line) == GIVE);
        let lasts = take & (self.wanted == 0) & (flag == CLAIMS);
        self.wanted = (self.wanted + u32::from(give)).saturating_sub(u32::from(take));
        lasts
    }
}

/// The table of a plan's claims, its rows, and the devices held to the end: the number of lines.
pub fn build(plan: &[u32], sets: &mut [u32], rows: &mut [u32], held: &mut [u32]) -> u64 {
    let mut flags = [0; LINES];
    if let Err(refusal) = scan(plan, &mut flags) {
        return refusal;
    }
    let (sets, rows, held) = match fronts(plan.len(), sets, rows, held) {
        Ok(fronts) => fronts,
        Err(refusal) => return refusal,
    };
    (*rows, *held) = ([0; 32], 0);
    let (mut lasting, mut first) = (Lasting::default(), [0; 65]);
    for ((&line, &flag), stored) in plan.iter().zip(&flags).zip(sets).rev() {
        let next = first[job(line)];
        if lasting.line(line, flag) {
            *held |= device(line);
            rows[operand(line)] |= next;
        }
        let begun = if kind(line) == START { first[operand(line)] } else { 0 };
        let set = next | own(line, flag) | begun;
        first[job(line)] = set;
        *stored = set;
    }
    plan.len() as u64
}

/// The claim of a line, counted from 1, moved to a device, and rows and held set made anew: the number of sets that
/// changed.
pub fn move_kept(
    plan: &mut [u32],
    sets: &mut [u32],
    rows: &mut [u32],
    held: &mut [u32],
    line: u32,
    device: u32,
) -> u64 {
    let mut flags = [0; LINES];
    let jobs = match scan(plan, &mut flags) {
        Ok(jobs) => jobs,
        Err(refusal) => return refusal,
    };
    let (sets, rows, held) = match fronts(plan.len(), sets, rows, held) {
        Ok(fronts) => fronts,
        Err(refusal) => return refusal,
    };
    match edit(plan, &mut flags, sets, &jobs, line, device) {
        Ok(changed) => {
            keep(plan, &flags, sets, rows, held);
            changed
        }
        Err(refusal) => refusal,
    }
}

/// Makes rows and held set anew, by one walk back over a plan and its table.
fn keep(plan: &[u32], flags: &Flags, sets: &[u32], rows: &mut [u32; 32], held: &mut u32) {
    (*rows, *held) = ([0; 32], 0);
    let mut lasting = Lasting::default();
    for (at, (&line, &flag)) in plan.iter().zip(flags).enumerate().rev() {
        if lasting.line(line, flag) {
            *held |= device(line);
            if plan.get(at + 1).is_some_and(|&next| job(next) == job(line)) {
                rows[operand(line)] |= sets[at + 1];
            }
        }
    }
}

/// The quick verdict on a plan, by rows: the number of devices held to the end.
pub fn quick(plan: &[u32], rows: &[u32]) -> u64 {
    let (held, twice) = match held_to_end(plan) {
        Ok(held) => held,
        Err(refusal) => return refusal,
    };
    let Some(rows) = rows.first_chunk() else {
        return refusal(11, 32);
    };
    if twice != 0 {
        return refusal(9, twice.trailing_zeros() as usize);
    }
    let back = circles(rows);
    if back != 0 {
        return refusal(10, back.trailing_zeros() as usize);
    }
    held.count_ones().into()
}
