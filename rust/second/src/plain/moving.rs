//! The second reading, the move of a claim.
//!
//! Reads, of document 01: "Moving a claim", and of "Refusal numbers" the cases 11 to 14; of document
//! 02: request 2, which adds the lines under the moved take and asks the edited plan for nothing, and
//! request 5, by which a way may end in a running job and a held line stays where it is.

use super::{gives, joined, lent::room, outermost};
use crate::line::{pack, Line, Refusal, Settings, Verb, DEVICES, MORNING};
use crate::read::check_packed_by;

/// The way of a line: the line, those above it in its job, the line that starts the job, those
/// above that one in its job, and so on up to the first line of a job that no line starts, which in the
/// morning is the first line of the plan. All places count from nought.
pub fn way(plan: &[Line], at: usize) -> Vec<usize> {
    let before = |&here: &usize| {
        let job = plan[here].job;
        let above = here.checked_sub(1).filter(|&above| plan[above].job == job);
        above.or_else(|| plan.iter().position(|line| line.verb == Verb::Start(job)))
    };
    std::iter::successors(Some(at), before).collect()
}

/// The lines under a take, going down: the further lines of its job as far as the give, which is not
/// among them, or all of them where there is none. With another device above them, takes among them
/// come to be outermost ones, or no longer so.
pub fn under(plan: &[Line], at: usize) -> Vec<usize> {
    let give = gives(plan)[at];
    let is_under = |line: &usize| plan[*line].job == plan[at].job && Some(*line) != give;
    (at + 1..plan.len()).take_while(is_under).collect()
}

/// For each line whether its set is stale: another one than its own claim joined with the sets that
/// are stored for its successors.
pub fn stale(plan: &[Line], sets: &[u32]) -> Vec<bool> {
    let outermost = outermost(plan);
    (0..plan.len()).map(|at| sets[at] != joined(plan, &outermost, sets, at)).collect()
}

/// Moves a claim in a plan of the morning.
pub fn move_claim(
    plan: &mut [u32],
    sets: &mut [u32],
    line: u32,
    device: u32,
) -> Result<u32, Refusal> {
    move_claim_by(MORNING, plan, sets, line, device)
}

/// Gives the take that is line number `line`, and its give, another device, in the packed plan
/// and in the table. The answer counts the lines that got another set.
pub fn move_claim_by(
    settings: Settings,
    plan: &mut [u32],
    sets: &mut [u32],
    line: u32,
    device: u32,
) -> Result<u32, Refusal> {
    let lines = check_packed_by(settings, plan)?;
    room(sets.len(), lines.len())?;
    let at = take_asked(&lines, line)?;
    let device = device_asked(device)?;
    let (way, under) = (way(&lines, at), under(&lines, at));
    let stale = stale(&lines, sets);
    if let Some(on) = way.iter().chain(&under).find(|&&on| stale[on]) {
        return Err(Refusal::at(14, on + 1));
    }
    // The edit leaves takes and gives paired as they were, so that the plan stays well-formed.
    let edited = edited(&lines, at, device);
    plan.copy_from_slice(&pack(&edited));
    let from_last_to_first = under.into_iter().rev().chain(way);
    Ok(rewrite(&edited, sets, from_last_to_first))
}

/// Joins the sets of these lines anew, one after another: each from successors that are rewritten
/// already, or that are not among them and stay. Counts those that become others.
fn rewrite(plan: &[Line], sets: &mut [u32], lines: impl Iterator<Item = usize>) -> u32 {
    let outermost = outermost(plan);
    let mut changed = 0;
    for on in lines {
        let set = joined(plan, &outermost, sets, on);
        changed += u32::from(sets[on] != set);
        sets[on] = set;
    }
    changed
}

/// The place of the line asked, if that line is a take, which a held line is not. Any number may be
/// asked.
fn take_asked(plan: &[Line], line: u32) -> Result<usize, Refusal> {
    let refusal = Refusal::at(12, line);
    let at = (line as usize).checked_sub(1).ok_or(refusal)?;
    match plan.get(at) {
        Some(line) if line.takes().is_some() => Ok(at),
        _ => Err(refusal),
    }
}

/// The device asked, if there is such a device. Any number may be asked.
fn device_asked(device: u32) -> Result<u8, Refusal> {
    match u8::try_from(device) {
        Ok(small) if device < DEVICES => Ok(small),
        _ => Err(Refusal::at(13, device)),
    }
}

/// The plan with another device in the take, and in its give if it has one.
pub fn edited(plan: &[Line], at: usize, device: u8) -> Vec<Line> {
    let mut edited = plan.to_vec();
    edited[at].verb = Verb::Take(device);
    if let Some(give) = gives(plan)[at] {
        edited[give].verb = Verb::Give(device);
    }
    edited
}
