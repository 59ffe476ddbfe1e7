//! The second reading, what is held from the beginning: whom it hinders, and how the stretches that are
//! under way are closed before anything else is done.
//!
//! Reads, of document 02: request 5, and the rule for the order that it leaves to be written, as it
//! stands in "A plan taken up at midday" of the rules.

use super::{gives, only, outermost};
use crate::line::{Line, Verb, DEVICES};
use std::collections::BTreeMap;
use std::ops::Range;

/// What a job has to do up to the next give of what it holds from the beginning, that give included.
#[derive(Clone, Debug, PartialEq, Eq)]
pub struct Segment {
    /// The job.
    pub job: u8,
    /// Its lines, which stand together; places count from nought.
    pub lines: Range<usize>,
}

/// How far the stretches that are under way can be closed.
#[derive(Clone, Debug, PartialEq, Eq)]
pub struct Closing {
    /// The segments in the order in which they are done.
    pub segments: Vec<Segment>,
    /// Whether all are.
    pub is_through: bool,
    /// Whether one was done while that of a lower job could not be.
    pub passed_over: bool,
}

/// Why what is held from the beginning leaves a plan without an order.
#[derive(Clone, Copy, Debug, PartialEq, Eq)]
pub enum Hindrance {
    /// An outermost take is of a device that a held line keeps to the end.
    Kept,
    /// The stretches that are under way cannot all be closed.
    Stuck,
}

/// For each line the device that it holds from the beginning to the end: that of a held line without a
/// give.
pub(super) fn kept(plan: &[Line]) -> Vec<Option<u8>> {
    let lines = plan.iter().zip(gives(plan));
    lines.map(|(line, give)| held(line).filter(|_| give.is_none())).collect()
}

/// The device of a held line.
fn held(line: &Line) -> Option<u8> {
    match line.verb {
        Verb::Held(device) => Some(device),
        _ => None,
    }
}

/// The devices that held lines name, whether they are given back or not.
pub fn named(plan: &[Line]) -> u32 {
    plan.iter().filter_map(held).fold(0, |set, device| set | only(device))
}

/// What hinders every order beside 9 and the rows.
pub fn hindrance(plan: &[Line]) -> Option<Hindrance> {
    let kept = kept(plan).into_iter().flatten().fold(0, |set, device| set | only(device));
    let taken = outermost(plan).into_iter().flatten().fold(0, |set, device| set | only(device));
    if kept & taken != 0 {
        return Some(Hindrance::Kept);
    }
    (!closing(plan).is_through).then_some(Hindrance::Stuck)
}

/// Closes the stretches that are under way as far as that goes: always the segment of the lowest job
/// whose segment can be done.
pub fn closing(plan: &[Line]) -> Closing {
    let (outermost, mut keepers, mut waiting) = (outermost(plan), keepers(plan), waiting(plan));
    let can_be_done = |keepers: &Keepers, Segment { job, lines }: &Segment| {
        let mut takes = outermost[lines.clone()].iter().flatten();
        takes.all(|&device| keepers[usize::from(device)].is_none_or(|keeper| keeper == *job))
    };
    let mut closing = Closing { segments: Vec::new(), is_through: false, passed_over: false };
    while let Some(place) = waiting.iter().position(|next| can_be_done(&keepers, &next[0])) {
        let done = waiting[place].remove(0);
        waiting.retain(|segments| !segments.is_empty());
        closing.passed_over |= place > 0;
        keepers[usize::from(plan[done.lines.end - 1].verb.operand())] = None;
        closing.segments.push(done);
    }
    closing.is_through = waiting.is_empty();
    closing
}

/// For each device the job whose held line keeps it.
type Keepers = [Option<u8>; DEVICES as usize];

/// The keepers before the first step.
fn keepers(plan: &[Line]) -> Keepers {
    let mut keepers = [None; DEVICES as usize];
    for line in plan {
        if let Some(device) = held(line) {
            keepers[usize::from(device)] = Some(line.job);
        }
    }
    keepers
}

/// The segments of each job that has some, lowest job first and in each the next one first: they end at
/// the gives of its held lines, and the first begins behind these lines.
fn waiting(plan: &[Line]) -> Vec<Vec<Segment>> {
    let held = plan.iter().zip(gives(plan)).filter(|(line, _)| line.is_held());
    let mut ends: Vec<usize> = held.filter_map(|(_, give)| give).collect();
    ends.sort_unstable();
    let mut waiting: BTreeMap<u8, Vec<Segment>> = BTreeMap::new();
    for end in ends {
        let job = plan[end].job;
        let segments = waiting.entry(job).or_default();
        let first_step = || plan.iter().position(|line| line.job == job && !line.is_held());
        let begin = segments.last().map(|before| before.lines.end).or_else(first_step);
        let lines = begin.expect("the give is a step")..end + 1;
        segments.push(Segment { job, lines });
    }
    waiting.into_values().collect()
}
