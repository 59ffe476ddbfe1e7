//! What is left of a plan at midday: the resumed plan that stands for the rest of one that has begun.
//!
//! Reads, of document 02: request 5, and request 2 for what is taken again. No reading has a part in it;
//! the runs hold the orders of what is left against the ends of what has begun.

use crate::line::{Line, Verb};

/// What is left of a plan.
#[derive(Clone, Debug, PartialEq, Eq)]
pub struct Left {
    /// The resumed plan.
    pub plan: Vec<Line>,
    /// For each of its lines the number, from 1, of the line that it was; for a held line that of the
    /// take by which its job came to hold the device.
    pub numbers: Vec<usize>,
}

impl Left {
    /// An order of what is left by the numbers of the whole plan.
    pub fn in_whole(&self, order: &[usize]) -> Vec<usize> {
        order.iter().map(|&line| self.numbers[line - 1]).collect()
    }
}

/// A line of what is left, whose job has its old number yet: the place it had, and its verb.
type Rest = (usize, Verb);

/// What is left of a well-formed plan, resumed or not, where the lines of these numbers are done, each of
/// which could come after those before it. A job stays if it has something to do or holds something, and
/// those that stay are numbered anew in their order.
pub fn left(plan: &[Line], begun: &[usize]) -> Left {
    let mut done: Vec<bool> = plan.iter().map(|line| line.is_held()).collect();
    for &number in begun {
        done[number - 1] = true;
    }
    let last = plan.last().map_or(0, |line| line.job);
    let rests = (1..=last).map(|job| (job, left_of(plan, &done, job)));
    let rests: Vec<(u8, Vec<Rest>)> = rests.filter(|(_, rest)| !rest.is_empty()).collect();
    let renumbered = |old: u8| {
        let place = rests.iter().position(|&(job, _)| job == old);
        place.expect("what is to be started has all its lines") as u8 + 1
    };
    let mut left = Left { plan: Vec::new(), numbers: Vec::new() };
    for (job, rest) in &rests {
        for &(at, verb) in rest {
            let verb = match verb {
                Verb::Start(started) => Verb::Start(renumbered(started)),
                other => other,
            };
            left.plan.push(Line { job: renumbered(*job), verb });
            left.numbers.push(at + 1);
        }
    }
    left
}

/// What is left of a job: first what it holds, the oldest first and each device once, then what it has
/// not done. A give that ends no more than a take again which is done has nothing left to give, since
/// the device is named once; its job waits there instead, so that it keeps its place among the steps.
fn left_of(plan: &[Line], done: &[bool], job: u8) -> Vec<Rest> {
    let of_job = (0..plan.len()).filter(|&at| plan[at].job == job);
    let (before, after): (Vec<usize>, Vec<usize>) = of_job.partition(|&at| done[at]);
    let mut open = open_after(plan, &before);
    let device = |at: usize| plan[at].verb.operand();
    let is_outer = |open: &[usize], at: usize| {
        open.iter().find(|&&other| device(other) == device(at)) == Some(&at)
    };
    let outer = open.iter().copied().filter(|&at| is_outer(&open, at));
    let mut rest: Vec<Rest> = outer.map(|at| (at, Verb::Held(device(at)))).collect();
    let mut inside = 0;
    for at in after {
        let verb = plan[at].verb;
        rest.push((at, verb));
        match verb {
            Verb::Take(_) => inside += 1,
            Verb::Give(_) if inside > 0 => inside -= 1,
            Verb::Give(_) => {
                let take = *open.last().expect("a give has its take");
                if !is_outer(&open, take) {
                    rest.last_mut().expect("it was just put there").1 = Verb::Do(1);
                }
                open.pop();
            }
            Verb::Do(_) | Verb::Start(_) | Verb::Held(_) => {}
        }
    }
    rest
}

/// The takes and held lines among these lines of a job that are not given back, the oldest first.
fn open_after(plan: &[Line], lines: &[usize]) -> Vec<usize> {
    let mut open = Vec::new();
    for &at in lines {
        match plan[at].verb {
            Verb::Take(_) | Verb::Held(_) => open.push(at),
            Verb::Give(_) => drop(open.pop()),
            Verb::Do(_) | Verb::Start(_) => {}
        }
    }
    open
}
