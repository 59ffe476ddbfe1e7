//! The second reading: claims, rows, the verdict and the order handed out, in plain words.
//!
//! Reads, of document 01: "Claims and rows", "The order handed out", and of "Refusal numbers" the
//! cases 9 and 10; of document 02: request 2, by which these speak of outermost takes alone, and
//! request 5, for plans with held lines. What these keep others from, and the stretches that are closed
//! first, stand in `plain/closing.rs`, the move in `plain/moving.rs`, the entries with lent lists and
//! what is printed in `plain/lent.rs`, the rows that are kept beside the table in `plain/kept.rs`; all
//! are reached from here.
//!
//! It knows nothing of trying orders. The plans given as lines are well-formed; places count from
//! nought inside and from 1 outside.

mod closing;
mod kept;
mod lent;
mod moving;

pub use closing::{closing, hindrance, named, Closing, Hindrance, Segment};
pub use kept::{build, concerned, move_kept, quick, Beside};
pub use lent::{printed, read_into, screen, table_into, verdict_into, write_into, SCREEN};
pub use lent::{
    printed_by, read_into_by, screen_by, table_into_by, verdict_into_by, write_into_by,
};
pub use moving::{edited, move_claim, move_claim_by, stale, under, way};

use crate::line::{Line, Refusal, Verb, DEVICES};
use std::collections::BTreeMap;

/// The row of each device; it is empty for a device that is not held to the end.
pub type Rows = [u32; DEVICES as usize];

/// The set with one device.
fn only(device: u8) -> u32 {
    1 << device
}

/// The devices of a set, lowest first.
pub fn members(set: u32) -> impl Iterator<Item = u32> {
    (0..DEVICES).filter(move |device| set >> device & 1 == 1)
}

/// The lowest device of a set.
pub fn lowest(set: u32) -> Option<u32> {
    members(set).next()
}

/// Where a job begins. The rules give every started job a line.
fn first_line(plan: &[Line], job: u8) -> usize {
    let first = plan.iter().position(|line| line.job == job);
    first.expect("a started job has lines")
}

/// The lines that follow: the next of the same job, and the first of a job started here.
pub fn successors(plan: &[Line], at: usize) -> Vec<usize> {
    let mut after = Vec::new();
    if plan.get(at + 1).is_some_and(|next| next.job == plan[at].job) {
        after.push(at + 1);
    }
    if let Verb::Start(job) = plan[at].verb {
        after.push(first_line(plan, job));
    }
    after
}

/// For each take how often its job has taken the device before and not given it back, where to hold it
/// from the beginning counts as once; lines that are no takes have no number.
pub fn depths(plan: &[Line]) -> Vec<Option<usize>> {
    let mut job = 0;
    let mut open = [0; DEVICES as usize];
    let depth = |line: &Line| {
        if line.job != job {
            (job, open) = (line.job, [0; DEVICES as usize]);
        }
        match line.verb {
            Verb::Take(device) => {
                open[usize::from(device)] += 1;
                Some(open[usize::from(device)] - 1)
            }
            Verb::Held(device) => {
                open[usize::from(device)] += 1;
                None
            }
            Verb::Give(device) => {
                open[usize::from(device)] -= 1;
                None
            }
            Verb::Do(_) | Verb::Start(_) => None,
        }
    };
    plan.iter().map(depth).collect()
}

/// For each line the device it takes, if it is an outermost take: one of a device that its job does
/// not hold there.
pub fn outermost(plan: &[Line]) -> Vec<Option<u8>> {
    let lines = plan.iter().zip(depths(plan));
    lines.map(|(line, depth)| line.takes().filter(|_| depth == Some(0))).collect()
}

/// What is claimed at a line, where these are the outermost takes, joined with the sets that are
/// stored for its successors.
fn joined(plan: &[Line], outermost: &[Option<u8>], sets: &[u32], at: usize) -> u32 {
    let own = outermost[at].map_or(0, only);
    successors(plan, at).into_iter().fold(own, |set, next| set | sets[next])
}

/// The claim set of each line.
pub fn table(plan: &[Line]) -> Vec<u32> {
    let outermost = outermost(plan);
    let mut sets = vec![0; plan.len()];
    // Successors stand further down, also those in a started job, for its number is higher.
    for at in (0..plan.len()).rev() {
        sets[at] = joined(plan, &outermost, &sets, at);
    }
    sets
}

/// For each take, whether it is an outermost one or not, and each held line, the line of its give: a
/// give is that of what was taken or held last of those that wait for theirs. Other lines, and those of
/// devices never given back, have none.
pub fn gives(plan: &[Line]) -> Vec<Option<usize>> {
    let mut gives = vec![None; plan.len()];
    let mut waiting = Vec::new();
    for (at, line) in plan.iter().enumerate() {
        match line.verb {
            Verb::Take(_) | Verb::Held(_) => waiting.push(at),
            // What an earlier job never gives back stays at the bottom, where no give reaches.
            Verb::Give(_) => gives[waiting.pop().expect("a give has its take")] = Some(at),
            Verb::Do(_) | Verb::Start(_) => {}
        }
    }
    gives
}

/// For each line the device it takes to the end, if it is a lasting take: one that is outermost and
/// has no give.
pub fn lasting(plan: &[Line]) -> Vec<Option<u8>> {
    let lines = outermost(plan).into_iter().zip(gives(plan));
    lines.map(|(device, give)| device.filter(|_| give.is_none())).collect()
}

/// The rows.
pub fn rows(plan: &[Line]) -> Rows {
    rows_by(plan, &table(plan))
}

/// The rows that a table gives, whether it is the plan's own or not.
pub fn rows_by(plan: &[Line], sets: &[u32]) -> Rows {
    let mut rows = [0; DEVICES as usize];
    for (at, device) in lasting(plan).into_iter().enumerate() {
        if let Some(device) = device {
            for next in successors(plan, at) {
                rows[usize::from(device)] |= sets[next];
            }
        }
    }
    rows
}

/// The devices that lie one step further on than those of the set.
fn one_further(rows: &Rows, set: u32) -> u32 {
    members(set).fold(0, |far, device| far | rows[device as usize])
}

/// The fewest steps, one or more, in which the device leads back to itself.
pub fn circle(rows: &Rows, device: u32) -> Option<u32> {
    let mut reached = 1 << device;
    for steps in 1..=DEVICES {
        reached = one_further(rows, reached);
        if reached >> device & 1 == 1 {
            return Some(steps);
        }
    }
    // A shortest circle meets no device twice, so it has no more steps than there are devices.
    None
}

/// The devices that lead back to themselves, whatever the rows: they need be no plan's.
pub fn circles(rows: &Rows) -> u32 {
    let back = (0..DEVICES).filter(|&device| circle(rows, device).is_some());
    back.fold(0, |set, device| set | 1 << device)
}

/// The shortest circle of all.
pub fn shortest_circle(rows: &Rows) -> Option<u32> {
    (0..DEVICES).filter_map(|device| circle(rows, device)).min()
}

/// The order of an accepted plan.
#[derive(Clone, Debug, PartialEq, Eq)]
pub struct Order {
    /// The line numbers, from 1, in the order in which the lines are done.
    pub lines: Vec<u16>,
    /// How many devices are held when everything is done.
    pub held: u32,
}

/// The devices held to the end, and those of them that are so by two lines or more: lasting takes, and
/// held lines without a give.
pub fn held_to_end(plan: &[Line]) -> (u32, u32) {
    let (mut once, mut twice) = (0, 0);
    for device in lasting(plan).into_iter().chain(closing::kept(plan)).flatten() {
        twice |= once & only(device);
        once |= only(device);
    }
    (once, twice)
}

/// How many devices are held to the end, or refusal 9 by the plan, or 10 by rows, which need not be its.
fn still_held(plan: &[Line], rows: &Rows) -> Result<u32, Refusal> {
    let (held, twice) = held_to_end(plan);
    if let Some(device) = lowest(twice) {
        return Err(Refusal::at(9, device));
    }
    if let Some(device) = lowest(circles(rows)) {
        return Err(Refusal::at(10, device));
    }
    Ok(held.count_ones())
}

/// The verdict on a plan: its order, or refusal 9 or 10. Where no device leads back to itself, 10 tells
/// of what is held from the beginning, at the lowest such device.
pub fn verdict(plan: &[Line]) -> Result<Order, Refusal> {
    let held = still_held(plan, &rows(plan))?;
    if hindrance(plan).is_some() {
        let device = lowest(named(plan)).expect("something is held that hinders");
        return Err(Refusal::at(10, device));
    }
    Ok(Order { lines: Course::run(plan).order, held })
}

/// Whether, while the order is handed out, a lasting take is done by (b) though another with a
/// lower device stands next too, but is blocked.
pub fn passes_over(plan: &[Line]) -> bool {
    Course::run(plan).passed_over
}

/// The first step of each job that no line starts: job 1, and those that are running.
fn standing_first(plan: &[Line]) -> BTreeMap<u8, usize> {
    let mut standing = BTreeMap::new();
    for (at, line) in plan.iter().enumerate().filter(|(_, line)| !line.is_held()) {
        standing.entry(line.job).or_insert(at);
    }
    for line in plan {
        if let Verb::Start(job) = line.verb {
            standing.remove(&job);
        }
    }
    standing
}

/// The order as far as it has been handed out.
struct Course<'a> {
    plan: &'a [Line],
    gives: Vec<Option<usize>>,
    outermost: Vec<Option<u8>>,
    lasting: Vec<Option<u8>>,
    /// The next line of each started job that has one, lowest job first.
    standing: BTreeMap<u8, usize>,
    done: Vec<bool>,
    order: Vec<u16>,
    passed_over: bool,
}

impl<'a> Course<'a> {
    /// Hands out the whole order: what is under way is closed first, then come (a) and (b). Where
    /// neither finds a line it ends short, and a short order is no legal one: so a wrong verdict would
    /// come to light.
    fn run(plan: &'a [Line]) -> Course<'a> {
        let mut course = Course {
            plan,
            gives: gives(plan),
            outermost: outermost(plan),
            lasting: lasting(plan),
            standing: standing_first(plan),
            done: plan.iter().map(|line| line.is_held()).collect(),
            order: Vec::new(),
            passed_over: false,
        };
        for line in closing(plan).segments.into_iter().flat_map(|segment| segment.lines) {
            course.step(line);
        }
        while course.go_on() || course.take_to_the_end() {}
        course
    }

    /// (a): the lowest started job that does not stand at a lasting take goes on, through a whole
    /// pair where its next line is an outermost take. One that takes again is a line like any other.
    fn go_on(&mut self) -> bool {
        let mut next = self.standing.values();
        let Some(&at) = next.find(|&&at| self.lasting[at].is_none()) else {
            return false;
        };
        let give = self.gives[at].filter(|_| self.outermost[at].is_some());
        for line in at..=give.unwrap_or(at) {
            self.step(line);
        }
        true
    }

    /// (b): all jobs stand at lasting takes. One whose device somebody else is still to take has
    /// to wait; of the others the lowest device comes first.
    fn take_to_the_end(&mut self) -> bool {
        let mut takes: Vec<(u8, usize)> = Vec::new();
        for &at in self.standing.values() {
            takes.extend(self.lasting[at].map(|device| (device, at)));
        }
        takes.sort_unstable();
        let Some(first_free) = takes.iter().position(|&(_, at)| self.is_free(at)) else {
            return false;
        };
        self.passed_over |= first_free > 0;
        self.step(takes[first_free].1);
        true
    }

    /// Whether no other undone line takes the device that this line takes; to take it again counts
    /// for nothing.
    fn is_free(&self, at: usize) -> bool {
        let takes = |line: usize| self.outermost[line] == self.outermost[at];
        !(0..self.plan.len()).any(|line| line != at && !self.done[line] && takes(line))
    }

    /// Does one line.
    fn step(&mut self, at: usize) {
        let job = self.plan[at].job;
        self.done[at] = true;
        self.order.push(at as u16 + 1);
        if self.plan.get(at + 1).is_some_and(|next| next.job == job) {
            self.standing.insert(job, at + 1);
        } else {
            self.standing.remove(&job);
        }
        if let Verb::Start(started) = self.plan[at].verb {
            self.standing.insert(started, first_line(self.plan, started));
        }
    }
}
