//! The first reading, part two: all orders, tried one step after another.
//!
//! Reads, of document 01: "Legal orders", and of document 02: request 2, what it says of devices that
//! are free, and request 5, by which a resumed plan begins with its held lines done. Claims, rows,
//! circles and segments are unknown here on purpose: what this file finds is what the other reading is
//! held against.
//!
//! The plans are well-formed; line numbers count from 1 outside and from nought inside.

use crate::line::{Line, Verb, DEVICES};
use std::collections::HashSet;

/// What has to be known of a plan before its orders can be judged.
struct Plan<'a> {
    lines: &'a [Line],
    /// For each line the one its own job, or its job's start, puts before it. A running job has none.
    before: Vec<Option<usize>>,
}

impl<'a> Plan<'a> {
    fn new(lines: &'a [Line]) -> Plan<'a> {
        let before = |at: usize| match at.checked_sub(1) {
            Some(above) if lines[above].job == lines[at].job => Some(above),
            _ => {
                let start = Verb::Start(lines[at].job);
                lines.iter().position(|line| line.verb == start)
            }
        };
        Plan { lines, before: (0..lines.len()).map(before).collect() }
    }
}

/// A device as a monitor: a job comes in as often as it likes, and others when it has left as often.
#[derive(Clone, Copy, Default)]
struct Monitor {
    /// The job that was in last.
    job: u8,
    /// How often that job has taken the device and not given it back; not at all if it is free.
    inside: usize,
}

impl Monitor {
    fn lets_in(self, job: u8) -> bool {
        self.inside == 0 || self.job == job
    }

    fn enter(&mut self, job: u8) {
        *self = Monitor { job, inside: self.inside + 1 };
    }

    fn leave(&mut self) {
        self.inside -= 1;
    }
}

/// An order as far as it has come.
struct Course {
    done: Vec<bool>,
    /// The devices. Only the job inside can leave: a give follows its take in every order that
    /// keeps to the jobs' line order.
    devices: [Monitor; DEVICES as usize],
}

impl Course {
    fn new(plan: &Plan) -> Course {
        let devices = [Monitor::default(); DEVICES as usize];
        let mut course = Course { done: vec![false; plan.lines.len()], devices };
        // What is held was taken before: such a line is done, and is no step.
        for at in (0..plan.lines.len()).filter(|&at| plan.lines[at].is_held()) {
            course.come(plan, at);
        }
        course
    }

    /// Whether the line may come next. One line before it is enough to look at: that one has
    /// come only after those before itself.
    fn may_come(&self, plan: &Plan, at: usize) -> bool {
        if self.done[at] || plan.before[at].is_some_and(|before| !self.done[before]) {
            return false;
        }
        let Line { job, verb } = plan.lines[at];
        match verb {
            Verb::Take(device) => self.devices[usize::from(device)].lets_in(job),
            _ => true,
        }
    }

    fn come(&mut self, plan: &Plan, at: usize) {
        let Line { job, verb } = plan.lines[at];
        self.done[at] = true;
        match verb {
            Verb::Take(device) | Verb::Held(device) => {
                self.devices[usize::from(device)].enter(job);
            }
            Verb::Give(device) => self.devices[usize::from(device)].leave(),
            Verb::Do(_) | Verb::Start(_) => {}
        }
    }

    /// Undoes the line that came last.
    fn go_back(&mut self, plan: &Plan, at: usize) {
        let Line { job, verb } = plan.lines[at];
        self.done[at] = false;
        match verb {
            Verb::Take(device) => self.devices[usize::from(device)].leave(),
            Verb::Give(device) => self.devices[usize::from(device)].enter(job),
            _ => {}
        }
    }
}

/// How many devices are held once the order is through, or nothing where it is not legal.
pub fn held_after(plan: &[Line], order: &[usize]) -> Option<u32> {
    let plan = Plan::new(plan);
    let mut course = Course::new(&plan);
    for &number in order {
        let at = number.checked_sub(1)?;
        if at >= plan.lines.len() || !course.may_come(&plan, at) {
            return None;
        }
        course.come(&plan, at);
    }
    if course.done.contains(&false) {
        return None;
    }
    Some(course.devices.iter().filter(|device| device.inside > 0).count() as u32)
}

/// How many entries from the front may come, one after another.
pub fn beginning(plan: &[Line], order: &[usize]) -> usize {
    let plan = Plan::new(plan);
    let mut course = Course::new(&plan);
    let come = |number: &&usize| {
        let at = number.checked_sub(1).filter(|&at| at < plan.lines.len());
        let goes = at.filter(|&at| course.may_come(&plan, at));
        goes.inspect(|&at| course.come(&plan, at)).is_some()
    };
    order.iter().take_while(come).count()
}

/// Goes on as long as some line may come, always with one that is chosen of those. It may end
/// before all are done: a legal beginning need not be that of a legal order.
pub fn walk(plan: &[Line], choose: &mut dyn FnMut(&[usize]) -> usize) -> Vec<usize> {
    let plan = Plan::new(plan);
    let mut course = Course::new(&plan);
    let mut order = Vec::new();
    loop {
        let lines = (0..plan.lines.len()).filter(|&at| course.may_come(&plan, at));
        let next: Vec<usize> = lines.map(|at| at + 1).collect();
        if next.is_empty() {
            return order;
        }
        let number = choose(&next);
        course.come(&plan, number - 1);
        order.push(number);
    }
}

/// Whether the order is a legal one.
pub fn is_legal(plan: &[Line], order: &[usize]) -> bool {
    held_after(plan, order).is_some()
}

/// A search through all orders, depth first.
struct Search<'a> {
    plan: Plan<'a>,
    course: Course,
    order: Vec<usize>,
    /// Sets of done lines from which no order reached the end. Which lines may follow hangs on
    /// the set of lines done and not on their sequence: it tells how far each job has come, which
    /// jobs are started, and which takes have come without their gives. So one try a set is
    /// enough, and leaving out the others leaves out no legal order where none was found before.
    nowhere: HashSet<u128>,
}

impl Search<'_> {
    fn reaches_the_end(&mut self, done: u128) -> bool {
        if !self.course.done.contains(&false) {
            return true;
        }
        if self.nowhere.contains(&done) {
            return false;
        }
        for at in 0..self.plan.lines.len() {
            if self.course.may_come(&self.plan, at) {
                self.course.come(&self.plan, at);
                self.order.push(at + 1);
                if self.reaches_the_end(done | 1 << at) {
                    return true;
                }
                self.order.pop();
                self.course.go_back(&self.plan, at);
            }
        }
        self.nowhere.insert(done);
        false
    }
}

/// Some legal order of the plan, or nothing when every order has been tried and none is legal.
/// The plan has at most 128 lines, the width of a set of lines.
pub fn some_legal_order(plan: &[Line]) -> Option<Vec<usize>> {
    some_legal_end(plan, &[])
}

/// What may come after these entries, each of which may come after those before it, so that the whole
/// is a legal order; nothing where they cannot be gone on with to the end.
pub fn some_legal_end(plan: &[Line], begun: &[usize]) -> Option<Vec<usize>> {
    assert!(plan.len() <= 128, "too many lines for trying all orders");
    let plan = Plan::new(plan);
    let course = begun_course(&plan, begun);
    // Only lines that come later are put into the sets: the others are done in all of them.
    let mut search = Search { plan, course, order: Vec::new(), nowhere: HashSet::new() };
    search.reaches_the_end(0).then_some(search.order)
}

/// The course after entries that may come one after another.
fn begun_course(plan: &Plan, begun: &[usize]) -> Course {
    let mut course = Course::new(plan);
    for &number in begun {
        assert!(course.may_come(plan, number - 1), "what has begun could come");
        course.come(plan, number - 1);
    }
    course
}

/// Every legal end of these entries, each of which may come after those before it. They are many: this
/// is for small plans.
pub fn all_legal_ends(plan: &[Line], begun: &[usize]) -> Vec<Vec<usize>> {
    let plan = Plan::new(plan);
    let mut course = begun_course(&plan, begun);
    let mut ends = Vec::new();
    gather(&plan, &mut course, &mut Vec::new(), &mut ends);
    ends
}

/// Shows a beginning, in which each entry may come after those before it, for every set of lines that
/// one can bring. How the rest goes hangs on the set alone.
pub fn each_beginning(plan: &[Line], show: &mut dyn FnMut(&[usize])) {
    let plan = Plan::new(plan);
    let mut course = Course::new(&plan);
    begin(&plan, &mut course, &mut Vec::new(), &mut HashSet::new(), show);
}

/// Shows those that go on from this one, and were not shown.
fn begin(
    plan: &Plan,
    course: &mut Course,
    begun: &mut Vec<usize>,
    shown: &mut HashSet<Vec<bool>>,
    show: &mut dyn FnMut(&[usize]),
) {
    if !shown.insert(course.done.clone()) {
        return;
    }
    show(begun);
    for at in 0..plan.lines.len() {
        if course.may_come(plan, at) {
            course.come(plan, at);
            begun.push(at + 1);
            begin(plan, course, begun, shown, show);
            begun.pop();
            course.go_back(plan, at);
        }
    }
}

/// Gathers the legal ends that begin so.
fn gather(plan: &Plan, course: &mut Course, end: &mut Vec<usize>, ends: &mut Vec<Vec<usize>>) {
    if !course.done.contains(&false) {
        ends.push(end.clone());
    }
    for at in 0..plan.lines.len() {
        if course.may_come(plan, at) {
            course.come(plan, at);
            end.push(at + 1);
            gather(plan, course, end, ends);
            end.pop();
            course.go_back(plan, at);
        }
    }
}
