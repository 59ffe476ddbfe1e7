//! Ways to mend a plan without an order that were tried: one is told only if the library accepts the edited plan.

use crate::names::Names;
use crate::words::{listed, together};
use gimmerskip::{Arc, Holds, Plan, Step, Verb};

/// A plan without an order, and who holds what in it.
pub struct Trial<'a> {
    /// The plan.
    pub plan: &'a Plan,
    /// Who holds what.
    pub holds: &'a Holds,
    /// The devices' names.
    pub names: &'a Names,
}

impl Trial<'_> {
    /// A way to break a circle: lines put before a lasting take, the lasting take put after them or, if neither will
    /// do, devices given back.
    pub fn of_circle(&self, circle: &[Arc]) -> Option<String> {
        let takes = circle.iter().map(|arc| arc.line);
        let earlier = circle.iter().find_map(|arc| self.earlier(arc));
        let moved = earlier.or_else(|| circle.iter().find_map(|arc| self.later(arc)));
        moved.or_else(|| self.of_takes(takes))
    }

    /// A way to mend by letting the job of one of these lasting takes give the device back.
    pub fn of_takes(&self, mut takes: impl Iterator<Item = u16>) -> Option<String> {
        takes.find_map(|line| self.given_back(line))
    }

    /// What an arc needs, put before what it keeps.
    fn earlier(&self, arc: &Arc) -> Option<String> {
        let (first, last) = self.leading_to(arc)?;
        let mut lines = self.plan.packed().to_vec();
        let block: Vec<u32> = lines.drain(usize::from(first) - 1..usize::from(last)).collect();
        let before = usize::from(arc.line) - 1;
        lines.splice(before..before, block);
        let block = together("line", first.into(), last.into());
        has_order(lines).then(|| told(&format!("{block} put before line {}", arc.line)))
    }

    /// What an arc keeps, put after what it needs.
    fn later(&self, arc: &Arc) -> Option<String> {
        let (_, last) = self.leading_to(arc)?;
        let mut lines = self.plan.packed().to_vec();
        lines[usize::from(arc.line) - 1..usize::from(last)].rotate_left(1);
        has_order(lines).then(|| told(&format!("line {} put after line {last}", arc.line)))
    }

    /// The lines of the arc's job that have what it needs: the take, up to its give if it has one, or, where another
    /// job has it, the start that leads there.
    fn leading_to(&self, arc: &Arc) -> Option<(u16, u16)> {
        let mut job = self.plan.step(arc.then)?.job;
        if job == arc.job {
            return Some((arc.then, self.holds.mate(arc.then).unwrap_or(arc.then)));
        }
        loop {
            let line = self.start_of(job)?;
            job = self.plan.step(line)?.job;
            if job == arc.job {
                return Some((line, line));
            }
        }
    }

    /// The line that starts a job.
    fn start_of(&self, job: u8) -> Option<u16> {
        let is_start = |step: &Step| step.verb == Verb::Start && step.operand == job;
        let mut steps = (1..).zip(self.plan.steps());
        steps.find(|(_, step)| is_start(step)).map(|(line, _)| line)
    }

    /// Gives, after its job's last line, of what a lasting take keeps and of all that the job took after it, be it
    /// again, and did not give: what was taken last is given first.
    fn given_back(&self, line: u16) -> Option<String> {
        let job = self.plan.step(line)?.job;
        let in_job = (1..).zip(self.plan.steps()).filter(|(_, step)| step.job == job);
        let of_job: Vec<(u16, Step)> = in_job.collect();
        let last = usize::from(of_job.last()?.0);
        let taken = of_job.iter().rev().filter(|(at, step)| {
            *at >= line && step.verb == Verb::Take && self.holds.mate(*at).is_none()
        });
        let gives: Vec<Step> = taken.map(|(_, take)| Step { verb: Verb::Give, ..*take }).collect();
        let devices: Vec<String> =
            gives.iter().map(|give| self.names.words(give.operand)).collect();
        let mut lines = self.plan.packed().to_vec();
        lines.splice(last..last, gives.iter().map(|give| give.packed()));
        let what = if gives.len() == 1 { "a give" } else { "gives" };
        let edit = format!("{what} of {} by job {job} after line {last}", listed(&devices));
        has_order(lines).then(|| told(&edit))
    }
}

/// Whether these packed lines are a plan with an order.
fn has_order(lines: Vec<u32>) -> bool {
    Plan::from_packed(lines).and_then(|plan| plan.verdict()).is_ok()
}

/// The sentence for a way that will do.
fn told(edit: &str) -> String {
    format!("With {edit}, for example, the plan has an order.")
}
