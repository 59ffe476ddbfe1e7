//! Refusals 9 and 10: plans that are right as written, but have no order.

use super::tried::Trial;
use super::{inner, plan, pointed_line, Field, Found};
use crate::names::{Names, DEVICES};
use crate::words::listed;
use gimmerskip::{Arc, Holds, Plan};

/// 9: all lasting takes of the device.
pub fn two_lasting(text: &[u8], device: u32, names: &Names) -> Option<Found> {
    let plan = plan(text)?;
    let device = u8::try_from(device).ok()?;
    let holds = plan.holds();
    let takes = holds.lasting_takes(device);
    if takes.len() < 2 {
        return None;
    }
    let words = names.words(device);
    let lines = match takes.len() {
        0..=6 => format!("lines {}", listed(&takes)),
        count => format!("{count} lines, the first two being {} and {}", takes[0], takes[1]),
    };
    let said = takes.iter().flat_map(|&line| {
        let keeps = plan.step(line).map(|take| {
            format!("Job {} takes {words} in line {line} and never gives it back.", take.job)
        });
        keeps.into_iter().chain(inner::told(&holds, line, &words, |_| true))
    });
    let shown = takes.iter().map(|&line| pointed_line(text, line.into(), Field::Operand));
    let jobs = if takes.len() == 2 { "one of the two jobs" } else { "all but one of these jobs" };
    Some(Found {
        head: format!("{words} is taken and kept to the end in {lines}: only one can keep it"),
        lines: shown.collect::<Option<_>>()?,
        said: said.collect(),
        mend: format!("let {jobs} give the device back"),
        example: Trial { plan: &plan, holds: &holds, names }.of_takes(takes.iter().copied()),
    })
}

/// 10: a shortest circle through the device and, where other devices have a shorter one, that one too.
pub fn leads_back(text: &[u8], device: u32, names: &Names) -> Option<Found> {
    let plan = plan(text)?;
    let device = u8::try_from(device).ok()?;
    let holds = plan.holds();
    let circle = holds.circle_through(device)?;
    let shorter = shortest(&holds).filter(|other| other.len() < circle.len());
    let told = Told { plan: &plan, holds: &holds, names };
    let head = told.head(&circle);
    let mut said = told.said(&circle);
    if let Some(other) = &shorter {
        said.extend([
            String::new(),
            format!("A shorter circle is there too: {}.", told.head(other)),
        ]);
        said.extend(told.said(other));
    }
    let keeps = pointed_line(text, circle.first()?.line.into(), Field::Operand)?;
    // Whoever breaks the shortest circle has the least to look at.
    let mend = mend(&plan, shorter.as_ref().unwrap_or(&circle), names);
    let trial = Trial { plan: &plan, holds: &holds, names };
    let example = shorter.iter().chain([&circle]).find_map(|circle| trial.of_circle(circle));
    Some(Found { head, lines: vec![keeps], said, mend, example })
}

/// The shortest of all circles, and of several the one through the lowest device.
fn shortest(holds: &Holds) -> Option<Vec<Arc>> {
    (0..DEVICES as u8).filter_map(|device| holds.circle_through(device)).min_by_key(Vec::len)
}

/// A plan with circles, which are told.
struct Told<'a> {
    plan: &'a Plan,
    holds: &'a Holds,
    names: &'a Names,
}

impl Told<'_> {
    /// A circle in one line.
    fn head(&self, circle: &[Arc]) -> String {
        let words = circle.first().map(|arc| self.names.words(arc.device)).unwrap_or_default();
        match circle.len() {
            1 => format!("{words} is needed behind the line that keeps it to the end"),
            count => format!("{words} leads back to itself, in a circle of {count} devices"),
        }
    }

    /// The arcs of a circle, and why it cannot be.
    fn said(&self, circle: &[Arc]) -> Vec<String> {
        let mut said: Vec<String> = circle.iter().map(|arc| self.arc(arc)).collect();
        said.push(String::new());
        said.push(match circle {
            [first, _, ..] => format!(
                "What a job keeps to the end no other can take any more: so each of these devices would have to be\n\
                 kept before the next one is, and {} before itself.",
                self.names.words(first.device)
            ),
            _ => "What a job keeps to the end no other can take any more.".to_string(),
        });
        said.extend(circle.iter().filter_map(|arc| {
            inner::told(self.holds, arc.line, &self.names.words(arc.device), |_| true)
        }));
        said
    }

    /// One step of a circle in words. The line that needs a device may be the very one that keeps it.
    fn arc(&self, arc: &Arc) -> String {
        let (device, needs) = (self.names.words(arc.device), self.names.words(arc.needs));
        let (job, line, then) = (arc.job, arc.line, arc.then);
        let verb = if self.holds.lasts(then) { "keeps" } else { "needs" };
        let words = format!(
            "job {job} keeps {device} from line {line} on; after that line {then} {verb} {needs}"
        );
        match self.plan.step(then) {
            Some(step) if step.job != job => {
                format!("  {words} (in job {}, started after that)", step.job)
            }
            _ => format!("  {words}"),
        }
    }
}

/// How a circle is broken. What can be put before a lasting take is the need itself or, where another job has it, the
/// start that leads there.
fn mend(plan: &Plan, circle: &[Arc], names: &Names) -> String {
    if let [arc] = circle {
        let (device, job, line) = (names.words(arc.device), arc.job, arc.line);
        let start = format!("put the start that leads to line {} before line {line}", arc.then);
        return format!("let job {job} give {device} back, or {start}");
    }
    let in_job = |arc: &&Arc| plan.step(arc.then).is_some_and(|step| step.job == arc.job);
    let own = circle.iter().filter(in_job).count();
    let mut ways = vec!["let a job give back what it keeps"];
    if own > 0 {
        ways.push("let it have first what it takes after that");
    }
    if own < circle.len() {
        ways.push("let it start first the job that needs a device");
    }
    format!("break the circle at one place: {}", ways.join(", or "))
}
