//! `gimmerskip explain`: why a plan is refused, or who holds what when.

use crate::desk::Desk;
use crate::diagnosis;
use crate::judged;
use crate::names::Names;
use crate::order::kept;
use crate::trouble::{Status, Trouble};
use crate::words::{counted, held, together};
use gimmerskip::{Holds, Plan, Step, Verb};
use std::ffi::OsStr;

/// Explains one plan.
pub fn run(desk: &mut Desk, file: &OsStr) -> Result<(), Trouble> {
    let text = desk.input.plan(file)?;
    let words = match judged(&text.bytes) {
        Ok((plan, order)) => accepted(&text.name, &plan, order.held, &desk.names),
        Err(refusal) => {
            desk.met(Status::Refused);
            diagnosis::of_text(&text, refusal, &desk.names).long(&text.name, desk.out.style)
        }
    };
    desk.out.put(words.as_bytes())
}

/// What there is to say of a plan that has an order.
fn accepted(name: &str, plan: &Plan, stay: usize, names: &Names) -> String {
    let mut out = format!("{name}: accepted, {}, {}\n", counted(plan.len(), "line"), held(stay));
    let holds = plan.holds();
    let last = plan.steps().next_back().map_or(0, |step| step.job);
    for job in 1..=last {
        out.push_str(&of_job(plan, &holds, job, names));
    }
    out.push('\n');
    out.push_str(&kept(plan, names));
    out.push_str("The plan has an order: `gimmerskip order --steps` shows it.\n");
    out
}

/// What one job holds, and when.
fn of_job(plan: &Plan, holds: &Holds, job: u8, names: &Names) -> String {
    let lines: Vec<(u16, Step)> =
        (1..).zip(plan.steps()).filter(|(_, step)| step.job == job).collect();
    let (Some((first, _)), Some((last, _))) = (lines.first(), lines.last()) else {
        return String::new();
    };
    let is_start = |step: &Step| step.verb == Verb::Start && step.operand == job;
    let started = match plan.steps().position(|step| is_start(&step)) {
        Some(at) => format!("started in line {}", at + 1),
        None => "which begins by itself".to_string(),
    };
    let stands = together("line", usize::from(*first), usize::from(*last));
    let mut out = format!("\nJob {job}, {stands}, {started}:\n");
    let takes: Vec<_> = lines.iter().filter(|(_, step)| step.verb == Verb::Take).collect();
    for (line, step) in &takes {
        out.push_str(&format!("  {}\n", of_take(holds, *line, &names.words(step.operand))));
    }
    if takes.is_empty() {
        out.push_str("  holds no device\n");
    }
    out
}

/// What a take does: an outermost one has its device held up to its give or to the end, any other takes it again.
fn of_take(holds: &Holds, line: u16, device: &str) -> String {
    match (holds.takes_again(line), holds.mate(line)) {
        (false, Some(give)) => format!("holds {device} from line {line} to line {give}"),
        (false, None) => format!("holds {device} from line {line} to the end"),
        (true, Some(give)) => {
            format!("takes {device} again from line {line} to line {give}, and holds it on")
        }
        (true, None) => format!("takes {device} again in line {line}, without a give for it"),
    }
}
