//! Refusal 15: where a list of line numbers leaves the legal orders of its plan, and by which rule.

use super::entry::wrong_form;
use super::{inner, plain_line, pointed_line, Concerned, Diagnosis, Field, Found};
use crate::list::{List, Written};
use crate::names::Names;
use crate::shown;
use crate::words::{counted, few, one_of};
use gimmerskip::{Holds, Plan, Refusal, Step, Verb};

/// What is wrong with a list that the library refuses so, for the plan in this text.
pub fn of_list(text: &[u8], list: &List, refusal: Refusal, names: &Names) -> Diagnosis {
    let found = super::plan(text).and_then(|plan| {
        let (holds, position) = (plan.holds(), refusal.place() as usize);
        let turns = turns(&plan, list.entries.get(..position.checked_sub(1)?)?)?;
        Astray { text, plan: &plan, holds: &holds, list, turns, position, names }.found()
    });
    match found {
        Some(found) => Diagnosis::of(refusal, found),
        None => Diagnosis::general(refusal),
    }
}

/// For each line the position of the entry by which it is done. The library has found each of them a legal step.
fn turns(plan: &Plan, done: &[u16]) -> Option<Vec<Option<usize>>> {
    let mut turns = vec![None; plan.len()];
    for (turn, line) in (1..).zip(done) {
        *turns.get_mut(usize::from(*line).checked_sub(1)?)? = Some(turn);
    }
    Some(turns)
}

/// A plan, a list, and how far the list goes: what is done are the lines of the entries before the position.
struct Astray<'a> {
    text: &'a [u8],
    plan: &'a Plan,
    holds: &'a Holds,
    list: &'a List,
    turns: Vec<Option<usize>>,
    position: usize,
    names: &'a Names,
}

impl Astray<'_> {
    /// The first rule that is broken, and what the next step could be. Of an entry that is no number its form is told
    /// alone.
    fn found(&self) -> Option<Found> {
        let written = self.list.written(self.position);
        let mut found = match &written {
            None => self.stops(),
            Some(entry) => match wrong_form(entry) {
                Some(words) => self.no_number(entry, &words),
                None => self.no_turn(entry)?,
            },
        };
        if self.plan.verdict().is_err() {
            let words = "The plan has no legal order, so that every list is refused somewhere; `gimmerskip explain \
                         PLAN` says why.";
            found.said.push(words.to_string());
        }
        Some(found)
    }

    /// The position at which a line was done.
    fn turn(&self, line: u16) -> Option<usize> {
        self.turns.get(usize::from(line).checked_sub(1)?).copied()?
    }

    /// The numbers of the plan's lines that have something.
    fn lines(&self, has: impl Fn(u16, Step) -> bool) -> Vec<u16> {
        let steps = (1..).zip(self.plan.steps());
        steps.filter(|(line, step)| has(*line, *step)).map(|(line, _)| line).collect()
    }

    /// The line that starts a job and is not done.
    fn start(&self, job: u8) -> Option<u16> {
        let starts = |line, step: Step| {
            step.verb == Verb::Start && step.operand == job && self.turn(line).is_none()
        };
        self.lines(starts).first().copied()
    }

    /// The first line before this one in its job that is not done.
    fn earlier(&self, line: u16, job: u8) -> Option<u16> {
        let earlier =
            |other, step: Step| step.job == job && other < line && self.turn(other).is_none();
        self.lines(earlier).first().copied()
    }

    /// The outermost take by which the device of a take is held: it is done, and its give is not. What its own job
    /// holds a take need not wait for.
    fn holder(&self, line: u16, step: Step) -> Option<u16> {
        if step.verb != Verb::Take || self.holds.takes_again(line) {
            return None;
        }
        let keeps = |other, take: Step| {
            let given = self.holds.mate(other).is_some_and(|give| self.turn(give).is_some());
            let takes = self.holds.outermost(other) == Some(other) && take.operand == step.operand;
            takes && self.turn(other).is_some() && !given
        };
        self.lines(keeps).first().copied()
    }

    /// Whether a line could come at the position.
    fn can_come(&self, line: u16, step: Step) -> bool {
        let waits = self.start(step.job).is_some() || self.earlier(line, step.job).is_some();
        self.turn(line).is_none() && !waits && self.holder(line, step).is_none()
    }

    /// What the next step could be at the position. It may lead nowhere all the same.
    fn next_step(&self) -> Option<String> {
        if self.turns.iter().all(Option::is_some) {
            return (!self.turns.is_empty()).then(|| "All lines are done by then.".to_string());
        }
        let lines = self.lines(|line, step| self.can_come(line, step));
        Some(match lines.len() {
            0 if self.plan.verdict().is_err() => "No line can come any more.".to_string(),
            0 => "No line can come any more: the mistake is in an earlier entry.".to_string(),
            _ => format!("The next step could be {}.", one_of("line", &lines)),
        })
    }

    /// The list has no entry at the position.
    fn stops(&self) -> Found {
        let missing = self.lines(|line, _| self.turn(line).is_none());
        let are = if missing.len() == 1 { "is" } else { "are" };
        let stops = match self.position {
            1 => "the list is empty".to_string(),
            past => format!("the list stops after {}", self.list.entry_words(past - 1)),
        };
        let head = format!("{stops}, and {} {are} missing", few("line", &missing));
        Found { head, said: self.next_step().into_iter().collect(), ..Found::default() }
    }

    /// The entry is no number.
    fn no_number(&self, entry: &Written, words: &str) -> Found {
        let head = format!("{} {words}", self.list.entry_words(self.position));
        let mut found = Found { head, ..Found::default() };
        if entry.first && entry.bytes.starts_with(b"refused\t") {
            found.said.push("This is what is printed for a plan that is refused.".to_string());
        }
        found
    }

    /// The entry is a number, but it is not the turn of that line.
    fn no_turn(&self, entry: &Written) -> Option<Found> {
        let line = self.list.entries.get(self.position - 1).copied()?;
        let mut found = match self.plan.step(line) {
            None => self.no_line(entry.bytes),
            Some(step) => self.no_step(line, step)?,
        };
        found.said.extend(self.next_step());
        Some(found)
    }

    /// The number is that of no line.
    fn no_line(&self, digits: &[u8]) -> Found {
        let number = shown::cut(digits);
        let words = match self.plan.len() {
            _ if digits == b"0" => "and lines count from 1".to_string(),
            0 => "but the plan has no lines".to_string(),
            lines => format!("but the plan has {}", counted(lines, "line")),
        };
        let head = format!("{} is {number}, {words}", self.list.entry_words(self.position));
        Found { head, ..Found::default() }
    }

    /// The line cannot come there.
    fn no_step(&self, line: u16, step: Step) -> Option<Found> {
        let job = step.job;
        if let Some(turn) = self.turn(line) {
            let words = format!("line {line} again: entry {turn} has done it");
            return Some(self.about(&words, vec![plain_line(self.text, line.into())?]));
        }
        if let Some(start) = self.start(job) {
            let words = format!(
                "line {line} of job {job}, but line {start}, which starts that job, is not done"
            );
            return Some(self.about(&words, self.two(line, start, Field::Job)?));
        }
        if let Some(earlier) = self.earlier(line, job) {
            let words =
                format!("line {line} of job {job}, but line {earlier} of that job is not done");
            return Some(self.about(&words, self.two(line, earlier, Field::Job)?));
        }
        self.of_held(line, step)
    }

    /// The line takes what is held.
    fn of_held(&self, line: u16, step: Step) -> Option<Found> {
        let holder = self.holder(line, step)?;
        let (job, device) = (self.plan.step(holder)?.job, self.names.words(step.operand));
        let words = format!(
            "line {line}: it takes {device}, but job {job} holds that from line {holder} on"
        );
        let mut found = self.about(&words, self.two(line, holder, Field::Operand)?);
        found.said.push(match self.holds.mate(holder) {
            Some(give) => format!("Job {job} gives it back at line {give}, which is not done."),
            None => format!("Job {job} never gives it back."),
        });
        let is_done = |give: u16| self.turn(give).is_some();
        found.said.extend(inner::told(self.holds, holder, &device, is_done));
        Some(found)
    }

    /// The words about the entry's line, with the lines that are shown.
    fn about(&self, words: &str, lines: Vec<Concerned>) -> Found {
        let head = format!("{} is {words}", self.list.entry_words(self.position));
        Found { head, lines, ..Found::default() }
    }

    /// The entry's line with a field pointed at, and another one.
    fn two(&self, line: u16, other: u16, field: Field) -> Option<Vec<Concerned>> {
        let mut lines = vec![
            plain_line(self.text, other.into())?,
            pointed_line(self.text, line.into(), field)?,
        ];
        lines.sort_by_key(|line| line.number);
        Some(lines)
    }
}
