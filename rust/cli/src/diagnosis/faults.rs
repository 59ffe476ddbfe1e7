//! Refusals 4 to 7: lines that are right by themselves, but not after the others.

use super::{plain_line, pointed_line, steps, Field, Found};
use crate::names::Names;
use crate::words::{listed, together};
use gimmerskip::{Refusal, Step, Verb};

/// A text, its steps, and the line at the place of a refusal.
struct Place<'a> {
    text: &'a [u8],
    steps: Vec<Step>,
    number: usize,
    names: &'a Names,
}

/// What is wrong with the line at the place of a refusal from 4 to 7.
pub fn of_line(text: &[u8], refusal: Refusal, names: &Names) -> Option<Found> {
    let place = Place { text, steps: steps(text), number: refusal.place() as usize, names };
    match refusal {
        Refusal::JobOutOfSequence(_) => place.out_of_sequence(),
        Refusal::BadStart(_) => place.bad_start(),
        Refusal::NeverStarted(_) => place.never_started(),
        Refusal::GiveWithoutTake(_) => place.give_without_take(),
        _ => None,
    }
}

/// A take whose give has not come.
struct Taken {
    device: u8,
    line: usize,
    /// Whether the job held the device already.
    again: bool,
}

/// What a job has in hand before a line of it, the latest take last.
fn in_hand(steps: &[Step], number: usize) -> Vec<Taken> {
    let mut held: Vec<Taken> = Vec::new();
    let Some(here) = number.checked_sub(1).and_then(|at| steps.get(at)) else { return held };
    for (line, step) in (1..number).zip(steps).filter(|(_, step)| step.job == here.job) {
        match step.verb {
            Verb::Take => {
                let device = step.operand;
                let again = held.iter().any(|taken| taken.device == device);
                held.push(Taken { device, line, again });
            }
            Verb::Give => drop(held.pop()),
            _ => {}
        }
    }
    held
}

impl Place<'_> {
    /// The step at the place.
    fn step(&self) -> Option<Step> {
        self.steps.get(self.number.checked_sub(1)?).copied()
    }

    /// What was found, with this line, another one if there is one, and a field of this one pointed at.
    fn found(&self, head: String, other: Option<usize>, field: Field) -> Option<Found> {
        let other = other.and_then(|number| plain_line(self.text, number));
        let mut lines: Vec<_> = other.into_iter().collect();
        lines.push(pointed_line(self.text, self.number, field)?);
        lines.sort_by_key(|line| line.number);
        Some(Found { head, lines, ..Found::default() })
    }

    /// The first and the last line of a job, if it has lines.
    fn lines_of(&self, job: u8) -> Option<(usize, usize)> {
        let first = self.steps.iter().position(|step| step.job == job)?;
        let count = self.steps[first..].iter().take_while(|step| step.job == job).count();
        Some((first + 1, first + count))
    }

    /// 4.
    fn out_of_sequence(&self) -> Option<Found> {
        let (number, job) = (self.number, self.step()?.job);
        if number == 1 {
            let head = format!("line 1 is of job {job}, and a plan begins with job 1");
            let mend = "number the jobs from 1, in the order in which they stand".to_string();
            return Some(Found { mend, ..self.found(head, None, Field::Job)? });
        }
        let before = self.steps[number - 2].job;
        let head = format!("line {number} is of job {job}, but the line before is of job {before}");
        let mut found = self.found(head, Some(number - 1), Field::Job)?;
        found.said.push(match before {
            64 => "After job 64, the last that there is, only its own lines can come.".to_string(),
            _ => format!("Here a line of job {before} or of job {} can come.", before + 1),
        });
        let (other, mend) = self.elsewhere(before, job)?;
        found.said.push(other);
        found.mend = mend;
        Some(found)
    }

    /// The jobs that were left out, or where the job's lines ended; and how that is mended.
    fn elsewhere(&self, before: u8, job: u8) -> Option<(String, String)> {
        if job > before {
            let left = together("job", usize::from(before) + 1, usize::from(job) - 1);
            let are = if job - before > 2 { "are" } else { "is" };
            let mend = "number the jobs without gaps, in the order in which they stand";
            return Some((format!("Between them {left} {are} left out."), mend.to_string()));
        }
        let (_, last) = self.lines_of(job)?;
        let mend =
            format!("keep each job's lines together: put line {} after line {last}", self.number);
        Some((format!("The lines of job {job} ended with line {last}."), mend))
    }

    /// 5.
    fn bad_start(&self) -> Option<Found> {
        let step = self.step()?;
        let is_same = |other: &Step| other.verb == Verb::Start && other.operand == step.operand;
        let same = self.steps[..self.number - 1].iter().position(is_same);
        match same {
            _ if step.operand <= step.job => self.not_higher(step),
            Some(at) => self.started_twice(step, at + 1),
            None if self.lines_of(step.operand).is_none() => self.without_lines(step),
            None => None,
        }
    }

    /// A job that starts itself or one before it.
    fn not_higher(&self, step: Step) -> Option<Found> {
        let (number, job, started) = (self.number, step.job, step.operand);
        let what = match started == job {
            true => "is its own job".to_string(),
            false => format!("is lower than its own, job {job}"),
        };
        let head = format!("line {number} starts job {started}, which {what}");
        let said = vec!["A job can start only jobs with higher numbers.".to_string()];
        let mend = "take the start out, or number the jobs so that a job starts only later ones";
        Some(Found { said, mend: mend.to_string(), ..self.found(head, None, Field::Operand)? })
    }

    /// A job that an earlier line starts already.
    fn started_twice(&self, step: Step, line: usize) -> Option<Found> {
        let (number, started) = (self.number, step.operand);
        let head = format!("line {number} starts job {started}, which line {line} starts already");
        let mend = "take one of the two starts out".to_string();
        Some(Found { mend, ..self.found(head, Some(line), Field::Operand)? })
    }

    /// A job that is started and has no lines.
    fn without_lines(&self, step: Step) -> Option<Found> {
        let (number, started) = (self.number, step.operand);
        let head = format!("line {number} starts job {started}, which has no lines");
        let last = usize::from(self.steps.last()?.job);
        let said = vec![format!("The plan has lines of {}.", together("job", 1, last))];
        let mend = format!("give job {started} lines, or take the start out");
        Some(Found { said, mend, ..self.found(head, None, Field::Operand)? })
    }

    /// 6.
    fn never_started(&self) -> Option<Found> {
        let (number, job) = (self.number, self.step()?.job);
        let head = format!("line {number} begins job {job}, which no line starts");
        let found = self.found(head, None, Field::Job)?;
        let could = match job {
            0 | 1 => return None,
            2 => "Only job 1 could start it.".to_string(),
            _ => format!("Each of {} could start it.", together("job", 1, usize::from(job) - 1)),
        };
        let into = if job == 2 { "job 1" } else { "one of them" };
        let mend = format!("put a start of job {job} into {into}");
        Some(Found { said: vec![could], mend, ..found })
    }

    /// 7.
    fn give_without_take(&self) -> Option<Found> {
        let step = self.step()?;
        let held = in_hand(&self.steps, self.number);
        match held.last() {
            None => self.nothing_in_hand(step),
            Some(last) => {
                let mut found = self.not_the_latest(step, last, &held)?;
                found.said.insert(0, self.holding(step.job, &held));
                Some(found)
            }
        }
    }

    /// A give where the job holds nothing.
    fn nothing_in_hand(&self, step: Step) -> Option<Found> {
        let (number, job, device) = (self.number, step.job, self.names.words(step.operand));
        let head = format!("line {number} gives {device}, but job {job} holds nothing there");
        let mend = format!("take the give out, or let job {job} take {device} before it");
        let said = self.given_before(step).into_iter().map(|line| self.gave(step, line)).collect();
        Some(Found { said, mend, ..self.found(head, self.given_before(step), Field::Operand)? })
    }

    /// A give of what the job took before the latest, or does not hold.
    fn not_the_latest(&self, step: Step, last: &Taken, held: &[Taken]) -> Option<Found> {
        let (number, job, device) = (self.number, step.job, self.names.words(step.operand));
        let (line, again) = (last.line, if last.again { " again" } else { "" });
        let last = self.names.words(last.device);
        if held.iter().any(|taken| taken.device == step.operand) {
            let head = format!(
                "line {number} gives {device}, but job {job} took {last}{again} after it, in line {line}"
            );
            let mend = format!("give {last} back first: what was taken last is given first");
            return Some(Found { mend, ..self.found(head, Some(line), Field::Operand)? });
        }
        let head = format!("line {number} gives {device}, which job {job} does not hold there");
        let mend = format!("give {last} there, which was taken last, or take the line out");
        let said = self.given_before(step).into_iter().map(|line| self.gave(step, line)).collect();
        Some(Found { said, mend, ..self.found(head, Some(line), Field::Operand)? })
    }

    /// What a job holds, in words: each device once, from its outermost take on.
    fn holding(&self, job: u8, held: &[Taken]) -> String {
        let words = |taken: &Taken| {
            format!("{} from line {} on", self.names.words(taken.device), taken.line)
        };
        let words: Vec<String> = held.iter().filter(|taken| !taken.again).map(words).collect();
        format!("There job {job} holds {}.", listed(&words))
    }

    /// The latest line before the place in which the job gave the same device.
    fn given_before(&self, step: Step) -> Option<usize> {
        let line = self.steps[..self.number - 1].iter().rposition(|other| *other == step)?;
        Some(line + 1)
    }

    /// That the job gave the device back earlier.
    fn gave(&self, step: Step, line: usize) -> String {
        format!("Job {} gave {} back in line {line}.", step.job, self.names.words(step.operand))
    }
}
