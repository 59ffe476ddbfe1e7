//! The judge of orders from elsewhere: each entry is asked every rule anew.
//!
//! Reads, of document 02: requests 1, 2 and 5, and of document 01: "Legal orders". From one entry to the
//! next nothing is kept but which lines are done; held lines are so before the first. Line numbers and
//! positions count from 1; 0 stands for an entry that is never legal.

use crate::line::{Line, Refusal, Settings, Verb, MORNING};
use crate::read::{check_packed_by, read};

/// A sentence of "Legal orders" that an entry breaks, with the line that shows it.
#[derive(Clone, Copy, Debug, PartialEq, Eq, PartialOrd, Ord)]
pub enum Rule {
    /// The entry is the number of no line.
    NoLine,
    /// Its line is done already, as a held line is from the beginning.
    Again,
    /// This line starts its job, and is not done.
    NotStarted(usize),
    /// This line stands before it in its job, and is not done.
    Earlier(usize),
    /// It takes a device that another job took at this line, which is done, and did not give back; at a
    /// held line it took it before the plan was taken up.
    Held(usize),
}

/// The rules that an entry breaks where these lines are done; none is broken by a legal next step.
pub fn broken(plan: &[Line], done: &[bool], entry: usize) -> Vec<Rule> {
    let Some(at) = entry.checked_sub(1).filter(|&at| at < plan.len()) else {
        return vec![Rule::NoLine];
    };
    let job = plan[at].job;
    let undone = |of: &dyn Fn(usize) -> bool| -> Vec<usize> {
        (0..plan.len()).filter(|&other| of(other) && !done[other]).map(|other| other + 1).collect()
    };
    let mut broken = Vec::new();
    if done[at] {
        broken.push(Rule::Again);
    }
    let starts = undone(&|other| plan[other].verb == Verb::Start(job));
    broken.extend(starts.into_iter().map(Rule::NotStarted));
    let earlier = undone(&|other| plan[other].job == job && other < at);
    broken.extend(earlier.into_iter().map(Rule::Earlier));
    let held = (0..plan.len()).filter(|&take| is_in_the_way(plan, done, take, at));
    broken.extend(held.map(|take| Rule::Held(take + 1)));
    broken
}

/// Whether a take or held line that is done keeps this line from coming: the line takes the same device
/// in another job, and the give is not done. What its own job holds a job may take again.
fn is_in_the_way(plan: &[Line], done: &[bool], take: usize, at: usize) -> bool {
    let same_device = plan[at].takes().is_some_and(|device| {
        let Line { verb, .. } = plan[take];
        verb == Verb::Take(device) || verb == Verb::Held(device)
    });
    same_device && plan[take].job != plan[at].job && done[take] && !is_given(plan, done, take)
}

/// Whether the give of a take or a held line is done. A give is that of the take made last in its job,
/// so that the takes from this one on are counted, and the held lines, until none is left open; what has
/// no give is never given.
fn is_given(plan: &[Line], done: &[bool], take: usize) -> bool {
    let mut open = 0;
    let mut job = (take..plan.len()).filter(|&other| plan[other].job == plan[take].job);
    let give = job.find(|&other| {
        match plan[other].verb {
            Verb::Take(_) | Verb::Held(_) => open += 1,
            Verb::Give(_) => open -= 1,
            Verb::Do(_) | Verb::Start(_) => {}
        }
        open == 0
    });
    give.is_some_and(|give| done[give])
}

/// Where a list goes astray, and the rules that the entry there breaks; they are none where the list
/// stops early.
#[derive(Clone, Debug, PartialEq, Eq)]
pub struct Astray {
    /// Where the list first goes wrong, counted from 1; one past its end where it stops too soon.
    pub position: usize,
    /// What it breaks.
    pub rules: Vec<Rule>,
}

/// Where a list goes astray; nothing for a legal order.
pub fn astray(plan: &[Line], entries: &[usize]) -> Option<Astray> {
    let mut done: Vec<bool> = plan.iter().map(|line| line.is_held()).collect();
    for (before, &entry) in entries.iter().enumerate() {
        let rules = broken(plan, &done, entry);
        if !rules.is_empty() {
            return Some(Astray { position: before + 1, rules });
        }
        done[entry - 1] = true;
    }
    let stops = Astray { position: entries.len() + 1, rules: Vec::new() };
    done.contains(&false).then_some(stops)
}

/// Refusal 15 where the list is no legal order.
fn judged(plan: &[Line], entries: &[usize]) -> Result<(), Refusal> {
    match astray(plan, entries) {
        Some(Astray { position, .. }) => Err(Refusal::at(15, position)),
        None => Ok(()),
    }
}

/// Judges a list of line numbers for a packed plan of the morning.
pub fn judge(plan: &[u32], order: &[u16]) -> Result<(), Refusal> {
    judge_by(MORNING, plan, order)
}

/// Judges a list of line numbers for a packed plan: the plan's own faults come first.
pub fn judge_by(settings: Settings, plan: &[u32], order: &[u16]) -> Result<(), Refusal> {
    let entries: Vec<usize> = order.iter().map(|&entry| entry.into()).collect();
    judged(&check_packed_by(settings, plan)?, &entries)
}

/// Judges a text: a plan, the first line that is two hyphens, and the entries one a line.
pub fn judge_text(text: &[u8]) -> Result<(), Refusal> {
    let lines: Vec<&[u8]> = text.split_inclusive(|&byte| byte == b'\n').collect();
    let parting = lines.iter().position(|line| line == b"--\n");
    let (plan, entries) = match parting {
        Some(at) => (&lines[..at], &lines[at + 1..]),
        None => (&lines[..], &[][..]),
    };
    let entries: Vec<usize> = entries.iter().map(|line| entry(line)).collect();
    judged(&read(&plan.concat())?, &entries)
}

/// The number in a line, or 0: where it has another form or no newline, and where it is so high
/// that no plan has that many lines.
fn entry(line: &[u8]) -> usize {
    let is_number = |digits: &[u8]| {
        let plain = !digits.is_empty() && digits.iter().all(u8::is_ascii_digit);
        plain && (digits.len() == 1 || digits[0] != b'0')
    };
    let digits = line.strip_suffix(b"\n").filter(|digits| is_number(digits));
    let number = digits.and_then(|digits| std::str::from_utf8(digits).ok()?.parse().ok());
    number.unwrap_or(0)
}

/// What the program prints for a text.
pub fn printed(text: &[u8]) -> Vec<u8> {
    match judge_text(text) {
        Ok(()) => b"legal\n".to_vec(),
        Err(refusal) => format!("refused\t{}\t{}\n", refusal.number, refusal.place).into_bytes(),
    }
}
