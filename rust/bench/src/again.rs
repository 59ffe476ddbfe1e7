//! Plans in which jobs take again what they hold: takes and gives put into plans that have none such.

use second::line::{Line, Verb};
use second::random::Random;

/// Puts takes of what their jobs hold into a plan until it has so many lines.
pub fn lengthen(random: &mut Random, plan: &mut Vec<Line>, lines: usize) {
    while plan.len() + 1 < lines {
        take_again(random, plan);
    }
    if let Some(last) = plan.last().filter(|_| plan.len() < lines) {
        plan.push(Line { job: last.job, verb: Verb::Do(1) });
    }
}

/// Lets the job of a random line take again, behind that line, what it holds there, if anything, and give it after some
/// of its further lines. Where it keeps all that it holds, the give is at times left out.
pub fn take_again(random: &mut Random, plan: &mut Vec<Line>) {
    let behind = random.below(plan.len()) + 1;
    let job = plan[behind - 1].job;
    let in_hand = in_hand(&plan[..behind], job);
    if in_hand.is_empty() {
        return;
    }
    let device = random.one_of(&in_hand);
    let (ends, keeps_all) = ends(&plan[behind..], job);
    if !keeps_all || !random.once_in(4) {
        let end = behind + random.one_of(&ends);
        plan.insert(end, Line { job, verb: Verb::Give(device) });
    }
    plan.insert(behind, Line { job, verb: Verb::Take(device) });
}

/// The devices of a job's takes whose gives have not come at the end of some lines.
fn in_hand(lines: &[Line], job: u8) -> Vec<u8> {
    let mut in_hand = Vec::new();
    for line in lines.iter().filter(|line| line.job == job) {
        match line.verb {
            Verb::Take(device) => in_hand.push(device),
            Verb::Give(_) => drop(in_hand.pop()),
            _ => {}
        }
    }
    in_hand
}

/// The places among a job's further lines where a pair that begins before them can end: what they take up to there,
/// they give. And whether what the job has in hand before them stays so to its end.
fn ends(lines: &[Line], job: u8) -> (Vec<usize>, bool) {
    let (mut ends, mut open) = (vec![0], 0);
    for (at, line) in (1..).zip(lines.iter().take_while(|line| line.job == job)) {
        match line.verb {
            Verb::Take(_) => open += 1,
            Verb::Give(_) if open == 0 => return (ends, false),
            Verb::Give(_) => open -= 1,
            _ => {}
        }
        if open == 0 {
            ends.push(at);
        }
    }
    (ends, true)
}

/// One job that takes a few devices again and again, as deep as a plan can be, and gives some of them.
pub fn deep(random: &mut Random, lines: usize) -> Vec<Line> {
    let takes = lines - random.below(lines / 2 + 1);
    let devices = [random.below(32) as u8, random.below(32) as u8, random.below(32) as u8];
    let line = |verb| Line { job: 1, verb };
    let mut in_hand: Vec<u8> = (0..takes).map(|_| random.one_of(&devices)).collect();
    let mut plan: Vec<Line> = in_hand.iter().map(|&device| line(Verb::Take(device))).collect();
    let gives = std::iter::from_fn(|| in_hand.pop().map(|device| line(Verb::Give(device))));
    plan.extend(gives.take(lines - takes));
    plan
}
