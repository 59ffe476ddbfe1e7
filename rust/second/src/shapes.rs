//! The shapes that request 2 of document 02 turns on: how a plan takes again what its jobs hold, what
//! a move does to such takes, and where a table is stale that a move is given. Runs count them, so
//! that none goes unmet.

use crate::judge::{Astray, Rule};
use crate::line::{Line, Refusal, Verb, DEVICES};
use crate::plain::{depths, edited, gives, stale, under};
use crate::random::Move;

/// How a plan takes devices again.
pub const TAKEN_AGAIN: [&str; 6] = [
    "a device taken again",
    "a device taken three deep",
    "a device taken over 255 deep",
    "a device taken again across another",
    "a device taken again under its lasting take",
    "a start inside what is taken again",
];

/// What a move does to takes of what their job holds.
pub const MOVED: [&str; 5] = [
    "accepted, of what is taken again",
    "accepted, away from a device that its job holds",
    "accepted, onto a device that its job holds",
    "accepted, another take comes to be outermost",
    "accepted, another take comes to take again",
];

/// What comes of a table, own or stale. No set is stale in a table that is the plan's own.
pub const TABLES: [&str; 6] = [
    "accepted, sets changed",
    "accepted, no set changed",
    "accepted, stale at the give or past it",
    "accepted, stale elsewhere",
    "refusal 14, on the way",
    "refusal 14, under the take",
];

/// What is wrong with an order in which a job takes what another has given back too few times.
pub const GIVEN_IN_PART: &str = "refusal 15, between an inner give and the outermost";

/// Whether a job takes again what it holds.
pub fn takes_again(plan: &[Line]) -> bool {
    depths(plan).into_iter().flatten().any(|depth| depth > 0)
}

/// Those of `TAKEN_AGAIN` that the plan has.
pub fn of_plan(plan: &[Line]) -> Vec<&'static str> {
    let (depths, gives) = (depths(plan), gives(plan));
    let (mut across, mut under_lasting, mut start_inside) = (false, false, false);
    // The takes of the present job that are not given back, and for each device the outermost one.
    let mut open: Vec<usize> = Vec::new();
    let mut outer = [0; DEVICES as usize];
    for (at, line) in plan.iter().enumerate() {
        if at > 0 && plan[at - 1].job != line.job {
            open.clear();
        }
        match line.verb {
            Verb::Take(device) if depths[at] == Some(0) => {
                outer[usize::from(device)] = at;
                open.push(at);
            }
            Verb::Take(device) => {
                across |= open.last().is_some_and(|&last| plan[last].verb != line.verb);
                under_lasting |= gives[outer[usize::from(device)]].is_none();
                open.push(at);
            }
            Verb::Held(device) => {
                outer[usize::from(device)] = at;
                open.push(at);
            }
            Verb::Give(_) => drop(open.pop()),
            Verb::Start(_) => start_inside |= open.iter().any(|&take| depths[take] > Some(0)),
            Verb::Do(_) => {}
        }
    }
    let deepest = depths.into_iter().flatten().max().map_or(0, |before| before + 1);
    let [again, three, over_255] = [1, 2, 255].map(|takes| deepest > takes);
    chosen(TAKEN_AGAIN, [again, three, over_255, across, under_lasting, start_inside])
}

/// Those of `MOVED` and `TABLES` that a move is, by its answer: none where it is refused for something
/// else than a stale table.
pub fn of_move(
    plan: &[Line],
    sets: &[u32],
    to: Move,
    answer: Result<u64, Refusal>,
) -> Vec<&'static str> {
    match answer {
        Ok(count) => {
            let at = to.line as usize - 1;
            let mut shapes = moved(plan, at, to.device as u8);
            shapes.push(tabled(plan, sets, at, count));
            shapes
        }
        Err(Refusal { number: 14, place }) if place <= to.line.into() => vec![TABLES[4]],
        Err(Refusal { number: 14, .. }) => vec![TABLES[5]],
        Err(_) => Vec::new(),
    }
}

/// Those of `MOVED` that hold of the take at this place, moved to a device.
fn moved(plan: &[Line], at: usize, device: u8) -> Vec<&'static str> {
    let (then, now) = (depths(plan), depths(&edited(plan, at, device)));
    let inner = |depth: Option<usize>| depth > Some(0);
    let others = |from: bool| {
        let turns = |other: usize| inner(then[other]) == from && inner(now[other]) != from;
        (0..plan.len()).any(|other| other != at && turns(other))
    };
    let (was, is) = (inner(then[at]), inner(now[at]));
    chosen(MOVED, [was, was && !is, !was && is, others(true), others(false)])
}

/// The one of `TABLES` that an accepted move of the take at this place is, by its count.
fn tabled(plan: &[Line], sets: &[u32], at: usize, count: u64) -> &'static str {
    let give = gives(plan)[at].unwrap_or(plan.len());
    match stale(plan, sets).iter().rposition(|&stale| stale) {
        None if count > 0 => TABLES[0],
        None => TABLES[1],
        Some(last) if last >= give => TABLES[2],
        Some(_) => TABLES[3],
    }
}

/// Whether a list goes astray at a take of a device that another job took more than once, and gave
/// back, but not for the last time.
pub fn given_in_part(plan: &[Line], entries: &[usize], astray: &Astray) -> bool {
    // The rules are in their order, so that nothing else is wrong; the first take is the outermost.
    let Some(&Rule::Held(outer)) = astray.rules.first() else {
        return false;
    };
    let (outer, gives) = (outer - 1, gives(plan));
    let done = &entries[..astray.position - 1];
    let given = |take: usize| gives[take].is_some_and(|give| done.contains(&(give + 1)));
    let inner = |line: &usize| plan[*line].verb == plan[outer].verb;
    under(plan, outer).into_iter().filter(inner).any(given)
}

/// The names that hold.
fn chosen<const N: usize>(names: [&'static str; N], hold: [bool; N]) -> Vec<&'static str> {
    names.into_iter().zip(hold).filter(|&(_, holds)| holds).map(|(name, _)| name).collect()
}

/// The plan with actions in place of the takes of what their job holds, and of their gives. To take
/// again keeps nobody from anything, so that the plan has the same legal orders as before.
pub fn as_actions(plan: &[Line]) -> Vec<Line> {
    let (depths, gives) = (depths(plan), gives(plan));
    let mut actions = plan.to_vec();
    for at in (0..plan.len()).filter(|&at| depths[at] > Some(0)) {
        for line in [Some(at), gives[at]].into_iter().flatten() {
            actions[line].verb = Verb::Do(0);
        }
    }
    actions
}
