//! Orders from elsewhere for the comparisons: some that are legal and not those handed out, and some
//! with damage done to them.
//!
//! Reads, of document 02: requests 1 and 2. Whether a list is legal is left to the readings; only
//! [`mixed`] keeps a legal one legal.

use crate::line::{Line, Verb};
use crate::orders;
use crate::plain::{depths, gives, way};
use crate::random::Random;

/// A list that goes on, by random choice, as long as some line may come. Where what it takes to the
/// end or holds for a while leaves no line that may come, it stops early.
pub fn walked(random: &mut Random, plan: &[Line]) -> Vec<u16> {
    let order = orders::walk(plan, &mut |next| random.one_of(next));
    order.into_iter().map(|line| line as u16).collect()
}

/// A legal order with its entries mixed, which stays legal: again and again some entry goes towards
/// the front, by a random way or until the one before it has to stay there.
pub fn mixed(random: &mut Random, plan: &[Line], order: &[u16]) -> Vec<u16> {
    let mut mixed = order.to_vec();
    for _ in 0..2 * order.len() {
        let from = random.below(order.len());
        let least = random.below(order.len());
        let mut at = from;
        while at > least && may_change(plan, mixed[at - 1], mixed[at]) {
            mixed.swap(at - 1, at);
            at -= 1;
        }
    }
    mixed
}

/// Whether two entries of a legal order that follow each other may change places: they are of two
/// jobs, the first does not start that of the second, and does not give what the second takes.
fn may_change(plan: &[Line], first: u16, second: u16) -> bool {
    let [first, second] = [first, second].map(|entry| plan[usize::from(entry) - 1]);
    let gives = matches!(first.verb, Verb::Give(device) if second.takes() == Some(device));
    first.job != second.job && first.verb != Verb::Start(second.job) && !gives
}

/// A list in which a take comes too soon: right behind a give of the device by another job, which
/// took it more than once and has not given it back as often. The take's own job has come up to it by
/// then. There is none where the list has no such place.
pub fn too_soon(random: &mut Random, plan: &[Line], order: &[u16]) -> Option<Vec<u16>> {
    let (depths, gives) = (depths(plan), gives(plan));
    let inner = (0..plan.len()).filter(|&take| depths[take] > Some(0));
    let inner_gives: Vec<usize> = inner.filter_map(|take| gives[take]).collect();
    let place = |line: usize| order.iter().position(|&entry| usize::from(entry) == line + 1);
    let mut found = Vec::new();
    for give in inner_gives {
        let Some(behind) = place(give) else { continue };
        let Line { job, verb } = plan[give];
        let wants = |take: usize| {
            let takes = plan[take].takes() == Some(verb.operand()) && plan[take].job != job;
            let come_up = |before: usize| place(before).is_some_and(|place| place < behind);
            takes && way(plan, take).get(1).is_some_and(|&before| come_up(before))
        };
        let takes = (0..plan.len()).filter(|&take| wants(take));
        found.extend(takes.map(|take| (behind, take as u16 + 1)));
    }
    if found.is_empty() {
        return None;
    }
    let (behind, take) = random.one_of(&found);
    let rest = order[behind + 1..].iter().filter(|&&entry| entry != take);
    Some(order[..=behind].iter().chain([&take]).chain(rest).copied().collect())
}

/// An entry that may stand anywhere: a line of so many, or a number that no plan's line has or that
/// this plan's lines do not reach.
fn any_entry(random: &mut Random, lines: usize) -> u16 {
    match random.below(8) {
        0 => 0,
        1 => u16::MAX,
        2 => lines as u16 + 1,
        3 => random.bits() as u16,
        _ => random.below(lines + 1) as u16,
    }
}

/// Damages an order of a plan of so many lines: entries change places, come twice, go, come in, or
/// become others, or the list stops early or goes on.
pub fn damaged(random: &mut Random, lines: usize, order: &[u16]) -> Vec<u16> {
    let mut list = order.to_vec();
    let any = any_entry(random, lines);
    if list.is_empty() {
        return vec![any];
    }
    let (at, other) = (random.below(list.len()), random.below(list.len()));
    match random.below(10) {
        0 => list.swap(at, other),
        1 => list.swap(at, (at + 1).min(order.len() - 1)),
        2 => list.insert(other, list[at]),
        3 => list[at] = list[other],
        4 => drop(list.remove(at)),
        5 => list.insert(at, any),
        6 => list[at] = any,
        7 => list.truncate(at),
        8 => list.push(any),
        _ => {
            let entry = list.remove(at);
            list.insert(other, entry);
        }
    }
    list
}
