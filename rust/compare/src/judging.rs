//! Orders from elsewhere: one call of the proved judge, held against the second program, for every
//! list that a small plan can be given, and for random ones, legal and damaged, of plans up to the
//! limits. The paragraphs are requests 1 and 2 of document 02 and "Legal orders" of document 01.

use crate::asked::Asked;
use crate::entries::{answer, lent_plan, stays};
use crate::lent::Lent;
use crate::plans::{any_plan, any_ring, long_plan, short_plan};
use crate::run::{Answer, Run};
use crate::wrapper::as_second;
use gimmerskip::{raw, Plan};
use second::damage::damaged_packed;
use second::elsewhere::{damaged, mixed, too_soon, walked};
use second::judge::{self, Astray, Rule};
use second::line::pack;
use second::plain::verdict;
use second::random::Random;
use second::read::check_packed;
use second::small::small_plans;
use second::{shapes, Line};

/// Every list of different lines is tried for plans of up to so many lines, legal orders and
/// beginnings of orders among them.
const ARRANGED: usize = 5;
/// Every list of any entries is tried for plans of up to so many.
const ANY: usize = 3;

/// What is wrong at the position of a refusal 15: the sentences of "Legal orders", and one case of a
/// device that is held.
pub const CLASSES: [&str; 7] = [
    "refusal 15, the number of no line",
    "refusal 15, a line that is done",
    "refusal 15, a job that is not started",
    "refusal 15, an earlier line is not done",
    "refusal 15, a device that is held",
    "refusal 15, the list stops early",
    shapes::GIVEN_IN_PART,
];

/// The class of a list that goes astray, by the first rule that is broken.
fn class(astray: &Astray) -> &'static str {
    CLASSES[match astray.rules.first() {
        Some(Rule::NoLine) => 0,
        Some(Rule::Again) => 1,
        Some(Rule::NotStarted(_)) => 2,
        Some(Rule::Earlier(_)) => 3,
        Some(Rule::Held(_)) => 4,
        None => 5,
    }]
}

/// Counts a list in its classes.
fn sort(run: &mut Run, plan: &[u32], order: &[u16], wanted: &Answer) {
    run.meet("judge", wanted);
    let entries: Vec<usize> = order.iter().map(|&entry| entry.into()).collect();
    let Ok(plan) = check_packed(plan) else {
        return;
    };
    if let Some(astray) = judge::astray(&plan, &entries) {
        run.tally.meet(&format!("judge: {}", class(&astray)));
        if shapes::given_in_part(&plan, &entries, &astray) {
            run.tally.meet(&format!("judge: {}", shapes::GIVEN_IN_PART));
        }
    }
}

/// Compares a call of the judge, and of the wrapper's. What stands behind the list could go on from
/// it.
pub fn judge(run: &mut Run, plan: &[u32], order: &[u16]) -> Answer {
    let asked = Asked::Order { plan, order };
    let lent = lent_plan(plan);
    let next = order.last().map_or(1, |last| last.wrapping_add(1));
    let entries = Lent::among(order, &[next]);
    let said = answer(raw::judge(lent.list(), entries.list()));
    let wanted = judge::judge(plan, order).map(|()| 0);
    sort(run, plan, order, &wanted);
    run.tally.compare("judge: the answer", &asked, wanted, said);
    stays(run, "judge", &asked, plan, &lent);
    stays(run, "judge", &asked, order, &entries);
    let wrapped = Plan::from_packed(plan).and_then(|plan| plan.judge(order));
    let wrapped = wrapped.map(|()| 0).map_err(as_second);
    run.tally.compare("judge: the wrapper's answer", &asked, wanted, wrapped);
    said
}

/// Every list of different lines of a plan.
fn arranged(run: &mut Run, plan: &[u32], list: &mut Vec<u16>) {
    let _ = judge(run, plan, list);
    for entry in 1..=plan.len() as u16 {
        if !list.contains(&entry) {
            list.push(entry);
            arranged(run, plan, list);
            list.pop();
        }
    }
}

/// Every list of up to one entry more than the plan has lines, from 0 to one past its last line.
fn of_any_entries(run: &mut Run, plan: &[u32], list: &mut Vec<u16>) {
    let _ = judge(run, plan, list);
    if list.len() <= plan.len() {
        for entry in 0..=plan.len() as u16 + 1 {
            list.push(entry);
            of_any_entries(run, plan, list);
            list.pop();
        }
    }
}

/// A list for a plan: walked, mixed, or handed out where there is an order.
pub fn some_order(random: &mut Random, plan: &[Line]) -> Vec<u16> {
    match verdict(plan) {
        Ok(order) if random.once_in(3) => order.lines,
        Ok(order) if random.once_in(2) => mixed(random, plan, &order.lines),
        _ => walked(random, plan),
    }
}

/// A list as it was made, with a take that comes too soon, and twice damaged.
fn with_damage(run: &mut Run, plan: &[Line]) {
    let mut list = some_order(&mut run.random, plan);
    judge_alike(run, plan, &list);
    if let Some(list) = too_soon(&mut run.random, plan, &list) {
        judge_alike(run, plan, &list);
    }
    for _ in 0..2 {
        list = damaged(&mut run.random, plan.len(), &list);
        judge_alike(run, plan, &list);
    }
}

/// Judges a list for a plan, and for the plan with actions where it takes again: to take again asks
/// for nothing and keeps nobody from anything, so that the answer is the same.
fn judge_alike(run: &mut Run, plan: &[Line], list: &[u16]) {
    let packed = pack(plan);
    let said = judge(run, &packed, list);
    if shapes::takes_again(plan) {
        let said_then = judge(run, &pack(&shapes::as_actions(plan)), list);
        let asked = Asked::Order { plan: &packed, order: list };
        let name = "actions for what takes again: the judge's same answer";
        run.tally.compare(name, &asked, said, said_then);
    }
}

/// A list for a plan that was damaged after it.
fn for_damaged_plan(run: &mut Run) {
    let plan = any_plan(&mut run.random);
    let list: Vec<u16> = (1..=plan.len() as u16).collect();
    let spoilt = damaged_packed(&mut run.random, &pack(&plan));
    let _ = judge(run, &spoilt, &list);
}

/// A list far longer than any plan: one that `some_order` gives, and then anything.
fn long_list(run: &mut Run, plan: &[Line]) {
    let mut list = some_order(&mut run.random, plan);
    while list.len() < 2_000 {
        list.push(run.random.bits() as u16);
    }
    let _ = judge(run, &pack(plan), &list);
}

/// All of the judge.
pub fn judged(run: &mut Run) {
    small_plans(ARRANGED, &mut |plan| {
        arranged(run, &pack(plan), &mut Vec::new());
        if plan.len() <= ANY {
            of_any_entries(run, &pack(plan), &mut Vec::new());
        }
    });
    for _ in 0..8_000 {
        let plan = short_plan(&mut run.random);
        with_damage(run, &plan);
        let ring = any_ring(&mut run.random);
        with_damage(run, &ring);
    }
    for _ in 0..6_000 {
        for_damaged_plan(run);
    }
    for _ in 0..150 {
        let plan = long_plan(&mut run.random);
        with_damage(run, &plan);
        long_list(run, &plan);
    }
}
