//! Comparisons of the judge, which asks every rule of every entry, with orders followed one step
//! after another, which looks at one line before each. The paragraphs are requests 1 and 2 of
//! document 02 and "Legal orders" of document 01.

use second::elsewhere::{damaged, mixed, too_soon, walked};
use second::judge::astray;
use second::plain::verdict;
use second::random::{plan, wish, Random};
use second::small::small_plans;
use second::tally::Tally;
use second::{orders, shapes, Line};

/// All lists are tried for plans of up to so many lines.
const SMALL: usize = 4;

/// Holds one list against its beginning that may come, and against all of it.
fn compare(tally: &mut Tally, family: &str, plan: &[Line], order: &[usize]) {
    let astray = astray(plan, order);
    tally.meet(if astray.is_none() { "order: legal" } else { "order: refusal 15" });
    if astray.as_ref().is_some_and(|astray| shapes::given_in_part(plan, order, astray)) {
        tally.meet(&format!("order: {}", shapes::GIVEN_IN_PART));
    }
    let is_legal = orders::is_legal(plan, order);
    let wanted = (!is_legal).then(|| orders::beginning(plan, order) + 1);
    let said = astray.map(|astray| astray.position);
    tally.compare(&format!("{family}: the first entry that goes astray"), plan, wanted, said);
}

/// Every list of entries up to one more than the plan has lines, from 0 to one past its last line.
fn all_lists(tally: &mut Tally, plan: &[Line], list: &mut Vec<usize>) {
    compare(tally, "all lists for small plans", plan, list);
    if list.len() > plan.len() {
        return;
    }
    for entry in 0..=plan.len() + 1 {
        list.push(entry);
        all_lists(tally, plan, list);
        list.pop();
    }
}

/// Lists that were walked, mixed or handed out, and then damaged.
fn some_lists(tally: &mut Tally, random: &mut Random, plan: &[Line]) {
    let mut lists = vec![walked(random, plan)];
    lists.extend(too_soon(random, plan, &lists[0]));
    if let Ok(order) = verdict(plan) {
        lists.push(mixed(random, plan, &order.lines));
        lists.push(order.lines);
    }
    for list in lists {
        let entries = |list: &[u16]| list.iter().map(|&entry| entry.into()).collect::<Vec<usize>>();
        compare(tally, "lists from elsewhere", plan, &entries(&list));
        let spoilt = damaged(random, plan.len(), &list);
        compare(tally, "damaged lists", plan, &entries(&spoilt));
    }
}

/// All lists for small plans, and random ones for larger plans.
pub fn judged(tally: &mut Tally, random: &mut Random) {
    small_plans(SMALL, &mut |plan| all_lists(tally, plan, &mut Vec::new()));
    for _ in 0..10_000 {
        let wish = wish(random, 30, 6, 6);
        let plan = plan(random, wish);
        some_lists(tally, random, &plan);
    }
}
