//! The comparison run: the two readings of documents 01 and 02 meet here, and nowhere else.
//!
//! The first reading (the text, the rules, and all orders tried) is held against the second
//! (claims, rows, the order handed out, the move), on random plans, on planted rings, and on every
//! small plan. The paragraphs concerned are "Legal orders" against "Claims and rows" and "The
//! order handed out", and "Moving a claim" against working out the edited plan afresh; and, of
//! document 02, request 1 against orders followed step by step, request 2 against plans that have
//! actions where others take again, request 4 against rows worked out from the stretches of takes, and
//! request 5 against the gives that have to come before others.
//!
//! Prints its seed, the number of plans by class, and each check with its number of comparisons. A
//! difference is printed with its plan and both answers. The seed is taken from the environment
//! variable SEED; without it, a fixed one is used. The last line counts the checks.

#[path = "readings/by_hand.rs"]
mod by_hand;
#[path = "readings/judged.rs"]
mod judged;
#[path = "readings/kept.rs"]
mod kept;
#[path = "readings/lists.rs"]
mod lists;
#[path = "readings/midday.rs"]
mod midday;
#[path = "readings/moves.rs"]
mod moves;

use by_hand::ByHand;
use second::line::{pack, MIDDAY, MORNING};
use second::plain::{passes_over, table, verdict, Order};
use second::random::{deep_wish, large_wish, plan, ring, take_again, wish, Cut, Random};
use second::read::{check_packed, read, write};
use second::shapes::{self, takes_again};
use second::small::{how_many, small_plans};
use second::tally::{circle_class, seeded, Tally, LEAST};
use second::{orders, Line, Refusal};
use std::process::ExitCode;

/// All plans of up to so many lines are tried.
const SMALL: usize = 6;

/// The class of all of them.
const ALL_SMALL: &str = "plan: small, each there is";

/// The other classes of plans, moves and orders that have to be met.
const CLASSES: [&str; 18] = [
    "plan: accepted",
    "plan: accepted, nothing taken again",
    "plan: refusal 9",
    "plan: refusal 9, a device taken again",
    "plan: refusal 10",
    "plan: refusal 10, a device taken again",
    "plan: shortest circle 1",
    "plan: shortest circle 2",
    "plan: shortest circle 3",
    "plan: shortest circle 4 or more",
    "plan: (b) passes over a lower blocked device",
    "plan: accepted with over 500 lines",
    "move: refusal 11",
    "move: refusal 12",
    "move: refusal 13",
    "move: refusal 14",
    "order: legal",
    "order: refusal 15",
];

/// All classes, each with the least number that has to be met.
fn classes() -> impl Iterator<Item = (String, u64)> {
    let plans = shapes::TAKEN_AGAIN.map(|shape| format!("plan: accepted, {shape}"));
    let moves =
        shapes::MOVED.into_iter().chain(shapes::TABLES).map(|shape| format!("move: {shape}"));
    let order = format!("order: {}", shapes::GIVEN_IN_PART);
    let kept = kept::CLASSES.map(str::to_string);
    let some = CLASSES.map(str::to_string).into_iter().chain(plans).chain(moves);
    let some = some.chain(kept).chain([order]);
    let all_small = [(ALL_SMALL.to_string(), how_many(SMALL))];
    some.map(|class| (class, LEAST)).chain(all_small).chain(midday::classes())
}

/// Counts the plan in its classes.
fn sort(tally: &mut Tally, plan: &[Line], verdict: &Result<Order, Refusal>) {
    match verdict {
        Ok(_) => sort_accepted(tally, plan),
        Err(Refusal { number, .. }) => {
            tally.meet(&format!("plan: refusal {number}"));
            if takes_again(plan) {
                tally.meet(&format!("plan: refusal {number}, a device taken again"));
            }
            if *number == 10 {
                tally.meet(circle_class(plan));
            }
        }
    }
}

/// Counts a plan that has an order.
fn sort_accepted(tally: &mut Tally, plan: &[Line]) {
    tally.meet("plan: accepted");
    if !takes_again(plan) {
        tally.meet("plan: accepted, nothing taken again");
    }
    for shape in shapes::of_plan(plan) {
        tally.meet(&format!("plan: accepted, {shape}"));
    }
    if passes_over(plan) {
        tally.meet("plan: (b) passes over a lower blocked device");
    }
    if plan.len() > 500 {
        tally.meet("plan: accepted with over 500 lines");
    }
}

/// Holds the readers against each other and against writing.
fn compare_reading(tally: &mut Tally, family: &str, plan: &[Line]) {
    let text = write(plan);
    let whole = Ok(plan.to_vec());
    let name = format!("{family}: text and packed list are read alike");
    tally.compare(&name, plan, whole.clone(), read(&text));
    tally.compare(&name, plan, whole, check_packed(&pack(plan)));
    let name = format!("{family}: what is read is written back byte for byte");
    let back = read(&text).map(|lines| write(&lines));
    tally.compare(&name, plan, Ok(text), back);
}

/// Holds the verdict's refusal, its order and the table against what needs no trying of orders.
fn compare_quickly(tally: &mut Tally, family: &str, plan: &[Line]) -> Result<Order, Refusal> {
    let answer = verdict(plan);
    sort(tally, plan, &answer);
    let by_hand = ByHand::new(plan);
    let name = format!("{family}: number and place of the refusal");
    tally.compare(&name, plan, by_hand.refusal(), answer.clone().err());
    if let Ok(order) = &answer {
        let lines: Vec<usize> = order.lines.iter().map(|&line| line.into()).collect();
        let name = format!("{family}: the order handed out is legal, its held devices are right");
        let held = orders::held_after(plan, &lines);
        tally.compare(&name, plan, held, Some(order.held));
    }
    let name = format!("{family}: claims are what is bound to be taken later");
    tally.compare(&name, plan, by_hand.claims(), table(plan));
    let actions = shapes::as_actions(plan);
    let name = format!("{family}: to take again is no more than an action");
    let wanted = (table(&actions), verdict(&actions));
    tally.compare(&name, plan, wanted, (table(plan), answer.clone()));
    answer
}

/// Holds the verdict against all orders, and the rest of the two readings too.
fn compare_plan(tally: &mut Tally, family: &str, plan: &[Line]) {
    compare_reading(tally, family, plan);
    let answer = compare_quickly(tally, family, plan);
    let found = orders::some_legal_order(plan);
    let name = format!("{family}: accepted exactly if some order is legal");
    tally.compare(&name, plan, found.is_some(), answer.is_ok());
    if let Some(order) = found {
        let name = format!("{family}: the order found by trying is legal");
        tally.compare(&name, plan, true, orders::is_legal(plan, &order));
    }
    if let Ok(order) = answer {
        let name = format!("{family}: the order handed out is that of (a) and (b)");
        tally.compare(&name, plan, ByHand::new(plan).order(), order.lines);
    }
}

/// Random plans: many of up to seven lines, and some that are longer.
fn random_plans(tally: &mut Tally, random: &mut Random) {
    for _ in 0..60_000 {
        let wish = wish(random, 7, 4, 3);
        let plan = plan(random, wish);
        compare_plan(tally, "random plans to 7 lines", &plan);
    }
    for _ in 0..4_000 {
        let wish = wish(random, 18, 5, 4);
        let plan = plan(random, wish);
        compare_plan(tally, "random plans to 18 lines", &plan);
    }
}

/// Planted rings, whole and cut.
fn rings(tally: &mut Tally, random: &mut Random) {
    for _ in 0..500 {
        for length in 1..=5 {
            for cut in [Cut::Whole, Cut::LeftOut, Cut::GivenBack] {
                let mut plan = ring(random, length, cut);
                for _ in 0..random.below(3) {
                    plan = take_again(random, &plan);
                }
                compare_plan(tally, "rings", &plan);
            }
        }
    }
}

/// Plans up to the limits. Trying all orders is out of the question for them; the rest is not.
fn large_plans(tally: &mut Tally, random: &mut Random) {
    for _ in 0..500 {
        let wish = large_wish(random);
        large_plan(tally, "large plans", &plan(random, wish));
    }
    for _ in 0..400 {
        let wish = deep_wish(random);
        large_plan(tally, "deep plans", &plan(random, wish));
    }
}

/// A plan for which all orders are too many.
fn large_plan(tally: &mut Tally, family: &str, plan: &[Line]) {
    compare_reading(tally, family, plan);
    let _ = compare_quickly(tally, family, plan);
}

/// Every well-formed plan of up to `SMALL` lines over two devices. Counts them by their lines.
fn all_small(tally: &mut Tally) -> [u64; SMALL + 1] {
    let mut counts = [0; SMALL + 1];
    small_plans(SMALL, &mut |plan| {
        counts[plan.len()] += 1;
        tally.meet(ALL_SMALL);
        compare_plan(tally, "all small plans", plan);
    });
    counts
}

/// Prints how many small plans there were.
fn print_small(counts: &[u64; SMALL + 1]) {
    println!("all well-formed plans over two devices with one action code:");
    let mut sum = 0;
    for (lines, count) in counts.iter().enumerate() {
        sum += count;
        println!("{count:>9}  of {lines} lines, {sum} of up to {lines}");
    }
    println!();
}

fn main() -> ExitCode {
    seeded(|seed| {
        let mut tally = Tally::new(classes());
        let mut random = Random::new(seed);
        random_plans(&mut tally, &mut random);
        rings(&mut tally, &mut random);
        large_plans(&mut tally, &mut random);
        for settings in [MORNING, MIDDAY] {
            lists::damaged_texts(&mut tally, &mut random, settings);
            lists::lent_lists(&mut tally, &mut random, settings);
        }
        moves::moves(&mut tally, &mut random);
        moves::all_moves(&mut tally);
        kept::kept(&mut tally, &mut random);
        kept::all_kept(&mut tally);
        judged::judged(&mut tally, &mut random);
        midday::midday_plans(&mut tally, &mut random);
        print_small(&all_small(&mut tally));
        tally.print()
    })
}
