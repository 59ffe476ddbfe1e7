//! Comparisons of plans taken up at midday: verdict, order, claims, judge and moves of resumed plans are
//! held against all orders tried and against what is worked out by hand, faults against the spelling, and
//! what is left of a plan that has begun against the ends of the plan. The paragraph is request 5 of
//! document 02, with the rule for the order that the team has written.

use crate::by_hand::ByHand;
use crate::moves::{compare_move, some_table, Asked};
use second::damage::{damaged_resumed, spelt_by};
use second::elsewhere::{damaged, mixed, walked};
use second::judge::judge_by;
use second::line::{pack, MIDDAY};
use second::midday::left;
use second::plain::{circles, closing, hindrance, rows, table, verdict, Hindrance, Order};
use second::random::{self, ring, some_move, take_again, wish, Cut, Random};
use second::read::{check_packed_by, read, read_by, write, TEXT};
use second::resumed::{beside, held_ring, large_midday, midday, plan};
use second::small::{how_many_resumed, small_plans, small_resumed};
use second::tally::{Tally, LEAST};
use second::{orders, plain, shapes, Line, Refusal};

/// All resumed plans of up to so many lines are tried.
const SMALL: usize = 6;
/// Of up to so many lines they are held against what is worked out by hand, too.
const BY_HAND: usize = 5;
/// Of plans of up to so many lines everything that can be left is.
const LEFT: usize = 4;

/// The class of all small ones.
const ALL_SMALL: &str = "midday: small, each there is";

/// The other classes of resumed plans, faults, moves and orders.
const CLASSES: [&str; 29] = [
    "midday: accepted, no segment, something held",
    "midday: accepted, 1 segment",
    "midday: accepted, 2 segments",
    "midday: accepted, 3 segments or more",
    "midday: accepted, a higher job's segment goes first",
    "midday: accepted, what is held is taken again",
    "midday: accepted, nothing held, some job running",
    "midday: accepted with over 500 lines, something held",
    "midday: refused by (i)",
    "midday: refused by (ii)",
    "midday: refused by (ii), something held",
    "midday: refused by (iii)",
    "midday: refused by (iv)",
    "midday: fault 2",
    "midday: fault 4",
    "midday: fault 5",
    "midday: fault 7",
    "midday: fault 16",
    "midday: fault 17",
    "midday: order legal",
    "midday: refusal 15",
    "midday: refusal 15 at a held line",
    "midday: move accepted",
    "midday: move accepted, the way ends in a higher job",
    "midday: move refused, 12 at a held line",
    "midday: move refused, 14",
    "midday: what is left is accepted",
    "midday: what is left is refused",
    "midday: taken by both readers",
];

/// All classes, each with the least number that has to be met.
pub fn classes() -> impl Iterator<Item = (String, u64)> {
    let some = CLASSES.map(|class| (class.to_string(), LEAST));
    some.into_iter().chain([(ALL_SMALL.to_string(), how_many_resumed(SMALL))])
}

/// Whether something is held from the beginning.
fn holds(plan: &[Line]) -> bool {
    plan.iter().any(|line| line.is_held())
}

/// Counts a resumed plan in its classes.
fn sort(tally: &mut Tally, plan: &[Line], verdict: &Result<Order, Refusal>) {
    match verdict {
        Ok(_) => sort_accepted(tally, plan),
        Err(Refusal { number: 9, .. }) => tally.meet("midday: refused by (i)"),
        Err(_) if circles(&rows(plan)) != 0 => {
            tally.meet("midday: refused by (ii)");
            if holds(plan) {
                tally.meet("midday: refused by (ii), something held");
            }
        }
        Err(_) => tally.meet(match hindrance(plan) {
            Some(Hindrance::Kept) => "midday: refused by (iii)",
            _ => "midday: refused by (iv)",
        }),
    }
}

/// Counts one that has an order.
fn sort_accepted(tally: &mut Tally, plan: &[Line]) {
    let closing = closing(plan);
    match closing.segments.len() {
        0 if holds(plan) => tally.meet("midday: accepted, no segment, something held"),
        0 if read(&write(plan)).is_err() => {
            tally.meet("midday: accepted, nothing held, some job running");
        }
        0 => {}
        1 => tally.meet("midday: accepted, 1 segment"),
        2 => tally.meet("midday: accepted, 2 segments"),
        _ => tally.meet("midday: accepted, 3 segments or more"),
    }
    if closing.passed_over {
        tally.meet("midday: accepted, a higher job's segment goes first");
    }
    if takes_held(plan) {
        tally.meet("midday: accepted, what is held is taken again");
    }
    if plan.len() > 500 && holds(plan) {
        tally.meet("midday: accepted with over 500 lines, something held");
    }
}

/// Whether a job takes again what it holds by a held line.
fn takes_held(plan: &[Line]) -> bool {
    let held = |at: &usize| plan[*at].is_held();
    (0..plan.len()).filter(held).any(|at| {
        let device = Some(plan[at].verb.operand());
        plain::under(plan, at).into_iter().any(|line| plan[line].takes() == device)
    })
}

/// Holds the readers against each other and against writing. A plan that the other reader takes too has
/// the same lines and print there.
fn compare_reading(tally: &mut Tally, family: &str, plan: &[Line]) {
    let text = write(plan);
    let whole = Ok(plan.to_vec());
    let name = format!("{family}: text and packed list are read alike");
    tally.compare(&name, plan, whole.clone(), read_by(MIDDAY, &text));
    tally.compare(&name, plan, whole.clone(), check_packed_by(MIDDAY, &pack(plan)));
    if let Ok(lines) = read(&text) {
        tally.meet("midday: taken by both readers");
        let name = "taken by both readers: the same lines and print";
        let print = plain::printed_by(MIDDAY, &text);
        tally.compare(name, plan, (whole, plain::printed(&text)), (Ok(lines), print));
    }
}

/// Holds the verdict's refusal, its order and the table against what needs no trying of orders.
fn compare_quickly(tally: &mut Tally, family: &str, plan: &[Line]) -> Result<Order, Refusal> {
    compare_reading(tally, family, plan);
    let answer = verdict(plan);
    sort(tally, plan, &answer);
    let by_hand = ByHand::new(plan);
    let name = format!("{family}: number and place of the refusal");
    tally.compare(&name, plan, by_hand.refusal(), answer.clone().err());
    let name = format!("{family}: claims are what is bound to be taken later");
    tally.compare(&name, plan, by_hand.claims(), table(plan));
    if let Ok(order) = &answer {
        let name = format!("{family}: the order handed out is legal, its held devices are right");
        let held = orders::held_after(plan, &wide(&order.lines));
        tally.compare(&name, plan, held, Some(order.held));
        let name = format!("{family}: the order handed out passes the judge");
        tally.compare(&name, plan, Ok(()), judge_by(MIDDAY, &pack(plan), &order.lines));
    }
    let actions = shapes::as_actions(plan);
    let name = format!("{family}: to take again is no more than an action");
    let wanted = (table(&actions), verdict(&actions));
    tally.compare(&name, plan, wanted, (table(plan), answer.clone()));
    answer
}

/// The entries of an order as the first reading has them.
fn wide(order: &[u16]) -> Vec<usize> {
    order.iter().map(|&line| line.into()).collect()
}

/// Holds the verdict against all orders, and its order against what is legal.
fn compare_orders(tally: &mut Tally, family: &str, plan: &[Line], answer: &Result<Order, Refusal>) {
    let found = orders::some_legal_order(plan);
    let name = format!("{family}: accepted exactly if some order is legal");
    tally.compare(&name, plan, found.is_some(), answer.is_ok());
    if let Ok(order) = answer {
        let name = format!("{family}: the order handed out is legal, its held devices are right");
        let held = orders::held_after(plan, &wide(&order.lines));
        tally.compare(&name, plan, held, Some(order.held));
    }
}

/// Holds the verdict against all orders, and the order against the rule asked anew at each step.
fn compare_plan(tally: &mut Tally, family: &str, plan: &[Line]) {
    let answer = compare_quickly(tally, family, plan);
    compare_orders(tally, family, plan, &answer);
    if let Ok(order) = answer {
        let name = format!("{family}: the order handed out is that of segments, (a) and (b)");
        tally.compare(&name, plan, ByHand::new(plan).order(), order.lines);
    }
}

/// Random plans: many of up to seven lines, and some that are longer.
fn random_plans(tally: &mut Tally, random: &mut Random) {
    for _ in 0..30_000 {
        let midday = midday(random, 7, 4, 3);
        let plan = plan(random, midday);
        compare_plan(tally, "resumed plans to 7 lines", &plan);
    }
    for _ in 0..6_000 {
        let midday = midday(random, 18, 5, 5);
        let plan = plan(random, midday);
        compare_plan(tally, "resumed plans to 18 lines", &plan);
    }
}

/// Rings of jobs that hold what others want, whole and cut, at times with takes of what is held; and
/// rings of lasting takes with something held beside them.
fn rings(tally: &mut Tally, random: &mut Random) {
    for _ in 0..200 {
        for length in 2..=4 {
            for cut in [Cut::Whole, Cut::LeftOut, Cut::GivenBack] {
                let mut plan = held_ring(random, length, cut);
                for _ in 0..random.below(3) {
                    plan = take_again(random, &plan);
                }
                compare_plan(tally, "held rings", &plan);
                let plan = ring(random, length, cut);
                compare_plan(tally, "rings with something held", &beside(random, &plan));
            }
        }
    }
}

/// Plans up to the limits, made as they are or left of one of the morning.
fn large_plans(tally: &mut Tally, random: &mut Random) {
    for _ in 0..500 {
        let midday = large_midday(random);
        let plan = plan(random, midday);
        let _ = compare_quickly(tally, "large resumed plans", &plan);
        compare_left_at_some_time(tally, random, &plan);
    }
}

/// Holds one list for a resumed plan against its beginning that may come.
fn compare_list(tally: &mut Tally, plan: &[Line], order: &[u16]) {
    let said = judge_by(MIDDAY, &pack(plan), order);
    let order = wide(order);
    let may_come = orders::beginning(plan, &order);
    let is_held =
        |entry: &usize| plan.get(entry.wrapping_sub(1)).is_some_and(|line| line.is_held());
    tally.meet(match said {
        Ok(()) => "midday: order legal",
        Err(_) if order.get(may_come).is_some_and(is_held) => "midday: refusal 15 at a held line",
        Err(_) => "midday: refusal 15",
    });
    let legal = orders::is_legal(plan, &order);
    let wanted = if legal { Ok(()) } else { Err(Refusal::at(15, may_come + 1)) };
    tally.compare("resumed plans: the first entry that goes astray", plan, wanted, said);
}

/// The list with a held line among its entries, or as it was where there is none.
fn with_held(random: &mut Random, plan: &[Line], list: &[u16]) -> Vec<u16> {
    let held: Vec<usize> = (0..plan.len()).filter(|&at| plan[at].is_held()).collect();
    let mut list = list.to_vec();
    if !held.is_empty() {
        list.insert(random.below(list.len() + 1), random.one_of(&held) as u16 + 1);
    }
    list
}

/// Lists that were walked or mixed, and then damaged.
fn lists(tally: &mut Tally, random: &mut Random) {
    for _ in 0..4_000 {
        let midday = midday(random, 24, 6, 6);
        let plan = plan(random, midday);
        let mut lists = vec![walked(random, &plan)];
        if let Ok(order) = verdict(&plan) {
            lists.push(mixed(random, &plan, &order.lines));
        }
        for list in lists {
            compare_list(tally, &plan, &list);
            compare_list(tally, &plan, &damaged(random, plan.len(), &list));
            compare_list(tally, &plan, &with_held(random, &plan, &list));
        }
    }
}

/// Moves, several in a row on one plan, with tables of all sorts.
fn moves(tally: &mut Tally, random: &mut Random) {
    for _ in 0..3_000 {
        let midday = midday(random, 30, 6, 5);
        let plan = plan(random, midday);
        let to = some_move(random, &pack(&plan));
        let sets = some_table(random, &plan, to);
        let mut asked = Asked { settings: MIDDAY, plan: pack(&plan), sets, to };
        for _ in 0..4 {
            let answer = compare_move(tally, &mut asked);
            sort_move(tally, &plan, &asked, answer);
            asked.to = some_move(random, &asked.plan);
        }
    }
}

/// Counts a move in its classes. Held lines and jobs stay where they are, whatever is moved.
fn sort_move(tally: &mut Tally, plan: &[Line], asked: &Asked, answer: Result<u32, Refusal>) {
    let at = (asked.to.line as usize).wrapping_sub(1);
    match answer {
        Ok(_) => {
            tally.meet("midday: move accepted");
            if plain::way(plan, at).last() > Some(&0) {
                tally.meet("midday: move accepted, the way ends in a higher job");
            }
        }
        Err(Refusal { number: 12, .. }) if plan.get(at).is_some_and(|line| line.is_held()) => {
            tally.meet("midday: move refused, 12 at a held line");
        }
        Err(Refusal { number: 14, .. }) => tally.meet("midday: move refused, 14"),
        Err(_) => {}
    }
}

/// Damaged lists, read as they are and as texts.
fn faults(tally: &mut Tally, random: &mut Random) {
    for _ in 0..20_000 {
        let midday = midday(random, 12, 4, 4);
        let plan = plan(random, midday);
        let mut packed = damaged_resumed(random, &pack(&plan));
        if random.once_in(4) {
            packed = damaged_resumed(random, &packed);
        }
        let answer = check_packed_by(MIDDAY, &packed);
        if let Err(Refusal { number: number @ (2 | 4 | 5 | 7 | 16 | 17), .. }) = answer {
            tally.meet(&format!("midday: fault {number}"));
        }
        let text = spelt_by(MIDDAY, &packed);
        // A list that has grown too long can make a text that is refused for its bytes.
        if text.len() <= TEXT {
            let name = "damaged resumed plans: refused alike as text and as packed list";
            tally.compare(name, &plan, answer.clone(), read_by(MIDDAY, &text));
        }
        let six = matches!(answer, Err(Refusal { number: 6, .. }));
        tally.compare("damaged resumed plans: 6 is not given", &plan, false, six);
    }
}

/// Holds what is left of a plan after some lines against the plan: it is a resumed plan, and its order
/// put behind those lines is a legal one of the plan.
fn compare_left(tally: &mut Tally, plan: &[Line], begun: &[usize]) -> bool {
    let left = left(plan, begun);
    let name = "what is left: it is a resumed plan";
    let whole = Ok(left.plan.clone());
    tally.compare(name, plan, whole, check_packed_by(MIDDAY, &pack(&left.plan)));
    let answer = verdict(&left.plan);
    let is_ok = answer.is_ok();
    tally.meet(if is_ok {
        "midday: what is left is accepted"
    } else {
        "midday: what is left is refused"
    });
    if let Ok(order) = answer {
        let end = left.in_whole(&wide(&order.lines));
        let held = orders::held_after(plan, &[begun, &end].concat());
        let name = "what is left: its order is a legal end, with its held devices";
        tally.compare(name, plan, held, Some(order.held));
    }
    is_ok
}

/// The same for a plan of which all orders can be tried: what is left is accepted exactly if the lines
/// can be gone on with to the end.
fn compare_left_with_ends(tally: &mut Tally, plan: &[Line], begun: &[usize]) {
    let is_ok = compare_left(tally, plan, begun);
    let ends = orders::some_legal_end(plan, begun).is_some();
    tally.compare("what is left: accepted exactly if there is an end", plan, ends, is_ok);
}

/// A walk through the plan, and what is left of it at some time.
fn compare_left_at_some_time(tally: &mut Tally, random: &mut Random, plan: &[Line]) {
    let mut begun = wide(&walked(random, plan));
    begun.truncate(random.below(begun.len() + 1));
    let _ = compare_left(tally, plan, &begun);
    if let Ok(order) = verdict(plan) {
        let begun = &order.lines[..random.below(order.lines.len() + 1)];
        let is_ok = compare_left(tally, plan, &wide(begun));
        tally.compare("what is left: of a legal order it is accepted", plan, true, is_ok);
    }
}

/// What is left of plans of the morning, and of resumed ones.
fn lefts(tally: &mut Tally, random: &mut Random) {
    for round in 0..6_000 {
        let lines = if round % 2 == 0 {
            let wish = wish(random, 18, 5, 4);
            random::plan(random, wish)
        } else {
            let midday = midday(random, 18, 5, 4);
            plan(random, midday)
        };
        let mut begun = wide(&walked(random, &lines));
        begun.truncate(random.below(begun.len() + 1));
        compare_left_with_ends(tally, &lines, &begun);
        compare_left_at_some_time(tally, random, &lines);
    }
}

/// Everything that can be left of a plan: the legal orders of it are the legal ends of the plan, no more
/// and no fewer.
fn all_left(tally: &mut Tally, plan: &[Line]) {
    orders::each_beginning(plan, &mut |begun| {
        compare_left_with_ends(tally, plan, begun);
        let left = left(plan, begun);
        let of_left = orders::all_legal_ends(&left.plan, &[]);
        let mut found: Vec<Vec<usize>> = of_left.iter().map(|order| left.in_whole(order)).collect();
        let mut ends = orders::all_legal_ends(plan, begun);
        found.sort_unstable();
        ends.sort_unstable();
        tally.compare("what is left: its orders are the ends of the plan", plan, ends, found);
    });
}

/// Every resumed plan of up to `SMALL` lines over two devices, and everything left of smaller ones and of
/// those of the morning.
fn all_small(tally: &mut Tally) {
    small_resumed(SMALL, &mut |plan| {
        tally.meet(ALL_SMALL);
        match plan.len() {
            0..=BY_HAND => compare_plan(tally, "all small resumed plans", plan),
            _ => compare_orders(tally, "all small resumed plans", plan, &verdict(plan)),
        }
        if plan.len() <= LEFT {
            all_left(tally, plan);
        }
    });
    small_plans(BY_HAND, &mut |plan| all_left(tally, plan));
}

/// All comparisons.
pub fn midday_plans(tally: &mut Tally, random: &mut Random) {
    random_plans(tally, random);
    rings(tally, random);
    large_plans(tally, random);
    lists(tally, random);
    moves(tally, random);
    faults(tally, random);
    lefts(tally, random);
    all_small(tally);
}
