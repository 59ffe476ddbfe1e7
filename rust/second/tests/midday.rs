//! Request 5 of document 02: plans taken up at midday. The hand cases with their answers, the faults of
//! held lines, the judge, moves, what is printed, and what is left of a plan that has begun.

mod common;

use common::refusal;
use second::judge::{astray, judge_by, Astray, Rule};
use second::line::{pack, MIDDAY, MORNING};
use second::listed::{packed, text};
use second::midday::left;
use second::plain::{self, closing, hindrance, move_claim_by, table, verdict, Hindrance, Order};
use second::random::{some_move, wish, Random};
use second::read::{check_packed_by, read, read_by, write, Handed, Lines};
use second::resumed::{beside, held_ring, large_midday, midday};
use second::small::{small_plans, small_resumed};
use second::{orders, random, resumed, Line, Refusal, Verb};

/// Each job holds what the other wants next.
const CROSSED: &str =
    "1 held 5; 1 take 3; 1 give 3; 1 give 5; 2 held 3; 2 take 5; 2 give 5; 2 give 3";
/// The same, but job 2 gives first.
const GIVES_FIRST: &str =
    "1 held 5; 1 take 3; 1 give 3; 1 give 5; 2 held 3; 2 give 3; 2 take 5; 2 give 5";
/// Job 1 holds 4 to the end, and job 2 takes it for a while.
const TAKEN_ELSEWHERE: &str = "1 held 4; 1 do 7; 2 held 2; 2 take 4; 2 give 4; 2 give 2";
/// Job 1 holds 4 to the end, and job 2 takes it to the end.
const KEPT_TWICE: &str = "1 held 4; 1 do 7; 2 take 4";
/// The segment of job 2 goes between the two of job 1.
const BETWEEN: &str = "1 held 0; 1 held 1; 1 give 1; 1 take 2; 1 give 2; 1 give 0; \
                       2 held 2; 2 take 1; 2 give 1; 2 give 2";
/// Job 2 is running.
const RUNNING: &str = "1 do 7; 2 held 3; 2 do 8";
/// What is held is taken again.
const HELD_AGAIN: &str = "1 held 0; 1 take 0; 1 give 0; 1 give 0; 2 take 0; 2 give 0";
/// A circle beside a device that is kept to the end and wanted.
const CIRCLE_BESIDE: &str = "1 held 2; 1 take 9; 1 start 2; 2 take 9; 2 give 9; 3 take 2; 3 give 2";
/// The plan of the moves.
const MOVED: &str = "1 take 0; 1 give 0; 2 held 3; 2 take 1; 2 give 1";

/// A resumed plan that is well-formed.
fn plan(short: &str) -> Vec<Line> {
    read_by(MIDDAY, &text(short)).expect("the plan is well-formed")
}

/// The plan is accepted with this order, from the text and from the packed numbers, and all orders tried
/// bear it out.
fn accepted(short: &str, lines: &[u16], held: u32) {
    let wanted = Order { lines: lines.to_vec(), held };
    assert_eq!(verdict(&plan(short)), Ok(wanted), "{short}");
    let mut lent = vec![99; lines.len() + 1];
    assert_eq!(plain::verdict_into_by(MIDDAY, &packed(short), &mut lent), Ok(held));
    assert_eq!((&lent[..lines.len()], lent[lines.len()]), (lines, 99));
    let order: Vec<usize> = lines.iter().map(|&line| line.into()).collect();
    assert_eq!(orders::held_after(&plan(short), &order), Some(held), "{short}");
    let mut print = format!("order\t{}\t{held}\n", lines.len());
    print.extend(lines.iter().map(|line| format!("{line}\n")));
    assert_eq!(plain::printed_by(MIDDAY, &text(short)), print.into_bytes());
}

/// The plan is refused so, and no order is legal.
fn refused(short: &str, number: u32, place: u64) {
    assert_eq!(verdict(&plan(short)), Err(refusal(number, place)), "{short}");
    assert_eq!(orders::some_legal_order(&plan(short)), None, "{short}");
    let print = format!("refused\t{number}\t{place}\n");
    assert_eq!(plain::printed_by(MIDDAY, &text(short)), print.into_bytes());
}

/// The fault of a plan, the same from a text and from packed numbers.
fn fault(short: &str) -> Option<Refusal> {
    let by_text = read_by(MIDDAY, &text(short));
    let by_numbers = check_packed_by(MIDDAY, &packed(short));
    assert_eq!(by_text, by_numbers, "{short}");
    by_text.err()
}

#[test]
fn the_hand_cases_have_their_verdicts() {
    refused(CROSSED, 10, 3);
    accepted(GIVES_FIRST, &[6, 2, 3, 4, 7, 8], 0);
    refused(TAKEN_ELSEWHERE, 10, 2);
    refused(KEPT_TWICE, 9, 4);
    accepted(BETWEEN, &[3, 8, 9, 10, 4, 5, 6], 0);
    accepted(RUNNING, &[1, 3], 1);
    accepted(HELD_AGAIN, &[2, 3, 4, 5, 6], 0);
    refused(CIRCLE_BESIDE, 10, 9);
}

#[test]
fn the_hand_cases_are_what_they_are_for() {
    assert_eq!(hindrance(&plan(CROSSED)), Some(Hindrance::Stuck));
    assert_eq!(hindrance(&plan(TAKEN_ELSEWHERE)), Some(Hindrance::Kept));
    let jobs = |short: &str| {
        let segments = closing(&plan(short)).segments;
        segments.into_iter().map(|segment| segment.job).collect::<Vec<u8>>()
    };
    assert_eq!((jobs(GIVES_FIRST), jobs(BETWEEN)), (vec![2, 1], vec![1, 2, 1]));
    assert!(closing(&plan(GIVES_FIRST)).passed_over);
    assert_eq!((jobs(RUNNING), jobs(CROSSED)), (vec![], vec![]));
    assert!(!closing(&plan(CROSSED)).is_through);
}

#[test]
fn segments_go_by_the_lowest_job_that_can_and_before_all_else() {
    // Both can be done: the lower job goes first.
    accepted("1 held 0; 1 give 0; 2 held 1; 2 give 1", &[2, 4], 0);
    // After each it is asked again from the lowest job on.
    let short = "1 held 0; 1 take 1; 1 give 1; 1 give 0; 2 held 1; 2 give 1; 3 held 2; 3 give 2";
    accepted(short, &[6, 2, 3, 4, 8], 0);
    // What is under way is closed before a lower job goes on, and one job's segments follow each other.
    accepted("1 do 7; 2 held 0; 2 do 8; 2 give 0; 2 do 9", &[3, 4, 1, 5], 0);
    accepted("1 held 0; 1 held 1; 1 give 1; 1 give 0; 2 held 2; 2 give 2", &[3, 4, 6], 0);
    // A job that a segment starts waits until all are closed, and what is taken for good comes last.
    accepted("1 held 0; 1 start 2; 1 give 0; 2 take 0; 3 held 1; 3 give 1", &[2, 3, 6, 4], 1);
}

#[test]
fn the_tables_have_what_follows_a_held_line() {
    assert_eq!(table(&plan(HELD_AGAIN)), [0, 0, 0, 0, 1, 0]);
    assert_eq!(table(&plan(MOVED)), [1, 0, 2, 2, 0]);
}

#[test]
fn faults_of_held_lines() {
    assert_eq!(fault("1 held 0; 2 held 0"), Some(refusal(16, 2)));
    assert_eq!(fault("1 do 7; 1 held 0"), Some(refusal(17, 2)));
    assert_eq!(fault("1 start 2; 2 held 0"), Some(refusal(17, 2)));
    assert_eq!(fault("1 held 0; 1 do 7; 1 held 0"), Some(refusal(16, 3)));
    assert_eq!(fault("1 held 0; 1 held 0"), Some(refusal(16, 2)));
    assert_eq!(fault("1 held 0; 1 start 2; 2 held 0"), Some(refusal(16, 3)));
    assert_eq!(fault("1 held 0; 1 held 1; 1 give 0"), Some(refusal(7, 3)));
    assert_eq!(fault("1 held 0; 2 give 0"), Some(refusal(7, 2)));
    assert_eq!(fault("1 held 0; 3 held 0"), Some(refusal(4, 2)));
    assert_eq!(fault("1 held 0; 1 start 2"), Some(refusal(5, 2)));
    assert_eq!(fault("1 do 7; 2 do 8"), None);
    assert_eq!(fault("1 held 31; 2 held 0; 3 start 4; 4 do 0"), None);
    // A device once given back may be taken, and held no more: its line stands further up.
    assert_eq!(fault("1 held 0; 1 give 0; 2 held 0"), Some(refusal(16, 3)));
    // A job that is started further down is running by then; no line starts a lower one.
    assert_eq!(fault("1 held 0; 2 start 1"), Some(refusal(2, 2)));
}

#[test]
fn a_held_line_is_a_line_at_midday_alone() {
    let held = |device: u32| 1_024 + 256 + 128 + device;
    assert_eq!(check_packed_by(MIDDAY, &[held(31)]), Ok(plan("1 held 31")));
    assert_eq!(pack(&plan("1 held 31")), [held(31)]);
    for device in [32, 33, 64, 127] {
        assert_eq!(check_packed_by(MIDDAY, &[held(device)]), Err(refusal(2, 1)));
    }
    assert_eq!(check_packed_by(MORNING, &[held(0)]), Err(refusal(2, 1)));
    let number = |verb: &str, operand: u32| {
        let line = format!("1\t{verb}\t{operand}\n");
        Lines::by(MIDDAY, line.as_bytes()).next_line()
    };
    assert_eq!(number("held", 31), Handed::Line(held(31)));
    for (verb, operand) in [("held", 32), ("held", 128), ("take", 131), ("give", 131), ("Held", 3)]
    {
        assert_eq!(number(verb, operand), Handed::Refused(refusal(2, 1)), "{verb} {operand}");
    }
    assert_eq!(read(&text(RUNNING)), Err(refusal(2, 2)));
    assert_eq!(read(&text("1 do 7; 2 do 8")), Err(refusal(6, 2)));
    assert_eq!(write(&plan(RUNNING)), text(RUNNING));
}

#[test]
fn entries_of_the_morning_take_no_held_line() {
    let plan = packed(RUNNING);
    let two = Err(refusal(2, 2));
    let (mut rows, mut held) = ([0; 32], [0]);
    assert_eq!(plain::build(&plan, &mut [0; 9], &mut rows, &mut held), two);
    assert_eq!(plain::quick(&plan, &rows).map(|held| held as usize), two);
    assert_eq!(plain::table_into(&plan, &mut [0; 9]), two);
    assert_eq!(plain::table_into_by(MIDDAY, &plan, &mut [0; 9]), Ok(3));
    assert_eq!(plain::write_into_by(MIDDAY, &plan, &mut [0; 99]), Ok(text(RUNNING).len()));
    assert_eq!(plain::read_into_by(MIDDAY, &text(RUNNING), &mut [0; 9]), Ok(3));
}

#[test]
fn the_order_needs_room_for_the_steps() {
    let lent = |room: usize| plain::verdict_into_by(MIDDAY, &packed(RUNNING), &mut vec![0; room]);
    assert_eq!((lent(1), lent(2)), (Err(refusal(11, 2)), Ok(1)));
    // Held lines alone are through already.
    accepted("1 held 0; 1 held 5; 2 held 3", &[], 3);
}

#[test]
fn the_judge_knows_held_lines() {
    let judged = |short: &str, order: &[u16]| judge_by(MIDDAY, &packed(short), order);
    assert_eq!(judged(GIVES_FIRST, &[6, 2, 3, 4, 7, 8]), Ok(()));
    assert_eq!(judged(RUNNING, &[3, 1]), Ok(()));
    assert_eq!(judged(RUNNING, &[1, 2, 3]), Err(refusal(15, 2)));
    assert_eq!(judged(GIVES_FIRST, &[2]), Err(refusal(15, 1)));
    assert_eq!(judged(RUNNING, &[1]), Err(refusal(15, 2)));
    assert_eq!(judged(HELD_AGAIN, &[2, 3, 5, 6, 4]), Err(refusal(15, 3)));
    let rules = vec![Rule::Held(5)];
    assert_eq!(astray(&plan(GIVES_FIRST), &[2]), Some(Astray { position: 1, rules }));
    assert_eq!(second::judge::judge(&packed(RUNNING), &[1, 3]), Err(refusal(2, 2)));
}

#[test]
fn moves_end_their_way_in_a_running_job() {
    let moved = |sets: &[u32], line: u32| {
        let (mut plan, mut sets) = (packed(MOVED), sets.to_vec());
        let answer = move_claim_by(MIDDAY, &mut plan, &mut sets, line, 5);
        (answer, plan, sets)
    };
    let to_5 = packed("1 take 0; 1 give 0; 2 held 3; 2 take 5; 2 give 5");
    assert_eq!(moved(&[1, 0, 2, 2, 0], 4), (Ok(2), to_5.clone(), vec![1, 0, 32, 32, 0]));
    assert_eq!(moved(&[99, 99, 2, 2, 0], 4), (Ok(2), to_5, vec![99, 99, 32, 32, 0]));
    for (sets, line, number) in [([1, 0, 2, 2, 0], 3, 12), ([1, 0, 99, 2, 0], 4, 14)] {
        assert_eq!(moved(&sets, line), (Err(refusal(number, 3)), packed(MOVED), sets.to_vec()));
    }
    // The way goes through the start of a job that a running job starts, and ends there.
    let lines = plan("1 do 0; 2 held 3; 2 start 3; 3 do 0; 3 take 1");
    assert_eq!(plain::way(&lines, 4), [4, 3, 2, 1]);
}

#[test]
fn all_small_plans_are_accepted_exactly_if_some_order_is_legal() {
    small_resumed(4, &mut |plan| {
        let found = orders::some_legal_order(plan);
        let answer = verdict(plan);
        assert_eq!(found.is_some(), answer.is_ok(), "{plan:?}");
        if let Ok(order) = answer {
            let lines: Vec<usize> = order.lines.iter().map(|&line| line.into()).collect();
            assert_eq!(orders::held_after(plan, &lines), Some(order.held), "{plan:?}");
            assert_eq!(judge_by(MIDDAY, &pack(plan), &order.lines), Ok(()), "{plan:?}");
        }
    });
}

#[test]
fn it_takes_eight_lines_to_be_stuck() {
    // Two jobs at least, each of which holds, takes, gives and gives.
    let mut random = Random::new(50);
    for _ in 0..10_000 {
        let midday = midday(&mut random, 7, 4, 3);
        let plan = resumed::plan(&mut random, midday);
        assert_ne!(hindrance(&plan), Some(Hindrance::Stuck), "{plan:?}");
    }
    small_resumed(5, &mut |plan| assert_ne!(hindrance(plan), Some(Hindrance::Stuck), "{plan:?}"));
    assert_eq!(plan(CROSSED).len(), 8);
}

#[test]
fn random_plans_keep_the_rules_and_hold_something_in_most() {
    let mut random = Random::new(51);
    let mut holding = 0;
    for round in 0..2_000 {
        let midday = match round % 50 {
            0 => large_midday(&mut random),
            _ => midday(&mut random, 7, 4, 3),
        };
        let plan = resumed::plan(&mut random, midday);
        assert_eq!(plan.len(), if midday.wish.jobs == 0 { 0 } else { midday.wish.lines });
        assert_eq!(check_packed_by(MIDDAY, &pack(&plan)), Ok(plan.clone()));
        holding += usize::from(plan.iter().any(|line| line.is_held()));
        let more = beside(&mut random, &plan);
        if more.last().is_some_and(|line| line.job <= 64) && more.len() <= 1_024 {
            assert_eq!(check_packed_by(MIDDAY, &pack(&more)), Ok(more));
        }
        let ring = held_ring(&mut random, 2 + round % 20, random::Cut::Whole);
        assert_eq!(hindrance(&ring), Some(Hindrance::Stuck));
    }
    assert!(holding > 1_200, "{holding} of 2,000");
}

#[test]
fn clear_wishes_leave_nothing_that_hinders() {
    let mut random = Random::new(52);
    for round in 0..500 {
        let wish = match round % 10 {
            0 => large_midday(&mut random),
            _ => midday(&mut random, 30, 6, 6),
        };
        let plan = resumed::plan(&mut random, resumed::Midday { clear: true, ..wish });
        assert_eq!(hindrance(&plan), None, "{plan:?}");
    }
}

#[test]
fn a_plan_that_both_readers_take_has_the_same_answers() {
    let mut random = Random::new(53);
    for _ in 0..1_000 {
        let wish = wish(&mut random, 24, 5, 4);
        let plan = random::plan(&mut random, wish);
        let (text, numbers) = (write(&plan), pack(&plan));
        assert_eq!(read_by(MIDDAY, &text), read_by(MORNING, &text));
        assert_eq!(check_packed_by(MIDDAY, &numbers), check_packed_by(MORNING, &numbers));
        assert_eq!(plain::printed_by(MIDDAY, &text), plain::printed(&text));
        let order: Vec<u16> = (1..=plan.len() as u16).collect();
        let judged = [MIDDAY, MORNING].map(|settings| judge_by(settings, &numbers, &order));
        assert_eq!(judged[0], judged[1]);
        let to = some_move(&mut random, &numbers);
        let moved = [MIDDAY, MORNING].map(|settings| {
            let (mut plan, mut sets) = (numbers.clone(), table(&plan));
            (move_claim_by(settings, &mut plan, &mut sets, to.line, to.device), plan, sets)
        });
        assert_eq!(moved[0], moved[1]);
        assert_eq!(closing(&plan).segments, []);
    }
}

/// What is left of a plan of the morning after these lines, and the lines that its lines were.
fn leaves(short: &str, begun: &[usize], rest: &str, numbers: &[usize]) {
    let left = left(&common::plan(short), begun);
    assert_eq!(write(&left.plan), text(rest), "{short}");
    assert_eq!(left.numbers, numbers, "{short}");
    assert_eq!(read_by(MIDDAY, &text(rest)), Ok(left.plan));
}

#[test]
fn what_is_left_of_a_plan_that_has_begun() {
    leaves(
        second::listed::A,
        &[1, 4],
        "1 take 1; 1 do 7; 2 held 0; 2 take 1; 2 give 1",
        &[2, 3, 4, 5, 6],
    );
    // Nothing is done, or everything, and nothing is kept.
    leaves("1 take 0; 1 give 0", &[], "1 take 0; 1 give 0", &[1, 2]);
    leaves("1 take 0; 1 give 0", &[1, 2], "", &[]);
    // A job that is through and keeps a device stays; one that keeps nothing goes, and others move up.
    let short = "1 start 2; 1 start 4; 2 start 3; 2 take 5; 3 do 0; 4 do 1; 4 do 2";
    leaves(short, &[1, 2, 3, 4, 5, 6], "1 held 5; 2 do 2", &[4, 7]);
    leaves(short, &[1, 3], "1 start 4; 2 take 5; 3 do 0; 4 do 1; 4 do 2", &[2, 4, 5, 6, 7]);
    // The starter of job 4 has moved up, and so has job 4.
    let short = "1 start 2; 1 start 3; 2 do 0; 3 start 4; 4 do 1";
    leaves(short, &[1, 2, 3], "1 start 2; 2 do 1", &[4, 5]);
}

#[test]
fn what_was_taken_again_is_named_once() {
    let short = "1 take 0; 1 take 0; 1 take 1; 1 give 1; 1 give 0; 1 give 0";
    leaves(short, &[1, 2, 3], "1 held 0; 1 held 1; 1 give 1; 1 do 1; 1 give 0", &[1, 3, 4, 5, 6]);
    leaves(
        short,
        &[1],
        "1 held 0; 1 take 0; 1 take 1; 1 give 1; 1 give 0; 1 give 0",
        &[1, 2, 3, 4, 5, 6],
    );
    let across = "1 take 0; 1 take 1; 1 take 0; 1 give 0; 1 give 1; 1 give 0";
    leaves(across, &[1, 2, 3], "1 held 0; 1 held 1; 1 do 1; 1 give 1; 1 give 0", &[1, 2, 4, 5, 6]);
    // Under a lasting take: the inner take's give is left as a wait, and the device is kept.
    leaves("1 take 3; 1 take 3; 1 give 3; 1 do 9", &[1, 2], "1 held 3; 1 do 1; 1 do 9", &[1, 3, 4]);
}

#[test]
fn the_orders_of_what_is_left_are_the_ends_of_the_plan() {
    small_plans(4, &mut |plan| {
        orders::each_beginning(plan, &mut |begun| {
            let left = left(plan, begun);
            let of_left = orders::all_legal_ends(&left.plan, &[]);
            let mut found: Vec<_> = of_left.iter().map(|order| left.in_whole(order)).collect();
            let mut ends = orders::all_legal_ends(plan, begun);
            found.sort_unstable();
            ends.sort_unstable();
            assert_eq!(ends, found, "{plan:?} after {begun:?}");
            assert_eq!(verdict(&left.plan).is_ok(), !ends.is_empty(), "{plan:?} after {begun:?}");
        });
    });
}

#[test]
fn what_is_left_of_a_legal_order_can_be_finished() {
    let mut random = Random::new(54);
    for _ in 0..300 {
        let wish = wish(&mut random, 200, 20, 12);
        let plan = random::plan(&mut random, wish);
        let Ok(order) = verdict(&plan) else { continue };
        let lines: Vec<usize> = order.lines.iter().map(|&line| line.into()).collect();
        let begun = &lines[..random.below(lines.len() + 1)];
        let left = left(&plan, begun);
        let rest = verdict(&left.plan).expect("the order goes on");
        let rest: Vec<usize> = rest.lines.iter().map(|&line| line.into()).collect();
        let whole = [begun, &left.in_whole(&rest)].concat();
        assert_eq!(orders::held_after(&plan, &whole), Some(order.held));
        let starts = left.plan.iter().filter(|line| matches!(line.verb, Verb::Start(_))).count();
        assert!(starts <= plan.len() - begun.len());
    }
}
