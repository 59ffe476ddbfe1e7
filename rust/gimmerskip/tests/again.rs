//! A job takes again what it holds (02, request 2): who holds what, tables, orders, judged lists and moves.

#![cfg(feature = "std")]

mod common;

use common::{plan, text};
use gimmerskip::{Arc, Plan, Refusal, Tabled, MAX_LINES};

/// Inside a pair, while job 2 wants the device.
const INSIDE: &str =
    "1 start 2; 1 take 0; 1 take 0; 1 do 7; 1 give 0; 1 give 0; 2 take 0; 2 give 0";
/// Under a lasting take, with a give and without one.
const LASTING: &str =
    "1 start 2; 1 take 0; 1 take 0; 1 give 0; 1 take 0; 1 do 7; 2 take 0; 2 give 0";
/// Across another device, which is given before the outermost give.
const ACROSS: &str = "1 take 0; 1 take 1; 1 take 0; 1 give 0; 1 give 1; 1 give 0";
/// Three deep.
const DEEP: &str = "1 take 3; 1 take 3; 1 take 3; 1 give 3; 1 give 3; 1 give 3";

/// The lines of a plan that have something, counted from 1; lines that are none are asked too.
fn lines(short: &str, has: impl Fn(&gimmerskip::Holds, u16) -> bool) -> Vec<u16> {
    let holds = plan(short).holds();
    (0..20).chain([u16::MAX]).filter(|&line| has(&holds, line)).collect()
}

/// The takes that take again, the gives that free, and the lasting takes.
fn told(short: &str) -> [Vec<u16>; 3] {
    let again = lines(short, |holds, line| holds.takes_again(line));
    let frees = lines(short, |holds, line| holds.frees(line));
    [again, frees, lines(short, |holds, line| holds.lasts(line))]
}

#[test]
fn what_is_taken_again_is_told() {
    assert_eq!(told(INSIDE), [vec![3], vec![6, 8], vec![]]);
    assert_eq!(told(LASTING), [vec![3, 5], vec![8], vec![2]]);
    assert_eq!(told(ACROSS), [vec![3], vec![5, 6], vec![]]);
    assert_eq!(told(DEEP), [vec![2, 3], vec![6], vec![]]);
    // Given back, and held by another job: neither is held there.
    assert_eq!(told("1 take 0; 1 give 0; 1 take 0"), [vec![], vec![2], vec![3]]);
    assert_eq!(told("1 take 0; 1 start 2; 2 take 0; 2 give 0"), [vec![], vec![4], vec![1]]);
}

#[test]
fn gives_match_the_take_made_last() {
    let mates = |short: &str| {
        let holds = plan(short).holds();
        let pairs = (1..=8).filter_map(|line| Some((line, holds.mate(line)?)));
        let pairs: Vec<(u16, u16)> = pairs.collect();
        assert!(pairs.iter().all(|&(take, give)| holds.take_of(give) == Some(take)));
        pairs
    };
    assert_eq!(mates(INSIDE), [(2, 6), (3, 5), (7, 8)]);
    assert_eq!(mates(LASTING), [(3, 4), (7, 8)]);
    assert_eq!(mates(ACROSS), [(1, 6), (2, 5), (3, 4)]);
    assert_eq!(mates(DEEP), [(1, 6), (2, 5), (3, 4)]);
    let refused = |short: &str| Plan::from_text(text(short)).expect_err("this is no plan");
    assert_eq!(refused("1 take 0; 1 take 1; 1 take 0; 1 give 1"), Refusal::GiveWithoutTake(4));
    let many = "1 take 0; 1 take 0; 1 give 0; 1 give 0; 1 give 0";
    assert_eq!(refused(many), Refusal::GiveWithoutTake(5));
}

#[test]
fn a_device_is_held_by_its_outermost_take() {
    let outermost = |short: &str, lines: [u16; 6]| {
        let holds = plan(short).holds();
        lines.map(|line| holds.outermost(line).unwrap_or(0))
    };
    assert_eq!(outermost(DEEP, [1, 2, 3, 4, 5, 6]), [1; 6]);
    assert_eq!(outermost(ACROSS, [1, 2, 3, 4, 5, 6]), [1, 2, 1, 1, 2, 1]);
    assert_eq!(outermost(INSIDE, [0, 1, 3, 4, 6, 9]), [0, 0, 2, 0, 2, 0]);
    assert_eq!(outermost(LASTING, [2, 3, 4, 5, 7, 8]), [2, 2, 2, 2, 7, 7]);
}

#[test]
fn it_claims_nothing_and_lasts_for_nobody() {
    assert_eq!(plan(INSIDE).table(), [1, 1, 0, 0, 0, 0, 1, 0]);
    assert_eq!(plan(ACROSS).table(), [3, 2, 0, 0, 0, 0]);
    assert_eq!(plan(DEEP).table(), [8, 0, 0, 0, 0, 0]);
    let holds = plan(LASTING).holds();
    assert_eq!((holds.lasting_takes(0), holds.rows()), (vec![2], &[0; 32]));
}

#[test]
fn orders_are_made_line_by_line() {
    let order = |short: &str| plan(short).verdict().map(|order| (order.lines, order.held));
    assert_eq!(order(INSIDE), Ok((vec![1, 2, 3, 4, 5, 6, 7, 8], 0)));
    assert_eq!(order(LASTING), Ok((vec![1, 7, 8, 2, 3, 4, 5, 6], 1)));
    assert_eq!(order("1 take 3; 1 take 3"), Ok((vec![1, 2], 1)));
    let two = "1 start 2; 1 take 3; 1 take 3; 2 take 3";
    assert_eq!(order(two), Err(Refusal::TwoLasting(3)), "job 2 would keep it too");
}

#[test]
fn a_circle_needs_others() {
    let circle = |short: &str| plan(short).holds().circle();
    let arc = |device, job, line, then, needs| Arc { device, job, line, then, needs };
    assert_eq!(circle(LASTING), None);
    // Line 2 takes again what line 1 keeps; job 2 needs it.
    let starter = "1 take 0; 1 take 0; 1 start 2; 2 take 0; 2 give 0";
    assert_eq!(plan(starter).verdict(), Err(Refusal::LeadsBack(0)));
    assert_eq!(circle(starter), Some(vec![arc(0, 1, 1, 4, 0)]));
    let two =
        "1 start 2; 1 take 0; 1 take 0; 1 take 1; 2 take 2; 2 take 1; 2 take 0; 2 give 0; 2 give 1";
    assert_eq!(circle(two), None, "what is kept is wanted by job 2 alone");
    let ring =
        "1 start 2; 1 take 0; 1 take 1; 1 take 0; 1 give 0; 1 give 1; 2 take 1; 2 take 0; 2 give 0";
    assert_eq!(circle(ring), Some(vec![arc(0, 1, 2, 3, 1), arc(1, 2, 7, 8, 0)]));
}

#[test]
fn the_device_is_free_with_the_outermost_give() {
    let inside = plan(INSIDE);
    assert_eq!(inside.judge(&[1, 2, 3, 4, 5, 6, 7, 8]), Ok(()));
    assert_eq!(inside.judge(&[1, 7, 8, 2, 3, 4, 5, 6]), Ok(()));
    for order in [[1, 2, 7, 8, 3, 4, 5, 6], [1, 2, 3, 4, 5, 7, 8, 6]] {
        let at = order.iter().position(|&line| line == 7).expect("it is there") as u32 + 1;
        assert_eq!(inside.judge(&order), Err(Refusal::IllegalStep(at)));
    }
    assert_eq!(plan(LASTING).judge(&[1, 2, 3, 4, 7, 8, 5, 6]), Err(Refusal::IllegalStep(5)));
}

/// Moves a claim: the count, the sets, and that they are those of the plan worked out afresh.
fn moved(short: &str, line: u32, device: u32, after: &str, sets: &[u32]) -> usize {
    let mut tabled = Tabled::new(plan(short));
    let count = tabled.move_claim(line, device).expect("it can be moved");
    assert_eq!((tabled.plan(), tabled.table()), (&plan(after), sets));
    assert_eq!(tabled, Tabled::new(plan(after)));
    count
}

#[test]
fn what_is_taken_again_can_be_moved() {
    let away = "1 take 3; 1 take 4; 1 take 3; 1 give 3; 1 give 4; 1 give 3";
    assert_eq!(moved(DEEP, 2, 4, away, &[24, 16, 0, 0, 0, 0]), 2);
    assert_eq!(moved(away, 2, 3, DEEP, &[8, 0, 0, 0, 0, 0]), 2, "and back");
    assert_eq!(moved(DEEP, 3, 3, DEEP, &[8, 0, 0, 0, 0, 0]), 0, "it is there already");
}

#[test]
fn a_move_changes_the_lines_under_the_take() {
    let outer = "1 take 4; 1 take 3; 1 take 3; 1 give 3; 1 give 3; 1 give 4";
    assert_eq!(moved(DEEP, 1, 4, outer, &[24, 8, 0, 0, 0, 0]), 2);
    let onto = "1 take 1; 1 take 1; 1 take 0; 1 give 0; 1 give 1; 1 give 1";
    assert_eq!(moved(ACROSS, 1, 1, onto, &[3, 1, 1, 0, 0, 0]), 2);
    // To the job's end where the take has no give; the lines behind that are another job's.
    let end = "1 start 2; 1 take 2; 1 take 0; 1 give 0; 1 take 0; 1 do 7; 2 take 0; 2 give 0";
    assert_eq!(moved(LASTING, 2, 2, end, &[5, 5, 1, 1, 1, 0, 1, 0]), 5);
}

#[test]
fn stale_sets_on_the_way_are_told_before_those_under_the_take() {
    let sets = [3, 3, 2, 0, 0, 0, 0];
    let stale = |spoilt: &[(usize, u32)]| {
        let mut plan = plan("1 do 7; 1 take 0; 1 take 1; 1 do 8; 1 give 1; 1 give 0; 1 do 9");
        let mut table = sets;
        spoilt.iter().for_each(|&(line, set)| table[line - 1] = set);
        let (before, spoilt) = (plan.clone(), table);
        let answer = plan.move_claim(&mut table, 2, 5);
        assert!(answer.is_ok() || (&plan, table) == (&before, spoilt), "a refusal changes nothing");
        answer
    };
    assert_eq!(stale(&[]), Ok(2));
    assert_eq!(stale(&[(4, 4), (3, 6), (2, 7), (1, 7)]), Err(Refusal::StaleTable(4)));
    assert_eq!(
        stale(&[(4, 4), (3, 6), (2, 7)]),
        Err(Refusal::StaleTable(1)),
        "the way comes first"
    );
    assert_eq!(stale(&[(4, 4), (5, 1)]), Err(Refusal::StaleTable(3)), "going down");
    // The give's own set and those behind it are not looked at, but for what the line before the give makes of them.
    assert_eq!(stale(&[(7, 9)]), Ok(2));
    assert_eq!(stale(&[(6, 9)]), Err(Refusal::StaleTable(5)));
}

#[test]
fn it_goes_as_deep_as_there_are_lines() {
    let takes = "1\ttake\t3\n".repeat(MAX_LINES);
    let lasting = Plan::from_text(&takes).expect("it has no fault");
    let order = lasting.verdict().expect("it has an order");
    assert_eq!((order.lines.last(), order.held), (Some(&(MAX_LINES as u16)), 1));
    assert_eq!(lasting.table().iter().sum::<u32>(), 8);
    assert_eq!(lasting.holds().lasting_takes(3), [1]);
    let half = MAX_LINES / 2;
    let nest = takes[..takes.len() / 2].to_string() + &"1\tgive\t3\n".repeat(half);
    let nest = Plan::from_text(&nest).expect("it has no fault");
    let holds = nest.holds();
    assert!((1..=half as u16).all(|line| holds.mate(line) == Some(MAX_LINES as u16 + 1 - line)));
    assert_eq!(nest.verdict().map(|order| order.held), Ok(0));
}
