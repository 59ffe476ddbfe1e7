//! The shapes by which runs count what takes again: each is told where it is, and nowhere else.

mod common;

use common::{both, moved, plan};
use second::judge::astray;
use second::listed::{ACROSS, KEPT, NESTED, TWICE};
use second::random::Move;
use second::shapes::{as_actions, given_in_part, of_move, of_plan, takes_again};

/// The plan takes again in these ways.
fn has(short: &str, wanted: &[&str]) {
    let plan = plan(short);
    assert_eq!(of_plan(&plan), wanted, "{short}");
    assert_eq!(takes_again(&plan), !wanted.is_empty(), "{short}");
}

const AGAIN: &str = "a device taken again";
const DEEP: &str = "a device taken three deep";
const DEEPEST: &str = "a device taken over 255 deep";
const OTHER: &str = "a device taken again across another";
const LASTING: &str = "a device taken again under its lasting take";
const START: &str = "a start inside what is taken again";

#[test]
fn plans_have_their_shapes() {
    has("", &[]);
    has("1 take 0; 1 give 0; 1 take 0", &[]);
    has("1 take 0; 1 start 2; 2 take 0", &[]);
    has(NESTED, &[AGAIN]);
    has(TWICE, &[AGAIN, LASTING]);
    has(KEPT, &[AGAIN, LASTING]);
    has(ACROSS, &[AGAIN, OTHER]);
    has("1 take 0; 1 take 1; 1 give 1; 1 take 0", &[AGAIN, LASTING]);
    has("1 take 0; 1 take 0; 1 take 0; 1 give 0; 1 give 0; 1 give 0", &[AGAIN, DEEP]);
    has("1 take 0; 1 start 2; 1 take 0; 1 give 0; 1 give 0; 2 take 0; 2 give 0", &[AGAIN]);
    has("1 take 0; 1 take 0; 1 start 2; 1 give 0; 1 give 0; 2 do 0", &[AGAIN, START]);
    has("1 take 0; 1 take 0; 1 start 2; 2 do 0", &[AGAIN, LASTING, START]);
}

#[test]
fn over_255_is_256() {
    let takes = |times: usize| vec!["1 take 3"; times].join("; ");
    has(&takes(255), &[AGAIN, DEEP, LASTING]);
    has(&takes(256), &[AGAIN, DEEP, DEEPEST, LASTING]);
}

#[test]
fn actions_stand_for_what_takes_again() {
    let across =
        "1 start 2; 1 take 0; 1 take 1; 1 do 0; 1 do 0; 1 give 1; 1 give 0; 2 take 0; 2 give 0";
    assert_eq!(as_actions(&plan(ACROSS)), plan(across));
    assert_eq!(as_actions(&plan(TWICE)), plan("1 take 3; 1 do 0"));
    assert_eq!(as_actions(&plan("1 take 0; 1 give 0")), plan("1 take 0; 1 give 0"));
}

/// The move is of these shapes, with a device of nobody's in the sets of the first so many lines, of
/// which the last one alone is stale.
fn is(short: &str, line: u32, device: u32, stale: usize, wanted: &[&str]) {
    let (packed, mut sets) = both(short);
    for set in &mut sets[..stale] {
        *set |= 1 << 20;
    }
    let answer = moved(&packed, &sets, line, device).map(|(_, _, changed)| changed.into());
    let shapes = of_move(&plan(short), &sets, Move { line, device }, answer);
    assert_eq!(shapes, wanted, "{short}");
}

#[test]
fn moves_have_their_shapes() {
    let [changed, unchanged] = ["accepted, sets changed", "accepted, no set changed"];
    let again = "accepted, of what is taken again";
    let away = "accepted, away from a device that its job holds";
    let onto = "accepted, onto a device that its job holds";
    let outermost = "accepted, another take comes to be outermost";
    let inner = "accepted, another take comes to take again";
    is(NESTED, 1, 1, 0, &[outermost, changed]);
    is(NESTED, 1, 0, 0, &[unchanged]);
    is(NESTED, 2, 1, 0, &[again, away, changed]);
    is(NESTED, 2, 0, 0, &[again, unchanged]);
    is("1 take 0; 1 take 1", 2, 0, 0, &[onto, changed]);
    is("1 take 0; 1 take 1", 1, 1, 0, &[inner, changed]);
    is("1 take 0; 1 take 1", 1, 5, 0, &[changed]);
    is(NESTED, 5, 1, 0, &[]);
    is(NESTED, 1, 32, 0, &[]);
}

#[test]
fn tables_have_their_shapes() {
    let short = "1 do 0; 1 take 0; 1 do 0; 1 give 0; 1 do 0";
    is(short, 2, 1, 1, &["refusal 14, on the way"]);
    is(short, 2, 1, 2, &["refusal 14, on the way"]);
    is(short, 2, 1, 3, &["refusal 14, under the take"]);
    is(short, 2, 1, 4, &["accepted, stale at the give or past it"]);
    is(short, 2, 1, 5, &["accepted, stale at the give or past it"]);
    is("1 start 2; 1 do 0; 2 take 0", 3, 1, 2, &["accepted, stale elsewhere"]);
}

#[test]
fn a_device_is_given_in_part_between_its_gives() {
    let plan = plan("1 start 2; 1 take 0; 1 take 0; 1 give 0; 1 give 0; 2 take 0");
    let in_part = |order: &[usize]| {
        let astray = astray(&plan, order).expect("the list is not legal");
        given_in_part(&plan, order, &astray)
    };
    assert!(in_part(&[1, 2, 3, 4, 6]));
    assert!(!in_part(&[1, 2, 3, 6]), "nothing is given back");
    assert!(!in_part(&[1, 2, 6]));
    assert!(!in_part(&[1, 2, 3, 4]), "the list stops early");
    assert!(!in_part(&[2, 3, 4, 6]), "job 1 has not come so far");
}
