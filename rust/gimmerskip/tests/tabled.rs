//! A plan that keeps its table, rows and held set: moves, refused and done, and what is left of all.

#![cfg(feature = "std")]

mod common;

use common::plan;
use gimmerskip::{Plan, Refusal, Tabled};
use second::listed::{A, B, G, H};

#[test]
fn it_begins_with_the_plans_own_table() {
    for short in [A, B, G, H, ""] {
        let tabled = Tabled::new(plan(short));
        assert_eq!((tabled.plan(), tabled.table()), (&plan(short), &plan(short).table()[..]));
        assert_eq!(tabled.verdict(), plan(short).verdict());
        assert_eq!(Tabled::from(plan(short)), tabled);
        assert_eq!(tabled.into_plan(), plan(short));
    }
    assert_eq!(Tabled::default(), Tabled::new(Plan::default()));
}

#[test]
fn a_move_keeps_plan_and_table_together() {
    let mut tabled = Tabled::new(plan(A));
    assert_eq!(tabled.move_claim(5, 2), Ok(3));
    assert_eq!(tabled.plan(), &plan(B));
    assert_eq!(tabled.table(), [7, 2, 0, 5, 4, 0]);
    assert_eq!(tabled.move_claim(5, 2), Ok(0), "it is there already");
    assert_eq!(tabled.move_claim(5, 1), Ok(3));
    assert_eq!(tabled, Tabled::new(plan(A)));
}

#[test]
fn a_refused_move_changes_nothing() {
    let mut tabled = Tabled::new(plan(A));
    let before = tabled.clone();
    assert_eq!(tabled.move_claim(0, 2), Err(Refusal::NotATake(0)));
    assert_eq!(tabled.move_claim(u32::MAX, 2), Err(Refusal::NotATake(u32::MAX)));
    assert_eq!(tabled.move_claim(6, 99), Err(Refusal::NotATake(6)));
    assert_eq!(tabled.move_claim(5, 32), Err(Refusal::NoSuchDevice(32)));
    assert_eq!(tabled, before);
}

#[test]
fn moves_can_mend_a_plan_without_an_order() {
    let mut tabled = Tabled::new(plan(H));
    assert_eq!(tabled.verdict(), Err(Refusal::LeadsBack(0)));
    assert_eq!(tabled.quick(), Err(Refusal::LeadsBack(0)));
    assert_eq!(tabled.move_claim(10, 3), Ok(4));
    assert_eq!(tabled.verdict().map(|order| order.held), Ok(3));
    assert_eq!((tabled.quick(), tabled.held()), (Ok(3), 7));
    assert_eq!(tabled.plan().holds().circle(), None);
}
