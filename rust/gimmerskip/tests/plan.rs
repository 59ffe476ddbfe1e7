//! The owned plan: made of text or of packed numbers, asked, and moved.

#![cfg(feature = "std")]

mod common;

use common::{plan, text};
use gimmerskip::{entries, Order, Plan, Refusal, SCREEN_ROOM};
use second::listed::{all, packed, A, B, G, H};

#[test]
fn text_and_packed_numbers_make_the_same_plan() {
    for short in [A, B, G, H, ""] {
        let of_text: Plan = text(short).parse().expect("the plan has no fault");
        let of_packed = Plan::from_packed(packed(short)).expect("the plan has no fault");
        assert_eq!(of_text, of_packed);
        assert_eq!(of_text.packed(), packed(short));
        assert_eq!((of_text.text(), of_text.to_string()), (text(short), text(short)));
    }
    assert_eq!(plan(""), Plan::default());
}

#[test]
fn what_is_no_plan_is_not_made() {
    assert_eq!("1\ttake".parse::<Plan>(), Err(Refusal::Malformed(1)));
    assert_eq!(Plan::from_packed([1_024, 0]), Err(Refusal::Malformed(2)));
    assert_eq!(Plan::from_packed(vec![1_024; 1_025]), Err(Refusal::TooManyLines));
    assert_eq!(
        Plan::from_text([0xff, b'\n']),
        Err(Refusal::Malformed(1)),
        "bytes that are no characters"
    );
}

#[test]
fn a_plan_gives_its_order_and_its_table() {
    let order = Order { lines: vec![1, 4, 5, 6, 2, 3], held: 2 };
    assert_eq!(plan(A).verdict(), Ok(order));
    assert_eq!(plan(A).table(), [3, 2, 0, 3, 2, 0]);
    assert_eq!(plan(G).verdict(), Err(Refusal::TwoLasting(5)));
    assert_eq!(plan(H).verdict(), Err(Refusal::LeadsBack(0)));
    assert_eq!(plan(H).table(), [7, 7, 3, 2, 0, 6, 4, 0, 5, 1, 0]);
    let empty = plan("");
    assert_eq!(empty.verdict(), Ok(Order { lines: vec![], held: 0 }));
    assert!(empty.table().is_empty() && empty.text().is_empty());
}

#[test]
fn the_order_handed_out_is_judged_legal() {
    for listed in all().into_iter().filter(|listed| listed.verdict.is_ok()) {
        let plan = plan(&listed.plan);
        let mut order = plan.verdict().expect("it has an order").lines;
        assert_eq!(plan.judge(&order), Ok(()), "{}", listed.name);
        order.push(1);
        let past = Refusal::IllegalStep(order.len() as u32);
        assert_eq!(plan.judge(&order), Err(past), "{}", listed.name);
    }
}

#[test]
fn the_table_of_a_moved_plan_is_the_one_worked_out_afresh() {
    let mut moved = plan(A);
    let mut table = moved.table();
    for (line, device, count) in [(5, 2, Ok(3)), (4, 31, Ok(2)), (2, 0, Ok(2)), (6, 31, Err(6))] {
        let count = count.map_err(Refusal::NotATake);
        assert_eq!(moved.move_claim(&mut table, line, device), count, "{line} to {device}");
        assert_eq!(table, moved.table());
    }
    assert_eq!(moved, plan("1 start 2; 1 take 0; 1 do 7; 2 take 31; 2 take 2; 2 give 2"));
}

#[test]
fn a_move_can_open_the_ring() {
    let mut ring = plan(H);
    let mut table = ring.table();
    assert_eq!(ring.move_claim(&mut table, 10, 3), Ok(4));
    assert_eq!(ring.verdict().map(|order| order.held), Ok(3));
}

#[test]
fn an_order_is_written_as_the_program_prints_it() {
    for listed in all().iter().filter(|listed| listed.verdict.is_ok()) {
        let mut print = [0; SCREEN_ROOM];
        let count =
            entries::order(text(&listed.plan).as_bytes(), &mut print).expect("there is room");
        let order = plan(&listed.plan).verdict().expect("the plan has an order");
        assert_eq!(order.to_string().as_bytes(), &print[..count], "{}", listed.name);
    }
    assert_eq!(Order { lines: vec![], held: 0 }.to_string(), "order\t0\t0\n");
}
