//! The order handed out, where (a) and (b) have a choice.

mod common;

use common::plan;
use second::plain::{passes_over, verdict, Order};

/// The plan is accepted with this order.
fn order(short: &str, lines: &[u16], held: u32) {
    let wanted = Order { lines: lines.to_vec(), held };
    assert_eq!(verdict(&plan(short)), Ok(wanted), "{short}");
}

#[test]
fn the_lowest_job_goes_on_first() {
    order("1 start 3; 1 start 2; 1 do 0; 2 do 0; 2 do 0; 3 do 0", &[1, 2, 3, 4, 5, 6], 0);
    // Job 1 stands at a lasting take while job 2 can go on, and so does job 2 before job 3.
    order("1 start 2; 1 take 0; 1 do 0; 2 start 3; 2 take 1; 3 do 0", &[1, 4, 6, 2, 3, 5], 2);
}

#[test]
fn a_pair_goes_through_with_all_that_is_in_it() {
    let short = "1 start 2; 1 take 0; 2 take 3; 2 start 3; 2 take 0; 2 give 0; 2 give 3; 3 do 0";
    order(short, &[1, 3, 4, 5, 6, 7, 8, 2], 1);
}

#[test]
fn the_lowest_free_device_is_taken_to_the_end() {
    order("1 start 2; 1 take 7; 2 take 4", &[1, 3, 2], 2);
    order("1 start 2; 1 take 4; 2 take 7", &[1, 2, 3], 2);
    assert!(!passes_over(&plan("1 start 2; 1 take 7; 2 take 4")));
}

#[test]
fn a_lower_device_that_another_line_takes_is_passed_over() {
    let short = "1 start 2; 1 take 0; 2 take 1; 2 take 0; 2 give 0";
    order(short, &[1, 3, 4, 5, 2], 2);
    assert!(passes_over(&plan(short)));
    // A pair that is done does not block any longer.
    order("1 start 2; 1 take 0; 2 take 0; 2 give 0; 2 take 1", &[1, 3, 4, 2, 5], 2);
    // Neither does a pair of the same job above; below, the job takes again what it holds.
    order("1 take 0; 1 give 0; 1 take 0; 1 do 0", &[1, 2, 3, 4], 1);
    order("1 take 0; 1 do 0; 1 take 0; 1 give 0", &[1, 2, 3, 4], 1);
}

#[test]
fn to_take_again_is_a_line_like_any_other() {
    // Line 5 comes by (a); as a lasting take it would have to let line 6 go first.
    order("1 start 2; 1 take 5; 1 take 1; 1 give 1; 1 take 5; 2 take 1", &[1, 2, 3, 4, 5, 6], 2);
    order("1 start 2; 1 take 5; 1 take 5; 1 take 5; 2 take 1; 2 do 0", &[1, 5, 6, 2, 3, 4], 2);
}

#[test]
fn to_take_again_keeps_no_device_from_being_taken_to_the_end() {
    // Line 2 goes first, though lines 3 and 6 take the device again.
    let short = "1 start 2; 1 take 0; 1 take 0; 1 take 1; 1 give 1; 1 take 0; 2 take 3";
    order(short, &[1, 2, 3, 4, 5, 6, 7], 2);
    assert!(!passes_over(&plan(short)));
    // Line 5 keeps it from that, which is an outermost take of another job.
    let short = "1 start 2; 1 take 0; 1 take 0; 2 take 3; 2 take 0; 2 take 0; 2 give 0; 2 give 0";
    order(short, &[1, 4, 5, 6, 7, 8, 2, 3], 2);
    assert!(passes_over(&plan(short)));
}

#[test]
fn a_pair_goes_through_with_what_is_taken_again_in_it() {
    let short =
        "1 start 2; 1 take 0; 2 take 3; 2 take 3; 2 start 3; 2 give 3; 2 take 0; 2 give 0; \
                 2 give 3; 3 take 3; 3 give 3";
    order(short, &[1, 3, 4, 5, 6, 7, 8, 9, 10, 11, 2], 1);
}
