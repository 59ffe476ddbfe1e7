//! Request 2 of document 02: moves of takes that stand inside others of the same device, or come to.

mod common;

use common::{both, moved, plan, refusal, Moved};
use second::listed::{APART, NESTED};
use second::plain::under;
use second::Refusal;

/// The plan becomes this other one, each with its own table, and so many sets change.
fn becomes(short: &str, line: u32, device: u32, other: &str, changed: u32) {
    let ((plan, sets), (new_plan, new_sets)) = (both(short), both(other));
    assert_eq!(moved(&plan, &sets, line, device), Ok((new_plan, new_sets, changed)), "{short}");
}

#[test]
fn an_inner_take_comes_to_be_outermost_and_goes_back() {
    becomes(NESTED, 1, 1, APART, 2);
    becomes(APART, 1, 0, NESTED, 2);
    assert_eq!((both(NESTED).1, both(APART).1), (vec![1, 0, 0, 0], vec![3, 1, 0, 0]));
}

#[test]
fn what_is_taken_again_may_be_moved() {
    becomes(NESTED, 2, 1, "1 take 0; 1 take 1; 1 give 1; 1 give 0", 2);
    becomes("1 take 3; 1 take 3", 2, 4, "1 take 3; 1 take 4", 2);
    becomes("1 take 3; 1 take 3", 1, 4, "1 take 4; 1 take 3", 2);
    becomes("1 take 3; 1 take 3", 2, 3, "1 take 3; 1 take 3", 0);
    // From one device that the job holds onto another: nothing is claimed anew.
    let short = "1 take 0; 1 take 1; 1 take 0; 1 give 0";
    becomes(short, 3, 1, "1 take 0; 1 take 1; 1 take 1; 1 give 1", 0);
}

#[test]
fn a_take_may_be_moved_onto_what_its_job_holds() {
    becomes("1 take 3; 1 take 4", 2, 3, "1 take 3; 1 take 3", 2);
    let short = "1 take 3; 1 take 4; 1 give 4; 1 give 3; 1 take 5";
    becomes(short, 2, 3, "1 take 3; 1 take 3; 1 give 3; 1 give 3; 1 take 5", 2);
    becomes(short, 1, 4, "1 take 4; 1 take 4; 1 give 4; 1 give 4; 1 take 5", 2);
    let short = "1 take 0; 1 do 0; 1 take 1; 1 give 1; 1 take 1";
    becomes(short, 1, 1, "1 take 1; 1 do 0; 1 take 1; 1 give 1; 1 take 1", 5);
}

#[test]
fn sets_change_before_the_take_and_under_it_and_not_past_its_give() {
    let short = "1 start 2; 1 take 5; 1 give 5; 2 take 0; 2 do 7; 2 take 0; 2 give 0; 2 do 8; \
                 2 give 0; 2 take 0; 2 give 0";
    let other = "1 start 2; 1 take 5; 1 give 5; 2 take 1; 2 do 7; 2 take 0; 2 give 0; 2 do 8; \
                 2 give 1; 2 take 0; 2 give 0";
    assert_eq!(under(&plan(short), 3), [4, 5, 6, 7]);
    assert_eq!(both(short).1, [33, 32, 0, 1, 1, 1, 1, 1, 1, 1, 0]);
    assert_eq!(both(other).1, [35, 32, 0, 3, 1, 1, 1, 1, 1, 1, 0]);
    becomes(short, 4, 1, other, 2);
    let short = "1 take 0; 1 do 7; 1 take 0; 1 give 0; 1 do 8; 1 give 0; 1 do 9";
    let other = "1 take 1; 1 do 7; 1 take 0; 1 give 0; 1 do 8; 1 give 1; 1 do 9";
    becomes(short, 1, 1, other, 3);
}

#[test]
fn without_a_give_the_lines_under_a_take_go_to_its_jobs_end() {
    let short = "1 start 2; 1 take 0; 1 start 3; 1 take 0; 2 take 0; 2 give 0; 3 do 0";
    assert_eq!(under(&plan(short), 1), [2, 3]);
    assert_eq!(under(&plan(short), 3), []);
    assert_eq!(under(&plan(short), 4), []);
    let other = "1 start 2; 1 take 1; 1 start 3; 1 take 0; 2 take 0; 2 give 0; 3 do 0";
    assert_eq!(
        (both(short).1, both(other).1),
        (vec![1, 1, 0, 0, 1, 0, 0], vec![3, 3, 1, 1, 1, 0, 0])
    );
    becomes(short, 2, 1, other, 4);
}

#[test]
fn a_job_started_under_the_take_keeps_its_sets() {
    let short = "1 take 0; 1 start 2; 1 take 0; 1 give 0; 1 give 0; 2 take 0; 2 give 0";
    let other = "1 take 1; 1 start 2; 1 take 0; 1 give 0; 1 give 1; 2 take 0; 2 give 0";
    assert_eq!(
        (both(short).1, both(other).1),
        (vec![1, 1, 0, 0, 0, 1, 0], vec![3, 1, 1, 0, 0, 1, 0])
    );
    becomes(short, 1, 1, other, 2);
}

/// A pair with lines before it, in it and after it. The moved line is 3; under it are 4 to 6.
const AMID: &str = "1 do 0; 1 do 0; 1 take 0; 1 do 0; 1 take 0; 1 give 0; 1 give 0; 1 do 0; 1 do 0";

/// Moves its line 3 to device 1, with a device of nobody's in the sets of these lines.
fn moved_amid(lines: impl IntoIterator<Item = usize>) -> Result<Moved, Refusal> {
    let (plan, mut sets) = both(AMID);
    for line in lines {
        sets[line - 1] |= 1 << 20;
    }
    moved(&plan, &sets, 3, 1)
}

#[test]
fn fourteen_is_looked_for_on_the_way_and_then_under_the_take() {
    let place = |lines: &[usize]| moved_amid(lines.iter().copied()).err();
    // One wrong set makes the line before it stale as well, if the move may change that.
    assert_eq!(place(&[1]), Some(refusal(14, 1)));
    assert_eq!(place(&[2]), Some(refusal(14, 2)));
    assert_eq!(place(&[3]), Some(refusal(14, 3)));
    assert_eq!(place(&[4]), Some(refusal(14, 3)));
    assert_eq!(place(&[5]), Some(refusal(14, 4)));
    assert_eq!(place(&[6]), Some(refusal(14, 5)));
    assert_eq!(place(&[7]), Some(refusal(14, 6)));
    assert_eq!(place(&[8]), None);
    assert_eq!(place(&[9]), None);
    // Where several are stale the way comes first, from the take back, and then the nearest below.
    assert_eq!(place(&[1, 6]), Some(refusal(14, 1)));
    assert_eq!(place(&[2, 5]), Some(refusal(14, 2)));
    assert_eq!(place(&[1, 2, 3, 6]), Some(refusal(14, 3)));
    assert_eq!(place(&[5, 7]), Some(refusal(14, 4)));
}

#[test]
fn one_set_is_stale_where_those_before_agree_with_it() {
    for stale in 1..=9 {
        let wanted = (stale < 7).then(|| refusal(14, stale as u64));
        assert_eq!(moved_amid(1..=stale).err(), wanted, "line {stale}");
    }
}

#[test]
fn a_set_that_is_stale_at_the_give_or_past_it_is_joined_as_it_stands() {
    let fresh = [3, 3, 3, 1, 1, 0, 0, 0, 0];
    for stale in 7..=9 {
        let (_, sets, changed) = moved_amid(1..=stale).expect("accepted");
        let wanted = (1..).zip(fresh).map(|(line, set)| set | u32::from(line <= stale) << 20);
        assert_eq!((sets, changed), (wanted.collect(), 5), "line {stale}");
    }
    let (_, sets, changed) = moved_amid([8]).expect("accepted");
    assert_eq!((sets, changed), (vec![3, 3, 3, 1, 1, 0, 0, 1 << 20, 0], 5));
}

#[test]
fn fourteen_goes_by_the_plan_before_the_edit() {
    // The table of the edited plan is stale for the plan that is lent.
    let (plan, _) = both(NESTED);
    let (_, sets) = both(APART);
    assert_eq!(moved(&plan, &sets, 1, 1), Err(refusal(14, 1)));
    assert_eq!(moved(&plan, &[1, 1, 0, 0], 1, 1), Err(refusal(14, 2)));
}

#[test]
fn the_lines_under_a_lasting_take_are_tested_too() {
    let (plan, sets) = both("1 take 0; 1 do 0; 1 do 0; 1 do 0");
    for stale in 2..=4 {
        let mut spoilt = sets.clone();
        for set in &mut spoilt[..stale] {
            *set |= 1 << 20;
        }
        assert_eq!(moved(&plan, &spoilt, 1, 1), Err(refusal(14, stale as u64)));
    }
}

#[test]
fn a_take_is_moved_at_any_depth() {
    let nest = |outer: u8| {
        let takes = format!("1 take {outer}; {}", ["1 take 0"; 511].join("; "));
        format!("{takes}; {}; 1 give {outer}", ["1 give 0"; 511].join("; "))
    };
    // Line 2 comes to be outermost, and the take above it claims another device.
    becomes(&nest(0), 1, 1, &nest(1), 2);
    becomes(&nest(1), 1, 0, &nest(0), 2);
    let (plan, sets) = both(&nest(0));
    let (new_plan, new_sets, changed) = moved(&plan, &sets, 512, 7).expect("accepted");
    assert_eq!(changed, 512, "all lines down to the innermost claim what it takes");
    assert_eq!(moved(&new_plan, &new_sets, 512, 0), Ok((plan, sets, 512)));
}
