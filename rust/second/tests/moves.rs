//! Moves: what is refused and in which order, what is rewritten, and what is counted. Those of takes
//! inside others of the same device stand in `again.rs`.

mod common;

use common::{both, moved, packed, plan, refusal};
use second::line::pack;
use second::listed::{A, F, G};
use second::plain::{table, way};
use second::read::check_packed;

#[test]
fn the_way_goes_up_through_the_starts() {
    let short = "1 do 0; 1 start 3; 1 start 2; 1 do 0; 2 do 0; 3 do 0; 3 start 4; 3 do 0; \
                 4 take 1; 4 give 1";
    assert_eq!(way(&plan(short), 9), [9, 8, 6, 5, 1, 0]);
    assert_eq!(way(&plan(short), 4), [4, 2, 1, 0]);
    assert_eq!(way(&plan(short), 0), [0]);
}

#[test]
fn a_give_moves_along_and_a_lasting_take_has_none() {
    let (plan, sets) = both(A);
    let wanted = packed("1 start 2; 1 take 1; 1 do 7; 2 take 9; 2 take 1; 2 give 1");
    let (new_plan, new_sets, changed) = moved(&plan, &sets, 4, 9).expect("accepted");
    assert_eq!(new_plan, wanted);
    assert_eq!(new_sets, [0x202, 2, 0, 0x202, 2, 0]);
    assert_eq!(changed, 2);
}

#[test]
fn the_present_device_changes_nothing() {
    let (plan, sets) = both(A);
    for line in [2, 4, 5] {
        let device = plan[line - 1] % 256;
        let unchanged = Ok((plan.clone(), sets.clone(), 0));
        assert_eq!(moved(&plan, &sets, line as u32, device), unchanged);
    }
}

#[test]
fn only_sets_that_differ_are_counted() {
    // Line 1 starts job 2 and claims device 1 through line 2 as well.
    let (plan, sets) = both("1 start 2; 1 take 1; 2 take 1; 2 give 1");
    let (_, new_sets, changed) = moved(&plan, &sets, 3, 2).expect("accepted");
    assert_eq!((new_sets, changed), (vec![6, 2, 4, 0], 2));
    let (plan, sets) = both("1 take 2; 1 give 2; 1 take 1; 1 take 2; 1 give 2");
    let (_, new_sets, changed) = moved(&plan, &sets, 1, 1).expect("accepted");
    assert_eq!((new_sets, changed), (vec![6, 6, 6, 4, 0], 0));
}

#[test]
fn refusals_come_in_their_order() {
    let (plan, sets) = both(A);
    let bad_plan = [0, 0];
    assert_eq!(moved(&bad_plan, &[], 0, 99), Err(refusal(2, 1)));
    assert_eq!(moved(&plan, &sets[..5], 0, 99), Err(refusal(11, 6)));
    assert_eq!(moved(&plan, &sets, 0, 99), Err(refusal(12, 0)));
    assert_eq!(moved(&plan, &[0; 6], 2, 99), Err(refusal(13, 99)));
    assert_eq!(moved(&plan, &[0; 6], 2, 1), Err(refusal(14, 2)));
}

#[test]
fn the_plan_is_tested_first_by_all_of_2_to_7() {
    let line = |job: u32, kind: u32, operand: u32| job * 1_024 + kind * 256 + operand;
    let cases: [(&[u32], u32, u64); 6] = [
        (&[line(1, 1, 32)], 2, 1),
        (&[line(1, 0, 0); 1_025], 3, 1_025),
        (&[line(2, 0, 0)], 4, 1),
        (&[line(1, 3, 2)], 5, 1),
        (&[line(1, 0, 0), line(2, 0, 0)], 6, 2),
        (&[line(1, 2, 0)], 7, 1),
    ];
    for (plan, number, place) in cases {
        assert_eq!(moved(plan, &[], 1, 0), Err(refusal(number, place)));
        assert_eq!(moved(plan, &[0; 1_100], 1, 0), Err(refusal(number, place)));
    }
}

#[test]
fn twelve_is_any_line_that_is_no_take() {
    let (plan, sets) = both(A);
    for line in [0, 1, 3, 6, 7, 1_024, 1_025, 65_537, u32::MAX] {
        assert_eq!(moved(&plan, &sets, line, 0), Err(refusal(12, line.into())));
        assert_eq!(moved(&plan, &sets, line, 32), Err(refusal(12, line.into())));
    }
    assert_eq!(moved(&[], &[], 0, 0), Err(refusal(12, 0)));
    assert_eq!(moved(&[], &[], 1, 0), Err(refusal(12, 1)));
}

#[test]
fn thirteen_is_any_device_over_31() {
    let (plan, sets) = both(A);
    for device in [32, 33, 255, 256, 257, 65_536, u32::MAX] {
        assert_eq!(moved(&plan, &sets, 2, device), Err(refusal(13, device.into())));
    }
    assert!(moved(&plan, &sets, 2, 31).is_ok());
}

#[test]
fn fourteen_is_the_nearest_stale_line_on_the_way() {
    let (plan, sets) = both(A);
    let spoilt = |line: usize| {
        let mut sets = sets.clone();
        sets[line - 1] ^= 1 << 20;
        sets
    };
    // The way of line 5 is 5, 4, 1. A wrong set makes the line before it on the way stale as well,
    // and the line itself is nearer.
    assert_eq!(moved(&plan, &spoilt(5), 5, 2), Err(refusal(14, 5)));
    assert_eq!(moved(&plan, &spoilt(4), 5, 2), Err(refusal(14, 4)));
    assert_eq!(moved(&plan, &spoilt(1), 5, 2), Err(refusal(14, 1)));
    // Lines 2 and 6 are off the way but follow lines 1 and 5.
    assert_eq!(moved(&plan, &spoilt(2), 5, 2), Err(refusal(14, 1)));
    assert_eq!(moved(&plan, &spoilt(6), 5, 2), Err(refusal(14, 5)));
    // Line 3 follows no line of the way.
    let (_, new_sets, changed) = moved(&plan, &spoilt(3), 5, 2).expect("accepted");
    assert_eq!((new_sets, changed), (vec![7, 2, 1 << 20, 5, 4, 0], 3));
}

#[test]
fn a_set_that_agrees_with_its_neighbours_is_not_stale() {
    // Device 20 is claimed by nobody, but is stored all along the way and beyond it.
    let (plan, sets) = both(A);
    let extra: Vec<u32> = sets.iter().map(|set| set | 1 << 20).collect();
    let (_, new_sets, changed) = moved(&plan, &extra, 5, 2).expect("accepted");
    let wanted: Vec<u32> = [7, 2, 0, 5, 4, 0].iter().map(|set| set | 1 << 20).collect();
    assert_eq!((new_sets, changed), (wanted, 3));
}

#[test]
fn plans_without_a_legal_order_may_be_moved() {
    let (nine, sets) = both(G);
    let (new_plan, new_sets, changed) = moved(&nine, &sets, 3, 6).expect("accepted");
    assert_eq!(new_sets, table(&check_packed(&new_plan).expect("well-formed")));
    assert_eq!(changed, 2);
    let (ten, sets) = both(F);
    let (new_plan, _, changed) = moved(&ten, &sets, 3, 8).expect("accepted");
    assert_eq!(new_plan, pack(&plan("1 take 0; 1 start 2; 2 take 8; 2 give 8")));
    assert_eq!(changed, 3);
}

#[test]
fn a_longer_table_is_no_fault_and_its_tail_stays() {
    let (plan, mut sets) = both(A);
    sets.extend([77, 88]);
    let (_, new_sets, changed) = moved(&plan, &sets, 5, 2).expect("accepted");
    assert_eq!((new_sets, changed), (vec![7, 2, 0, 5, 4, 0, 77, 88], 3));
}
