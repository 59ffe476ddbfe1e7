//! Who holds what: mates, lasting takes, rows, and the circles that are told.

#![cfg(feature = "std")]

mod common;

use common::plan;
use gimmerskip::{Arc, Refusal};
use second::listed::{A, B, C, D, E, F, G, H};

/// An arc, the short way.
fn arc(device: u8, job: u8, line: u16, then: u16, needs: u8) -> Arc {
    Arc { device, job, line, then, needs }
}

/// The rows that are not empty, with their devices.
fn rows(short: &str) -> Vec<(usize, u32)> {
    let holds = plan(short).holds();
    let rows = holds.rows().iter().copied().enumerate();
    rows.filter(|&(_, row)| row != 0).collect()
}

#[test]
fn each_take_has_its_give_or_lasts() {
    let holds =
        plan("1 take 3; 1 take 5; 1 do 0; 1 give 5; 1 give 3; 1 take 5; 1 take 3; 1 give 3")
            .holds();
    let mates: Vec<_> = (0..10).map(|line| holds.mate(line)).collect();
    let none = None;
    assert_eq!(mates, [none, Some(5), Some(4), none, none, none, none, Some(8), none, none]);
    let takes: Vec<_> = (0..10).map(|line| holds.take_of(line)).collect();
    assert_eq!(takes, [none, none, none, none, Some(2), Some(1), none, none, Some(7), none]);
    assert_eq!((0..10).filter(|&line| holds.lasts(line)).collect::<Vec<_>>(), [6]);
    assert!(!holds.lasts(u16::MAX) && holds.mate(u16::MAX).is_none());
}

#[test]
fn what_an_earlier_job_keeps_is_not_given_by_a_later_one() {
    let holds = plan("1 take 3; 1 start 2; 2 take 4; 2 take 5; 2 give 5; 2 give 4").holds();
    assert!(holds.lasts(1));
    assert_eq!((holds.mate(3), holds.take_of(6)), (Some(6), Some(3)));
}

#[test]
fn lasting_takes_are_told_by_device() {
    let holds = plan(G).holds();
    assert_eq!(holds.lasting_takes(5), [2, 3]);
    assert!((0..=u8::MAX).filter(|&device| device != 5).all(|d| holds.lasting_takes(d).is_empty()));
    assert_eq!(plan(E).holds().lasting_takes(0), [4], "the take in line 1 is given back");
    assert!((0..32).all(|device| plan(D).holds().lasting_takes(device).is_empty()));
}

#[test]
fn rows_have_what_is_claimed_behind() {
    assert_eq!(rows(A), [(0, 2)]);
    assert_eq!(rows(B), [(0, 4)]);
    assert_eq!(rows(C), [(0, 2), (1, 1)]);
    assert_eq!(rows(D), []);
    assert_eq!(rows(F), [(0, 1)]);
    assert_eq!(rows(H), [(0, 2), (1, 4), (2, 1)]);
    assert_eq!(rows(""), []);
    // The last line of a job has nothing behind it, whatever job comes next.
    assert_eq!(rows("1 start 2; 1 take 0; 2 take 31; 2 give 31"), []);
    // Two lasting takes of a device join what is behind each.
    let twice = "1 start 2; 1 take 0; 1 take 7; 1 give 7; 2 take 0; 2 take 31; 2 give 31";
    assert_eq!(rows(twice), [(0, 1 << 7 | 1 << 31)]);
}

#[test]
fn the_circle_is_told_line_by_line() {
    let circle = |short: &str| plan(short).holds().circle();
    assert_eq!(circle(C), Some(vec![arc(0, 1, 2, 3, 1), arc(1, 2, 5, 6, 0)]));
    assert_eq!(circle(F), Some(vec![arc(0, 1, 1, 3, 0)]), "the job that it starts waits for it");
    let ring = [arc(0, 1, 3, 4, 1), arc(1, 2, 6, 7, 2), arc(2, 3, 9, 10, 0)];
    assert_eq!(circle(H), Some(ring.to_vec()));
    for short in [A, B, D, E, G, ""] {
        assert_eq!(circle(short), None, "{short}");
    }
}

#[test]
fn a_circle_can_be_asked_for_through_each_device() {
    let holds = plan(H).holds();
    let ring = [arc(0, 1, 3, 4, 1), arc(1, 2, 6, 7, 2), arc(2, 3, 9, 10, 0)];
    for device in 0..3 {
        let mut from = ring;
        from.rotate_left(device);
        assert_eq!(holds.circle_through(device as u8), Some(from.to_vec()));
    }
    assert!((3..=u8::MAX).all(|device| holds.circle_through(device).is_none()));
}

#[test]
fn a_device_that_only_leads_to_a_circle_is_not_on_one() {
    let short = "1 start 2; 1 start 3; 1 take 0; 1 take 5; 1 give 5; \
                 2 take 5; 2 take 6; 2 give 6; 3 take 6; 3 take 5; 3 give 5";
    let plan = plan(short);
    assert_eq!(plan.verdict(), Err(Refusal::LeadsBack(5)));
    assert_eq!(plan.holds().circle_through(0), None);
    let circle = [arc(5, 2, 6, 7, 6), arc(6, 3, 9, 10, 5)];
    assert_eq!(plan.holds().circle(), Some(circle.to_vec()));
}

#[test]
fn the_shortest_circle_is_told_and_of_those_the_lowest() {
    // Device 0 leads to 1, 2 and 3; 1 leads on to 2, and both 2 and 3 lead back to 0.
    let short = "1 start 2; 1 start 3; 1 start 4; \
                 1 take 0; 1 take 1; 1 give 1; 1 take 3; 1 give 3; 1 take 2; 1 give 2; \
                 2 take 1; 2 take 2; 2 give 2; 3 take 2; 3 take 0; 3 give 0; 4 take 3; 4 take 0; 4 give 0";
    let circle = plan(short).holds().circle();
    assert_eq!(circle, Some(vec![arc(0, 1, 4, 9, 2), arc(2, 3, 14, 15, 0)]));
}

#[test]
fn the_first_line_behind_is_told_also_in_started_jobs() {
    // Behind line 2 stand jobs 2 and 4, but not job 3; both take device 1.
    let short = "1 start 3; 1 take 0; 1 start 2; 2 start 4; 3 take 1; 3 take 0; 3 give 0; 4 take 1; 4 give 1";
    let circle = plan(short).holds().circle();
    assert_eq!(circle, Some(vec![arc(0, 1, 2, 8, 1), arc(1, 3, 5, 6, 0)]));
}

#[test]
fn what_is_needed_may_be_a_lasting_take_itself() {
    let short = "1 start 2; 1 take 0; 1 take 1; 2 take 2; 2 take 0; 2 give 0; 2 take 3";
    assert_eq!(rows(short), [(0, 2), (2, 1 | 8)]);
    assert_eq!(plan(short).holds().circle(), None);
    let both = "1 start 2; 1 take 0; 1 take 1; 2 take 1; 2 take 0";
    assert_eq!(plan(both).verdict(), Err(Refusal::TwoLasting(0)), "9 comes first");
    let circle = [arc(0, 1, 2, 3, 1), arc(1, 2, 4, 5, 0)];
    assert_eq!(plan(both).holds().circle(), Some(circle.to_vec()), "the circle is there as well");
}

#[test]
fn of_two_lasting_takes_the_one_with_the_arc_is_told() {
    let short = "1 start 2; 1 start 3; 1 take 0; 2 take 0; 2 take 1; 2 give 1; 3 take 1; 3 take 0; 3 give 0";
    let circle = [arc(0, 2, 4, 5, 1), arc(1, 3, 7, 8, 0)];
    assert_eq!(plan(short).holds().circle(), Some(circle.to_vec()));
}

#[test]
fn the_highest_job_and_device_count_too() {
    let chain: Vec<String> = (1..63).map(|job| format!("{job} start {}", job + 1)).collect();
    let short = chain.join("; ") + "; 63 take 31; 63 start 64; 64 take 31; 64 give 31";
    let circle = plan(&short).holds().circle();
    assert_eq!(circle, Some(vec![arc(31, 63, 63, 65, 31)]));
}

#[test]
fn a_ring_of_all_devices_is_told_whole() {
    // Job 1 starts the others; job 2 keeps device 0 and needs 1, job 3 keeps 1 and needs 2, and so on.
    let starts = (2..34).map(|job| format!("1 start {job}"));
    let link = |at: u8| {
        let (job, next) = (at + 2, (at + 1) % 32);
        format!("{job} take {at}; {job} take {next}; {job} give {next}")
    };
    let short = starts.chain((0..32).map(link)).collect::<Vec<_>>().join("; ");
    let holds = plan(&short).holds();
    let ring = |at: u8| {
        let line = 33 + 3 * u16::from(at);
        arc(at, at + 2, line, line + 1, (at + 1) % 32)
    };
    assert_eq!(holds.circle(), Some((0..32).map(ring).collect()));
    let through = holds.circle_through(31).expect("31 is on the ring too");
    assert_eq!((through.len(), through[0].device, through[31].needs), (32, 31, 31));
}
