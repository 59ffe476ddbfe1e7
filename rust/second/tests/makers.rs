//! The makers of plans: what they make is well-formed, and takes devices again as often as wished.

use second::line::pack;
use second::plain::{depths, verdict};
use second::random::{deep_wish, plan, ring, take_again, wish, Cut, Random, Wish};
use second::read::check_packed;
use second::shapes::{of_plan, takes_again, TAKEN_AGAIN};
use second::Line;

/// How many takes there are, and how many of them are of what their job holds.
fn takes(plan: &[Line]) -> (usize, usize) {
    let depths: Vec<usize> = depths(plan).into_iter().flatten().collect();
    (depths.len(), depths.iter().filter(|&&depth| depth > 0).count())
}

/// The plan, which has no fault.
fn well_formed(plan: Vec<Line>) -> Vec<Line> {
    assert_eq!(check_packed(&pack(&plan)), Ok(plan.clone()));
    plan
}

#[test]
fn about_a_fifth_of_the_takes_are_of_what_the_job_holds() {
    let mut random = Random::new(11);
    for (lines, jobs, devices) in [(7, 4, 3), (18, 5, 4), (40, 7, 5), (60, 10, 8), (1_024, 64, 32)]
    {
        let (mut all, mut again) = (0, 0);
        for _ in 0..1_000 {
            let wish = wish(&mut random, lines, jobs, devices);
            let (takes, inner) = takes(&well_formed(plan(&mut random, wish)));
            (all, again) = (all + takes, again + inner);
        }
        let share = again * 100 / all;
        assert!((12..=33).contains(&share), "{share} of a hundred in plans of up to {lines} lines");
    }
}

#[test]
fn none_is_taken_again_where_none_is_wished_for() {
    let mut random = Random::new(12);
    for round in 0..1_000 {
        let wish = Wish { again: 0, ..wish(&mut random, 60, 10, 8) };
        assert!(!takes_again(&plan(&mut random, wish)));
        assert!(!takes_again(&ring(&mut random, 1 + round % 32, Cut::Whole)));
    }
}

#[test]
fn one_more_is_taken_again_where_a_job_holds_something() {
    let mut random = Random::new(13);
    for round in 0..1_000 {
        let mut ring = ring(&mut random, 1 + round % 6, Cut::Whole);
        let refusal = verdict(&ring);
        for inner in 1..=4 {
            ring = well_formed(take_again(&mut random, &ring));
            assert_eq!(takes(&ring).1, inner);
        }
        assert_eq!(verdict(&ring), refusal, "a ring is refused, and to take again changes nothing");
    }
    let idle = check_packed(&[1_024; 5]).expect("five actions are a plan");
    assert_eq!(take_again(&mut random, &idle), idle);
}

#[test]
fn a_deep_wish_is_for_a_device_taken_over_255_deep() {
    let mut random = Random::new(14);
    let deep = |random: &mut Random| {
        let wish = deep_wish(random);
        of_plan(&well_formed(plan(random, wish))).contains(&TAKEN_AGAIN[2])
    };
    let met = (0..100).filter(|_| deep(&mut random)).count();
    assert!(met > 50, "{met} of a hundred");
}
