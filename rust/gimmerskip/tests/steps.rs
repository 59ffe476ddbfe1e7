//! Steps: of packed numbers, of a plan and of a text, and as they are written.

#![cfg(feature = "std")]

mod common;

use common::{plan, text};
use gimmerskip::{lines, Plan, Refusal, Step, Verb, MAX_LINES};
use second::listed::{A, G, H};
use std::collections::{BTreeSet, HashSet};

/// Every number that could stand for a line, and some past them.
const NUMBERS: std::ops::Range<u32> = 0..66 * 1_024;

#[test]
fn a_number_is_a_step_exactly_if_an_entry_takes_it_for_a_line() {
    for number in NUMBERS.chain([u32::MAX, 1 << 20, 1 << 16 | 1_285, 256 << 10 | 1_285]) {
        let step = Step::from_packed(number);
        let malformed = Plan::from_packed([number]) == Err(Refusal::Malformed(1));
        assert_eq!(step.is_none(), malformed, "{number}");
        assert!(step.map_or(true, |step| step.packed() == number), "{number}");
    }
}

#[test]
fn a_step_out_of_range_is_packed_as_no_line() {
    for (job, verb, operand) in
        [(0, Verb::Do, 0), (65, Verb::Do, 0), (255, Verb::Start, 255), (1, Verb::Take, 32)]
    {
        let step = Step { job, verb, operand };
        assert_eq!(Step::from_packed(step.packed()), None, "{step}");
    }
    for operand in [0, 1, 65, 255] {
        let start = Step { job: 1, verb: Verb::Start, operand };
        assert_eq!(Step::from_packed(start.packed()), None, "{start}");
    }
}

#[test]
fn takes_and_gives_have_a_device() {
    let devices = Verb::ALL.map(|verb| Step { job: 1, verb, operand: 31 }.device());
    assert_eq!(devices, [None, Some(31), Some(31), None]);
}

#[test]
fn each_step_is_written_as_the_line_that_is_read_as_it() {
    for step in NUMBERS.filter_map(Step::from_packed) {
        let line = format!("{step}\n");
        let read: Vec<_> = lines(line.as_bytes()).collect();
        assert_eq!(read, [Ok(step)], "{line:?}");
    }
}

#[test]
fn verbs_have_their_words_and_their_order() {
    let words: Vec<String> = Verb::ALL.iter().map(Verb::to_string).collect();
    assert_eq!(words, ["do", "take", "give", "start"]);
    assert_eq!(format!("{:>6}{:<6}|", Verb::Take, Verb::Give), "  takegive  |");
    assert!(Verb::ALL.windows(2).all(|two| two[0] < two[1]));
    assert_eq!(Verb::ALL.iter().collect::<HashSet<_>>().len(), 4);
    assert_eq!(Verb::ALL.iter().collect::<BTreeSet<_>>().len(), 4);
}

#[test]
fn a_plan_hands_out_its_steps_from_both_ends() {
    for short in [A, G, H, ""] {
        let plan = plan(short);
        let steps: Vec<Step> = plan.steps().collect();
        assert_eq!((plan.len(), plan.is_empty()), (steps.len(), steps.is_empty()));
        let written: String = steps.iter().map(|step| format!("{step}\n")).collect();
        assert_eq!(written, text(short));
        let mut back: Vec<Step> = plan.steps().rev().collect();
        back.reverse();
        assert_eq!(back, steps);
        assert_eq!((&plan).into_iter().collect::<Vec<_>>(), steps);
        assert_eq!(
            (1..=steps.len() as u16).filter_map(|line| plan.step(line)).count(),
            steps.len()
        );
        assert_eq!((plan.step(0), plan.step(steps.len() as u16 + 1)), (None, None));
        assert_eq!(plan.step(u16::MAX), None);
    }
}

#[test]
fn steps_say_how_many_are_left() {
    let plan = plan(A);
    let mut steps = plan.steps();
    for left in (1..=6).rev() {
        assert_eq!((steps.len(), steps.size_hint()), (left, (left, Some(left))));
        let one = if left % 2 == 0 { steps.next() } else { steps.next_back() };
        assert!(one.is_some());
    }
    assert_eq!((steps.len(), steps.next(), steps.next_back()), (0, None, None));
}

#[test]
fn a_text_is_handed_out_up_to_its_first_refusal() {
    let all = |text: &[u8]| lines(text).collect::<Vec<_>>();
    assert_eq!(all(b""), []);
    assert_eq!(all(b"\n"), [Err(Refusal::Malformed(1))]);
    let step = Step { job: 9, verb: Verb::Give, operand: 3 };
    assert_eq!(all(b"9\tgive\t3\n"), [Ok(step)], "whether it is a plan is not looked at");
    assert_eq!(all(b"9\tgive\t3\n9\tdo\t1"), [Ok(step), Err(Refusal::Malformed(2))]);
    assert_eq!(all(b"9\tgive\t3\nx\n9\tgive\t3\n"), [Ok(step), Err(Refusal::Malformed(2))]);
    assert_eq!(all(&[b'\n'; 12_289]), [Err(Refusal::TextTooLong)]);
    let mut long = all("1\tdo\t0\n".repeat(MAX_LINES + 1).as_bytes());
    assert_eq!((long.len(), long.pop()), (MAX_LINES + 1, Some(Err(Refusal::TooManyLines))));
    assert!(long.iter().all(Result::is_ok));
}

#[test]
fn after_its_end_a_text_stays_at_its_end() {
    for text in ["1\tdo\t0\n", "1\tdo\t0\nx\n", ""] {
        let mut some = lines(text.as_bytes());
        while some.next().is_some() {}
        assert_eq!((some.next(), some.next()), (None, None), "{text:?}");
    }
}
