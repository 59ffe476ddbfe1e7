//! What is there without the feature `std`: entries, lines of a text, steps, refusals. This runs with it and without.

use gimmerskip::{entries, lines, outcome, raw, Refusal, Step, Verb, ROWS, SCREEN_ROOM};

const TEXT: &[u8] = b"1\ttake\t5\n1\tgive\t5\n";

#[test]
fn a_text_is_read_ordered_moved_and_written() {
    let (mut plan, mut sets, mut order) = ([0; 2], [0; 2], [0; 2]);
    assert_eq!(entries::read(TEXT, &mut plan), Ok(2));
    assert_eq!(entries::table(&plan, &mut sets), Ok(2));
    assert_eq!(entries::move_claim(&mut plan, &mut sets, 1, 6), Ok(1));
    assert_eq!(entries::verdict(&plan, &mut order), Ok(0));
    assert_eq!(entries::judge(&plan, &order), Ok(()));
    let mut text = [0; 18];
    assert_eq!(entries::write(&plan, &mut text), Ok(18));
    assert_eq!(&text, b"1\ttake\t6\n1\tgive\t6\n");
    let mut out = [0; SCREEN_ROOM];
    assert_eq!(entries::order(TEXT, &mut out), Ok(14));
}

#[test]
fn rows_are_kept_beside_a_plan() {
    let mut plan = [1_285, 1_283, 1_539];
    let (mut sets, mut rows, mut held) = ([0; 3], [0; ROWS], [0]);
    assert_eq!(entries::build(&plan, &mut sets, &mut rows, &mut held), Ok(3));
    assert_eq!((rows[5], held, entries::quick(&plan, &rows)), (1 << 3, [1 << 5], Ok(1)));
    let moved = entries::move_kept(&mut plan, &mut sets, &mut rows, &mut held, 1, 6);
    assert_eq!((moved, rows[5], rows[6], held), (Ok(1), 0, 1 << 3, [1 << 6]));
    assert_eq!(entries::quick(&plan, &rows), Ok(1));
}

#[test]
fn lines_steps_and_refusals_are_there() {
    let mut some = lines(TEXT);
    assert_eq!(some.next(), Some(Ok(Step { job: 1, verb: Verb::Take, operand: 5 })));
    assert_eq!(some.next().map(|line| line.map(Step::packed)), Some(Ok(1_541)));
    assert_eq!(some.next(), None);
    let refusal = outcome(raw::read(b"x", &mut [])).unwrap_err();
    assert_eq!(refusal, Refusal::Malformed(1));
    let error: &dyn core::error::Error = &refusal;
    assert_eq!(error.to_string(), "line 1 is no line that a plan can have");
}
