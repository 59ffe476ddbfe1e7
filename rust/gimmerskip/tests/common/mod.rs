//! Plans for the tests, written the short way: "1 start 2; 1 take 1".

use gimmerskip::{entries, Plan, Refusal, MAX_LINES, ROWS};

/// The text of a plan.
pub fn text(short: &str) -> String {
    String::from_utf8(second::listed::text(short)).expect("a plan is text")
}

/// A plan that has no fault.
#[allow(dead_code)]
pub fn plan(short: &str) -> Plan {
    Plan::from_text(text(short)).expect("the plan has no fault")
}

/// What every entry that takes a packed plan says of it, given room; where they differ, the test fails.
#[allow(dead_code)]
pub fn fault(list: &[u32]) -> Option<Refusal> {
    let (mut text, mut sets) = ([9; 12_288], [9; MAX_LINES]);
    let said = entries::table(list, &mut sets).err();
    assert_eq!(entries::write(list, &mut text).err(), said);
    assert_eq!(Plan::from_packed(list).err(), said);
    if said.is_some() {
        let (mut same, mut order) = (list.to_vec(), [9; MAX_LINES]);
        assert_eq!(entries::verdict(list, &mut order).err(), said);
        assert_eq!(entries::judge(list, &order).err(), said);
        assert_eq!(entries::move_claim(&mut same, &mut sets, 1, 0).err(), said);
        let (mut rows, mut held) = ([9; ROWS], [9]);
        assert_eq!(entries::build(list, &mut sets, &mut rows, &mut held).err(), said);
        let moved = entries::move_kept(&mut same, &mut sets, &mut rows, &mut held, 1, 0);
        assert_eq!((moved.err(), entries::quick(list, &rows).err()), (said, said));
        assert_eq!((&text, &sets, &order), (&[9; 12_288], &[9; MAX_LINES], &[9; MAX_LINES]));
        assert_eq!((rows, held), ([9; ROWS], [9]));
        assert_eq!(same, list);
    }
    said
}
