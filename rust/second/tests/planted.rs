//! Plans in which rows are planted: they have these rows, no fault, and no device held twice.

use second::leading::{chain, dense, forward, only_of, order, parts, some_parts, sparse};
use second::leading::{Numbering, Part, ALL, NONE};
use second::line::pack;
use second::plain::{circles, lowest, rows, verdict, Rows};
use second::planted::{planted, Layout};
use second::random::Random;
use second::read::check_packed;
use second::{Line, Refusal};

/// Plants the rows. The plan, if it has room, has them, and the verdict that goes with them.
fn plants(random: &mut Random, wanted: &Rows, layout: Layout) -> Option<Vec<Line>> {
    let plan = planted(random, wanted, layout)?;
    assert_eq!(check_packed(&pack(&plan)), Ok(plan.clone()), "{layout:?}, {wanted:?}");
    assert_eq!(rows(&plan), *wanted, "{layout:?}");
    let refusal = lowest(circles(wanted)).map(|device| Refusal::at(10, device));
    assert_eq!(verdict(&plan).err(), refusal, "{layout:?}, {wanted:?}");
    Some(plan)
}

/// The rows can be planted, under each numbering and in both ways.
fn has_room(random: &mut Random, rows: &Rows) {
    for numbering in Numbering::EACH {
        for layout in [Layout::Apart, Layout::Nested] {
            let rows = numbering.of(random, rows);
            assert!(plants(random, &rows, layout).is_some(), "{layout:?}, {rows:?}");
        }
    }
}

#[test]
fn shapes_have_room() {
    let mut random = Random::new(31);
    for length in 1..=32 {
        has_room(&mut random, &parts(&[Part::Ring(length)]));
        has_room(&mut random, &parts(&[Part::Path(length)]));
    }
    has_room(&mut random, &NONE);
    has_room(&mut random, &parts(&[Part::Ring(1); 32]));
    has_room(&mut random, &chain(&[Part::Ring(1); 32]));
    for _ in 0..200 {
        let list = some_parts(&mut random);
        has_room(&mut random, &parts(&list));
        has_room(&mut random, &chain(&list));
    }
}

#[test]
fn random_rows_have_room_up_to_a_density() {
    let mut random = Random::new(32);
    for round in 0..200 {
        let full = only_of(&ALL, 0x4210_8421 << (round % 2));
        let drawn = [
            sparse(&mut random, 1 + round % 3),
            dense(&mut random, 1 + round % 12),
            forward(&mut random, 2 + round % 31),
        ];
        for rows in drawn.iter().chain([&full]) {
            has_room(&mut random, rows);
        }
    }
}

#[test]
fn rows_that_hold_each_other_have_room_where_they_are_nested() {
    let mut random = Random::new(33);
    for (rows, lines) in [(order(), 100), (ALL, 200)] {
        assert_eq!(plants(&mut random, &rows, Layout::Apart), None);
        let nested = plants(&mut random, &rows, Layout::Nested);
        assert!(nested.is_some_and(|plan| plan.len() <= lines));
    }
}

#[test]
fn devices_without_a_row_are_held_at_times() {
    let mut random = Random::new(34);
    let held = |random: &mut Random| {
        let plan = plants(random, &NONE, Layout::Apart).expect("no rows need no lines");
        verdict(&plan).expect("without rows there is an order").held
    };
    let some = (0..100).map(|_| held(&mut random)).filter(|&held| held > 0 && held < 32).count();
    assert!(some > 90, "{some} of a hundred");
}
