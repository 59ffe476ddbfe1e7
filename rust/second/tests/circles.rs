//! The devices that lead back to themselves: in rows worked out by hand, in rows made to a shape, and in
//! all rows of four devices, against a walk that keeps a list of the devices that it has met.

use second::leading::{chain, dense, forward, of_four, order, parts, renamed};
use second::leading::{some_parts, sparse, union, Numbering, Part, ALL, NONE};
use second::plain::{circles, lowest, members, Rows};
use second::random::Random;

/// The rows in which one device leads to another, for each pair.
fn rows(pairs: &[(usize, u32)]) -> Rows {
    let mut rows = NONE;
    for &(from, to) in pairs {
        rows[from] |= 1 << to;
    }
    rows
}

/// In the rows of these pairs, these devices lead back and no others.
fn back(pairs: &[(usize, u32)], wanted: &[u32]) {
    let back: Vec<u32> = members(circles(&rows(pairs))).collect();
    assert_eq!(back, wanted, "{pairs:?}");
}

#[test]
fn a_device_leads_back_in_one_step_or_more() {
    back(&[], &[]);
    back(&[(5, 5)], &[5]);
    back(&[(0, 31), (31, 0)], &[0, 31]);
    back(&[(0, 1), (1, 2), (2, 0)], &[0, 1, 2]);
    back(&[(9, 4), (4, 30), (30, 17), (17, 9)], &[4, 9, 17, 30]);
}

#[test]
fn to_lead_on_is_not_to_lead_back() {
    back(&[(5, 3)], &[]);
    back(&[(0, 1), (0, 2), (1, 3), (2, 3)], &[]);
    back(&[(31, 30), (30, 29), (31, 29)], &[]);
}

#[test]
fn who_leads_to_a_ring_or_is_led_to_from_it_does_not_lead_back() {
    back(&[(2, 0), (0, 1), (1, 0), (1, 3)], &[0, 1]);
    back(&[(0, 1), (1, 1), (1, 2)], &[1]);
    back(&[(0, 7), (7, 0), (7, 12), (12, 20), (20, 21), (21, 20)], &[0, 7, 20, 21]);
}

#[test]
fn rings_that_meet_are_led_back_from_together() {
    back(&[(0, 1), (1, 2), (2, 0), (2, 3), (3, 4), (4, 2)], &[0, 1, 2, 3, 4]);
    back(&[(0, 1), (1, 0), (0, 2), (2, 0), (8, 8), (8, 0)], &[0, 1, 2, 8]);
}

#[test]
fn all_or_none_of_32() {
    assert_eq!(circles(&NONE), 0);
    assert_eq!(circles(&ALL), u32::MAX);
    assert_eq!(circles(&order()), 0);
    assert_eq!(circles(&parts(&[Part::Path(32)])), 0);
    assert_eq!(circles(&parts(&[Part::Ring(32)])), u32::MAX);
    assert_eq!(circles(&parts(&[Part::Ring(1); 32])), u32::MAX);
    let back = rows(&[(20, 10)]);
    let stretch: Vec<u32> = members(circles(&union(&order(), &back))).collect();
    assert_eq!(stretch, (10..=20).collect::<Vec<u32>>());
    assert_eq!((lowest(0), lowest(1 << 31 | 1 << 7)), (None, Some(7)));
}

#[test]
fn shapes_have_the_rows_that_they_say() {
    assert_eq!(parts(&[Part::Path(2), Part::Ring(1)]), rows(&[(0, 1), (2, 2)]));
    let chained = chain(&[Part::Path(2), Part::Ring(2), Part::Path(1)]);
    assert_eq!(chained, rows(&[(0, 1), (1, 2), (2, 3), (3, 2), (3, 4)]));
    assert_eq!(order()[29..], [1 << 30 | 1 << 31, 1 << 31, 0]);
    assert_eq!(of_four(0b1000_0000_0001_0010), rows(&[(0, 1), (1, 0), (3, 3)]));
    let mut random = Random::new(21);
    let reversed = Numbering::Reversed.of(&mut random, &rows(&[(0, 1), (31, 31)]));
    assert_eq!(reversed, rows(&[(31, 30), (0, 0)]));
}

/// The devices of the rings among parts.
fn of_rings(parts: &[Part]) -> u32 {
    let mut device = 0;
    let mut set = |part: &Part| {
        let devices = device..device + part.devices();
        device = devices.end;
        match part {
            Part::Path(_) => 0,
            Part::Ring(_) => devices.fold(0, |ring, device| ring | 1 << device),
        }
    };
    parts.iter().fold(0, |rings, part| rings | set(part))
}

#[test]
fn what_leads_back_in_a_chain_is_its_rings() {
    let mut random = Random::new(22);
    for _ in 0..2_000 {
        let list = some_parts(&mut random);
        let rings = of_rings(&list);
        assert_eq!(circles(&parts(&list)), rings, "{list:?}");
        let times = 1 + random.below(32);
        let linked = union(&chain(&list), &forward(&mut random, times));
        assert_eq!(circles(&linked), rings, "{list:?}, and {linked:?}");
        let names = random.devices(32);
        let named = members(rings).fold(0, |set, device| set | 1 << names[device as usize]);
        assert_eq!(circles(&renamed(&linked, &names)), named, "{list:?}, by {names:?}");
    }
}

/// Whether a device leads back to itself: a walk along the rows, which meets none twice.
fn comes_back(rows: &Rows, from: u32) -> bool {
    let (mut met, mut to_leave) = (Vec::new(), vec![from]);
    while let Some(here) = to_leave.pop() {
        for next in members(rows[here as usize]) {
            if !met.contains(&next) {
                met.push(next);
                to_leave.push(next);
            }
        }
    }
    met.contains(&from)
}

/// The walk finds the same.
fn walked_alike(rows: &Rows) {
    let walked: Vec<u32> = (0..32).filter(|&device| comes_back(rows, device)).collect();
    assert_eq!(members(circles(rows)).collect::<Vec<u32>>(), walked, "{rows:?}");
}

#[test]
fn all_rows_of_four_devices_are_walked_alike() {
    for square in 0..=u16::MAX {
        walked_alike(&of_four(square));
    }
}

#[test]
fn random_rows_are_walked_alike() {
    let mut random = Random::new(23);
    for round in 0..4_000 {
        walked_alike(&sparse(&mut random, 1 + round % 3));
        walked_alike(&dense(&mut random, 1 + round % 32));
    }
}
