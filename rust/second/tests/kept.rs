//! Request 4 of document 02: the rows and the held set beside the table, moves that keep them, and the
//! quick verdict. Rows are written as pairs of a device and its row; those that are left out are empty.

mod common;

use common::{packed, plan, refusal};
use second::leading::{parts, Part, ALL, NONE};
use second::line::pack;
use second::listed::{A, B, C, F, G, H, KEPT, NESTED};
use second::plain::{self, concerned, members, verdict, Beside};
use second::random::{plan as random_plan, some_move, wish, Move, Random};
use second::read::check_packed;
use second::{Line, Refusal};

/// A plan with what is kept beside it.
#[derive(Clone, Debug, PartialEq, Eq)]
struct Lent {
    plan: Vec<u32>,
    beside: Beside,
}

/// The plan with its own.
fn own(short: &str) -> Lent {
    Lent { plan: packed(short), beside: Beside::of(&plan(short)) }
}

impl Lent {
    /// Moves on. A refusal must leave everything alone.
    fn moved(&mut self, line: u32, device: u32) -> Result<u32, Refusal> {
        let before = self.clone();
        let Beside { sets, rows, held } = &mut self.beside;
        let answer = plain::move_kept(&mut self.plan, sets, rows, held, line, device);
        if answer.is_err() {
            assert_eq!(*self, before);
        }
        answer
    }
}

/// The rows of these pairs.
fn rows(pairs: &[(usize, u32)]) -> Vec<u32> {
    let mut rows = NONE.to_vec();
    for &(device, row) in pairs {
        rows[device] = row;
    }
    rows
}

/// Builds for a packed plan, in lists of these lengths that hold the same number everywhere.
fn built(plan: &[u32], rooms: [usize; 3]) -> (Result<usize, Refusal>, Beside) {
    let [mut sets, mut rows, mut held] = rooms.map(|room| vec![77; room]);
    let answer = plain::build(plan, &mut sets, &mut rows, &mut held);
    (answer, Beside { sets, rows, held })
}

#[test]
fn building_makes_table_rows_and_held_set() {
    let has = |short: &str, pairs: &[(usize, u32)], held: u32| {
        let lines = plan(short);
        let (answer, beside) = built(&pack(&lines), [lines.len(), 32, 1]);
        assert_eq!(answer, Ok(lines.len()));
        let wanted = Beside { sets: plain::table(&lines), rows: rows(pairs), held: vec![held] };
        assert_eq!(beside, wanted, "{short}");
        assert_eq!(beside, Beside::of(&lines), "{short}");
    };
    has(A, &[(0, 2)], 3);
    has(B, &[(0, 4)], 3);
    has(C, &[(0, 2), (1, 1)], 3);
    has(F, &[(0, 1)], 1);
    has(G, &[], 1 << 5);
    has(H, &[(0, 2), (1, 4), (2, 1)], 7);
    has(KEPT, &[], 1);
    has(NESTED, &[], 0);
    has("", &[], 0);
    has("1 take 31; 1 take 0; 1 take 31; 1 give 31; 1 give 0", &[(31, 1)], 1 << 31);
}

#[test]
fn a_row_joins_what_comes_after_all_lasting_takes_of_its_device() {
    let short = "1 start 2; 1 take 5; 1 take 1; 1 give 1; 2 take 5; 2 take 2; 2 give 2";
    assert_eq!(Beside::of(&plan(short)).rows, rows(&[(5, 6)]));
}

#[test]
fn building_leaves_what_lies_past_the_lists_it_needs() {
    let (answer, beside) = built(&packed(A), [8, 34, 3]);
    assert_eq!(answer, Ok(6));
    assert_eq!(beside.sets, [3, 2, 0, 3, 2, 0, 77, 77]);
    assert_eq!(beside.rows, [&rows(&[(0, 2)])[..], &[77, 77]].concat());
    assert_eq!(beside.held, [3, 77, 77]);
}

/// Packed lists with a fault each, by 2 to 7.
fn faulty() -> Vec<(Vec<u32>, Refusal)> {
    let line = |job: u32, kind: u32, operand: u32| job * 1_024 + kind * 256 + operand;
    vec![
        (vec![line(1, 1, 32)], refusal(2, 1)),
        (vec![line(1, 0, 0); 1_025], refusal(3, 1_025)),
        (vec![line(2, 0, 0)], refusal(4, 1)),
        (vec![line(1, 3, 2)], refusal(5, 1)),
        (vec![line(1, 0, 0), line(2, 0, 0)], refusal(6, 2)),
        (vec![line(1, 2, 0)], refusal(7, 1)),
    ]
}

#[test]
fn the_plan_is_tested_first_by_all_three() {
    for (plan, wanted) in faulty() {
        for room in [0, 1_100] {
            let lists = vec![77; room];
            assert_eq!(built(&plan, [room; 3]).0, Err(wanted));
            let beside = Beside { sets: lists.clone(), rows: lists.clone(), held: lists.clone() };
            let mut lent = Lent { plan: plan.clone(), beside };
            assert_eq!(lent.moved(0, 99), Err(wanted));
            assert_eq!(plain::quick(&plan, &lists), Err(wanted));
        }
    }
}

#[test]
fn eleven_is_for_the_table_then_the_rows_then_the_held_set() {
    let rooms = [5, 6, 7].into_iter().flat_map(|sets| {
        [0, 31, 32, 33].into_iter().flat_map(move |rows| [0, 1, 2].map(|held| [sets, rows, held]))
    });
    for room in rooms {
        let wanted = match room {
            [..6, ..] => Some(refusal(11, 6)),
            [_, ..32, _] => Some(refusal(11, 32)),
            [.., 0] => Some(refusal(11, 1)),
            _ => None,
        };
        let (answer, beside) = built(&packed(A), room);
        assert_eq!(answer.err(), wanted, "{room:?}");
        if wanted.is_some() {
            assert_eq!(beside, built(&[0], room).1, "a refusal leaves the lists");
        }
        let mut lent = own(A);
        for (list, room) in [
            (&mut lent.beside.sets, room[0]),
            (&mut lent.beside.rows, room[1]),
            (&mut lent.beside.held, room[2]),
        ] {
            list.resize(room, 77);
        }
        assert_eq!(lent.moved(5, 2).err(), wanted, "{room:?}");
    }
    // The plan without lines needs no table, and rows and held set as any other.
    assert_eq!(built(&[], [0, 31, 1]).0, Err(refusal(11, 32)));
    assert_eq!(built(&[], [0, 32, 0]).0, Err(refusal(11, 1)));
    assert_eq!(built(&[], [0, 32, 1]).0, Ok(0));
}

#[test]
fn the_further_tests_of_a_move_come_after_the_lists() {
    let mut short = own(A);
    short.beside.held.clear();
    assert_eq!(short.moved(0, 99), Err(refusal(11, 1)));
    let mut lent = own(A);
    assert_eq!(lent.moved(0, 99), Err(refusal(12, 0)));
    assert_eq!(lent.moved(1, 99), Err(refusal(12, 1)));
    assert_eq!(lent.moved(2, 99), Err(refusal(13, 99)));
    lent.beside.sets[0] ^= 1 << 20;
    assert_eq!(lent.moved(5, 2), Err(refusal(14, 1)));
    assert_eq!(lent, Lent { beside: lent.beside.clone(), ..own(A) });
}

/// The plan with its own becomes this other one with its own, and back; so many sets change each time.
fn becomes(short: &str, line: u32, device: u32, other: &str, changed: u32) {
    let mut lent = own(short);
    let old = lent.plan[line as usize - 1] % 256;
    assert_eq!(lent.moved(line, device), Ok(changed), "{short}");
    assert_eq!(lent, own(other), "{short}");
    assert_eq!(lent.moved(line, old), Ok(changed), "{other}");
    assert_eq!(lent, own(short), "{other}");
}

#[test]
fn own_rows_become_those_of_the_edited_plan() {
    becomes(A, 5, 2, B, 3);
    becomes(A, 4, 9, "1 start 2; 1 take 1; 1 do 7; 2 take 9; 2 take 1; 2 give 1", 2);
    becomes(G, 3, 6, "1 start 2; 1 take 5; 2 take 6", 2);
    // A circle opens, and closes again.
    becomes(F, 3, 8, "1 take 0; 1 start 2; 2 take 8; 2 give 8", 3);
    becomes(C, 6, 4, "1 start 2; 1 take 0; 1 take 1; 1 give 1; 2 take 1; 2 take 4; 2 give 4", 3);
}

#[test]
fn of_two_lasting_takes_one_may_be_on_the_way_and_one_not() {
    let short = "1 start 2; 1 take 5; 1 take 1; 1 give 1; 2 take 5; 2 take 2; 2 give 2";
    let inner = "1 start 2; 1 take 5; 1 take 1; 1 give 1; 2 take 5; 2 take 3; 2 give 3";
    becomes(short, 6, 3, inner, 3);
    assert_eq!(own(inner).beside.rows, rows(&[(5, 1 << 1 | 1 << 3)]));
    // One of the two goes to another device: the old one is held by the other take.
    let parted = "1 start 2; 1 take 5; 1 take 1; 1 give 1; 2 take 7; 2 take 2; 2 give 2";
    becomes(short, 5, 7, parted, 2);
    let Beside { rows: parted, held, .. } = own(parted).beside;
    assert_eq!((parted, held), (rows(&[(5, 1 << 1), (7, 1 << 2)]), vec![1 << 5 | 1 << 7]));
}

#[test]
fn takes_under_the_moved_one_come_to_last_or_cease_to() {
    let again = "1 take 0; 1 take 0; 1 take 2";
    let apart = "1 take 1; 1 take 0; 1 take 2";
    becomes(again, 1, 1, apart, 2);
    assert_eq!(own(again).beside.rows, rows(&[(0, 4)]));
    assert_eq!(own(apart).beside.rows, rows(&[(0, 4), (1, 5)]));
    assert_eq!((own(again).beside.held, own(apart).beside.held), (vec![5], vec![7]));
    becomes("1 take 0; 1 take 1; 1 take 2", 1, 1, "1 take 1; 1 take 1; 1 take 2", 2);
    // Of a device that is neither the old nor the new one only the row is another: what its job takes
    // later becomes outermost, behind a lasting take under the moved one.
    let again = "1 take 0; 1 take 2; 1 take 0; 1 give 0";
    let apart = "1 take 1; 1 take 2; 1 take 0; 1 give 0";
    becomes(again, 1, 1, apart, 3);
    assert_eq!((own(again).beside.rows[2], own(apart).beside.rows[2]), (0, 1));
    becomes(
        "1 start 2; 1 take 3; 2 take 3; 2 take 3",
        4,
        4,
        "1 start 2; 1 take 3; 2 take 3; 2 take 4",
        3,
    );
}

#[test]
fn the_devices_concerned_are_those_on_the_way_and_under_the_take() {
    let of = |short: &str, line: usize, device: u8| {
        members(concerned(&plan(short), line - 1, device)).collect::<Vec<u32>>()
    };
    assert_eq!(of(A, 5, 2), [0, 1, 2]);
    assert_eq!(of(A, 4, 9), [0, 9]);
    assert_eq!(of(A, 2, 1), [1]);
    // Jobs 1 and 3 have takes on the way; job 2 has none, and neither has job 4, behind the start.
    let short = "1 take 8; 1 start 2; 1 start 3; 1 take 9; 2 take 10; 3 take 11; 3 take 12; \
                 3 give 12; 3 start 4; 3 take 13; 4 take 14";
    assert_eq!(of(short, 7, 20), [8, 11, 12, 20]);
    assert_eq!(of(short, 6, 20), [8, 11, 13, 20]);
    assert_eq!(of(short, 11, 20), [8, 11, 14, 20]);
}

/// Rows, bit by bit other ones than those of any plan here.
fn foreign() -> Vec<u32> {
    (0..32).map(|device| 0xa5a5_0000 | 1 << device).collect()
}

#[test]
fn rows_that_are_not_concerned_stay_as_they_were_lent() {
    let mut lent = own(A);
    lent.beside.rows = foreign();
    lent.beside.rows.extend([77, 88]);
    lent.beside.held = vec![0xffff_0000, 99];
    assert_eq!(lent.moved(5, 2), Ok(3));
    let mut wanted = foreign();
    wanted[..3].copy_from_slice(&[4, 0, 0]);
    wanted.extend([77, 88]);
    assert_eq!(lent.beside.rows, wanted);
    // Of the devices 1 and 2 the plan holds the first; device 0 is left out, as it was.
    assert_eq!(lent.beside.held, [0xffff_0002, 99]);
    assert_eq!((lent.plan, lent.beside.sets), (packed(B), plain::table(&plan(B))));
}

#[test]
fn a_held_bit_goes_where_the_last_lasting_take_of_its_device_goes() {
    let mut lent = own(A);
    lent.beside.held = vec![u32::MAX];
    assert_eq!(lent.moved(4, 9), Ok(2));
    assert_eq!(lent.beside.held, [u32::MAX - 1]);
    lent.beside.held = vec![0];
    assert_eq!(lent.moved(4, 0), Ok(2));
    assert_eq!(lent.beside.held, [1]);
}

#[test]
fn a_move_to_the_present_device_makes_the_rows_concerned_anew() {
    let mut lent = own(A);
    lent.beside.rows = foreign();
    lent.beside.held = vec![0];
    assert_eq!(lent.moved(5, 1), Ok(0));
    let mut wanted = foreign();
    wanted[..2].copy_from_slice(&[2, 0]);
    assert_eq!((lent.beside.rows, lent.beside.held), (wanted, vec![2]));
    assert_eq!((lent.plan, lent.beside.sets), (packed(A), plain::table(&plan(A))));
    let mut unchanged = own(A);
    assert_eq!(unchanged.moved(5, 1), Ok(0));
    assert_eq!(unchanged, own(A));
}

#[test]
fn rows_go_by_the_table_as_it_was_lent_and_rewritten() {
    // Line 3 follows the lasting take of line 2 and no line of the way.
    let mut lent = own(A);
    lent.beside.sets[2] = 1 << 20;
    assert_eq!(lent.moved(5, 2), Ok(3));
    assert_eq!(lent.beside.sets, [7, 2, 1 << 20, 5, 4, 0]);
    assert_eq!(lent.beside.rows, rows(&[(0, 4), (1, 1 << 20)]));
    // Device 20 is stored all along: it comes into each row that is made anew.
    let mut lent = own(A);
    for set in &mut lent.beside.sets {
        *set |= 1 << 20;
    }
    assert_eq!(lent.moved(5, 2), Ok(3));
    assert_eq!(lent.beside.rows, rows(&[(0, 4 | 1 << 20), (1, 1 << 20)]));
}

#[test]
fn quick_agrees_with_the_verdict_on_own_rows() {
    for short in [A, B, C, F, G, H, KEPT, NESTED, ""] {
        let wanted = verdict(&plan(short)).map(|order| order.held);
        assert_eq!(plain::quick(&packed(short), &own(short).beside.rows), wanted, "{short}");
    }
}

#[test]
fn quick_says_ten_of_the_rows_as_they_are_lent() {
    let ring = |length: usize| parts(&[Part::Path(3), Part::Ring(length)]);
    assert_eq!(plain::quick(&packed(A), &ring(29)), Err(refusal(10, 3)));
    assert_eq!(plain::quick(&packed(""), &ring(1)), Err(refusal(10, 3)));
    assert_eq!(plain::quick(&packed(A), &ALL), Err(refusal(10, 0)));
    assert_eq!(plain::quick(&packed(F), &NONE), Ok(1));
    assert_eq!(plain::quick(&packed(H), &parts(&[Part::Path(32)])), Ok(3));
    // 9 comes from the plan, and before 10.
    assert_eq!(plain::quick(&packed(G), &ALL), Err(refusal(9, 5)));
    assert_eq!(plain::quick(&packed(G), &NONE), Err(refusal(9, 5)));
}

#[test]
fn quick_needs_32_rows_and_looks_at_no_further_ones() {
    for room in [0, 1, 31] {
        assert_eq!(plain::quick(&packed(A), &ALL[..room]), Err(refusal(11, 32)));
        assert_eq!(plain::quick(&packed(G), &ALL[..room]), Err(refusal(11, 32)));
    }
    let longer = [&NONE[..], &[u32::MAX; 9]].concat();
    assert_eq!(plain::quick(&packed(A), &longer), Ok(2));
}

/// A move, accepted or refused, leaves the plan with its own.
fn keeps_own(lent: &mut Lent, to: Move) {
    let before = check_packed(&lent.plan).expect("well-formed");
    let (mut plan, mut sets) = (lent.plan.clone(), lent.beside.sets.clone());
    let wanted = plain::move_claim(&mut plan, &mut sets, to.line, to.device);
    assert_eq!(lent.moved(to.line, to.device), wanted);
    assert_eq!((&lent.plan, &lent.beside.sets), (&plan, &sets), "as by the plain move");
    let lines: Vec<Line> = check_packed(&lent.plan).expect("well-formed");
    assert_eq!(lent.beside, Beside::of(&lines), "{before:?}, {to:?}");
    let wanted = verdict(&lines).map(|order| order.held);
    assert_eq!(plain::quick(&lent.plan, &lent.beside.rows), wanted);
}

#[test]
fn own_things_stay_own_through_any_moves() {
    let mut random = Random::new(41);
    for _ in 0..2_000 {
        let wish = wish(&mut random, 40, 7, 6);
        let plan = random_plan(&mut random, wish);
        let mut lent = Lent { plan: pack(&plan), beside: Beside::of(&plan) };
        for _ in 0..6 {
            let to = some_move(&mut random, &lent.plan);
            keeps_own(&mut lent, to);
        }
    }
}

#[test]
fn before_the_edit_or_after_it_the_same_devices_are_concerned() {
    // A lasting take that comes to be, or ceases, on the lines that may change is of the old or the new
    // device; of any other the two plans have the same.
    let mut random = Random::new(42);
    for _ in 0..4_000 {
        let wish = wish(&mut random, 30, 5, 4);
        let plan = random_plan(&mut random, wish);
        for at in (0..plan.len()).filter(|&at| plan[at].takes().is_some()) {
            let (old, new) = (plan[at].verb.operand(), random.below(5) as u8);
            let edited = plain::edited(&plan, at, new);
            assert_eq!(concerned(&plan, at, new), concerned(&edited, at, old));
        }
    }
}
