//! What is kept beside a plan: built, moved and looked at by the quick verdict, the plan's own or not (02, request 4).

#![cfg(feature = "std")]

mod common;

use common::plan;
use gimmerskip::{entries, Plan, Refusal, Tabled, MAX_LINES, ROWS};
use second::line::Line;
use second::listed::{packed, A, B, G, H};
use second::plain;
use second::random::{self, some_move, wish, Cut, Random};

/// Plans of each kind: with an order and without, none at all, and one that takes again what it holds.
const PLANS: [&str; 6] = [A, B, G, H, "", "1 take 31; 1 take 3; 1 take 31; 1 give 31; 1 give 3"];

/// What is kept beside a plan, in lists with an entry more than they need.
#[derive(Clone, Debug, PartialEq, Eq)]
struct Beside {
    sets: Vec<u32>,
    rows: Vec<u32>,
    held: Vec<u32>,
}

impl Beside {
    /// Lists with room for a plan of so many lines, that hold nothing of it yet.
    fn empty(lines: usize) -> Beside {
        Beside { sets: vec![9; lines + 1], rows: vec![9; ROWS + 1], held: vec![9; 2] }
    }

    /// The plan's own.
    fn built(plan: &[u32]) -> Beside {
        let mut beside = Beside::empty(plan.len());
        let Beside { sets, rows, held } = &mut beside;
        assert_eq!(entries::build(plan, sets, rows, held), Ok(plan.len()));
        beside
    }

    fn move_kept(&mut self, plan: &mut [u32], line: u32, device: u32) -> Result<usize, Refusal> {
        entries::move_kept(plan, &mut self.sets, &mut self.rows, &mut self.held, line, device)
    }
}

/// A random plan: of any kind, with a ring, or taking again what its jobs hold.
fn some_plan(random: &mut Random) -> Vec<Line> {
    let wish = wish(random, 40, 6, 6);
    let cut = random.one_of(&[Cut::Whole, Cut::LeftOut, Cut::GivenBack]);
    match random.below(3) {
        0 => random::plan(random, wish),
        1 => {
            let length = 1 + random.below(5);
            random::ring(random, length, cut)
        }
        _ => {
            let lines = random::plan(random, wish);
            random::take_again(random, &lines)
        }
    }
}

/// The devices that a move concerns, by the second program.
fn concerned(plan: &[Line], line: u32, device: u32) -> u32 {
    let at = line as usize - 1;
    let old = plan[at].takes().expect("the move is accepted");
    let lasting = plain::lasting(plan);
    let lines = plain::way(plan, at).into_iter().chain(plain::under(plan, at));
    lines.filter_map(|at| lasting[at]).fold(1 << old | 1 << device, |set, device| set | 1 << device)
}

#[test]
fn building_makes_the_table_the_rows_and_the_held_set() {
    for short in PLANS {
        let (plan, beside) = (plan(short), Beside::built(&packed(short)));
        let holds = plan.holds();
        assert_eq!(beside.sets, [&plan.table()[..], &[9]].concat(), "{short}");
        assert_eq!(beside.rows, [&holds.rows()[..], &[9]].concat(), "{short}");
        let is_held = |device: &u8| !holds.lasting_takes(*device).is_empty();
        let held = (0..32).filter(is_held).fold(0, |set, device| set | 1_u32 << device);
        assert_eq!(beside.held, [held, 9], "{short}");
    }
    assert_eq!(entries::build(&[], &mut [], &mut [9; ROWS], &mut [9]), Ok(0));
    let a = Beside::built(&packed(A));
    assert_eq!((a.rows[0], a.rows[1], a.held[0]), (2, 0, 3), "worked out by hand");
}

/// What is refused leaves all lists as they were.
fn refused(plan: &[u32], lens: [usize; 3], asked: (u32, u32), refusal: Refusal) {
    let mut lists = lens.map(|length| vec![9; length]);
    let before = (plan.to_vec(), lists.clone());
    let [sets, rows, held] = &mut lists;
    let mut moved = plan.to_vec();
    let answer = entries::move_kept(&mut moved, sets, rows, held, asked.0, asked.1);
    assert_eq!(answer, Err(refusal), "{lens:?}");
    assert_eq!(entries::build(plan, sets, rows, held).err(), Some(refusal), "{lens:?}");
    assert_eq!((moved, lists), before, "{lens:?}");
}

#[test]
fn short_lists_are_told_in_their_order() {
    let (a, short) = (packed(A), Refusal::ListTooShort);
    // A line that is no take and a device that is none: 11 is told before.
    let nowhere = (99, 99);
    refused(&a, [5, 31, 0], nowhere, short(6));
    refused(&a, [0, 32, 1], nowhere, short(6));
    refused(&a, [6, 31, 0], nowhere, short(32));
    refused(&a, [7, 0, 1], nowhere, short(32));
    refused(&a, [6, 32, 0], nowhere, short(1));
    refused(&a, [9, 40, 0], nowhere, short(1));
    refused(&[], [0, 31, 0], nowhere, short(32));
    refused(&packed("1 take 3; 1 give 4"), [0, 0, 0], nowhere, Refusal::GiveWithoutTake(2));
    refused(&[1_024; MAX_LINES + 1], [0, 0, 0], nowhere, Refusal::TooManyLines);
    assert_eq!(entries::quick(&a, &[0; 31]), Err(short(32)));
    assert_eq!(entries::quick(&packed(G), &[]), Err(short(32)), "11 comes before 9");
    let fault = entries::quick(&packed("1 take 3; 1 give 4"), &[]);
    assert_eq!(fault, Err(Refusal::GiveWithoutTake(2)), "and the plan's faults before that");
}

#[test]
fn twelve_to_fourteen_change_nothing() {
    let before = Beside::built(&packed(A));
    let refused = |beside: &Beside, line, device, refusal| {
        let (mut plan, mut after) = (packed(A), beside.clone());
        assert_eq!(after.move_kept(&mut plan, line, device), Err(refusal));
        assert_eq!((plan, &after), (packed(A), beside));
    };
    refused(&before, 0, 99, Refusal::NotATake(0));
    refused(&before, 6, 2, Refusal::NotATake(6));
    refused(&before, 5, 32, Refusal::NoSuchDevice(32));
    let stale = Beside { sets: vec![3, 2, 0, 2, 2, 0, 9], ..before };
    refused(&stale, 5, 2, Refusal::StaleTable(4));
}

#[test]
fn a_move_by_hand() {
    let (mut plan, mut beside) = (packed(A), Beside::built(&packed(A)));
    assert_eq!(beside.move_kept(&mut plan, 5, 2), Ok(3));
    assert_eq!((&plan, &beside), (&packed(B), &Beside::built(&packed(B))));
    assert_eq!((beside.rows[0], beside.rows[1], beside.held[0]), (4, 0, 3));
    // Line 2 goes from device 1 to device 7, and with it what is held to the end.
    assert_eq!(beside.move_kept(&mut plan, 2, 7), Ok(2));
    assert_eq!((beside.held[0], entries::quick(&plan, &beside.rows)), (1 << 7 | 1, Ok(2)));
    // To device 0, which job 2 keeps: 9. There is no bar, and no row is lost.
    assert_eq!(beside.move_kept(&mut plan, 2, 0), Ok(2));
    assert_eq!(entries::quick(&plan, &beside.rows), Err(Refusal::TwoLasting(0)));
    assert_eq!((beside.held[0], beside.rows[0]), (1, 4));
}

#[test]
fn after_any_moves_all_is_as_built_anew() {
    let mut random = Random::new(404);
    let (mut done, mut refused, mut numbers) = (0, 0, [0; 3]);
    for _ in 0..400 {
        let mut plan = second::line::pack(&some_plan(&mut random));
        let mut beside = Beside::built(&plan);
        let (mut plain_plan, mut table) = (plan.clone(), beside.sets.clone());
        for _ in 0..12 {
            let asked = some_move(&mut random, &plan);
            let said = beside.move_kept(&mut plan, asked.line, asked.device);
            let wanted = entries::move_claim(&mut plain_plan, &mut table, asked.line, asked.device);
            assert_eq!((said, &plan, &beside.sets), (wanted, &plain_plan, &table));
            assert_eq!(beside, Beside::built(&plan), "{plan:?} after {asked:?}");
            let quick = entries::quick(&plan, &beside.rows);
            assert_eq!(quick, entries::verdict(&plan, &mut [0; MAX_LINES]), "{plan:?}");
            done += usize::from(said.is_ok());
            refused += usize::from(said.is_err());
            numbers[quick.map_or_else(|refusal| refusal.number() as usize - 8, |_| 0)] += 1;
        }
    }
    assert!(done > 2_000 && refused > 200, "{done} {refused}");
    assert!(numbers.iter().all(|&times| times > 200), "{numbers:?}");
}

#[test]
fn of_rows_that_are_anothers_few_are_written() {
    let mut random = Random::new(405);
    let (mut done, mut stayed) = (0, 0);
    while done < 2_000 {
        let lines = some_plan(&mut random);
        let mut plan = second::line::pack(&lines);
        let asked = some_move(&mut random, &plan);
        let mut beside = Beside::built(&plan);
        beside.rows.fill_with(|| random.bits() as u32);
        beside.held.fill_with(|| random.bits() as u32);
        let lent = beside.clone();
        if beside.move_kept(&mut plan, asked.line, asked.device).is_err() {
            assert_eq!(beside, lent);
            continue;
        }
        let own = Beside::built(&plan);
        assert_eq!(beside.sets, own.sets);
        let set = concerned(&lines, asked.line, asked.device);
        for device in 0..ROWS {
            let from = if set >> device & 1 == 1 { &own } else { &lent };
            assert_eq!(beside.rows[device], from.rows[device], "{device} by {asked:?}: {plan:?}");
        }
        let old = lines[asked.line as usize - 1].takes().expect("it was moved");
        let both = 1 << old | 1 << asked.device;
        assert_eq!(beside.held[0], lent.held[0] & !both | own.held[0] & both);
        assert_eq!((beside.rows[ROWS], beside.held[1]), (lent.rows[ROWS], lent.held[1]));
        done += 1;
        stayed += usize::from(plan == second::line::pack(&lines));
    }
    assert!(stayed > 50, "moves to the present device are among them: {stayed}");
}

#[test]
fn rows_go_by_the_table_as_it_is_lent() {
    // Two lasting takes of device 0; what is stored for line 5 is another's, and no move of line 2 looks at it.
    let mut plan = packed("1 start 2; 1 take 0; 1 do 7; 2 take 0; 2 do 8");
    let mut beside = Beside::built(&plan);
    beside.sets[4] = 1 << 9;
    assert_eq!(beside.move_kept(&mut plan, 2, 1), Ok(2));
    assert_eq!((beside.rows[0], beside.rows[1], beside.held[0]), (1 << 9, 0, 3));
}

#[test]
fn the_quick_verdict_goes_by_the_rows_as_they_are_lent() {
    let (a, mut rows) = (packed(A), [0; ROWS + 1]);
    assert_eq!(entries::quick(&a, &rows), Ok(2), "it counts by the plan");
    rows[ROWS] = u32::MAX;
    assert_eq!(entries::quick(&a, &rows), Ok(2), "only so many rows are looked at");
    rows[31] = 1 << 7;
    rows[7] = 1 << 31;
    assert_eq!(entries::quick(&a, &rows), Err(Refusal::LeadsBack(7)));
    rows[3] = u32::MAX;
    assert_eq!(entries::quick(&a, &rows), Err(Refusal::LeadsBack(3)));
    assert_eq!(entries::quick(&packed(G), &rows), Err(Refusal::TwoLasting(5)), "9 is the plan's");
    assert_eq!(entries::quick(&packed(H), &[0; ROWS]), Ok(3), "10 is not");
    assert_eq!(entries::quick(&[], &[0; ROWS]), Ok(0));
    let mut random = Random::new(406);
    for _ in 0..2_000 {
        let mut rows = [0; ROWS];
        rows.fill_with(|| 1_u32 << random.below(32) & random.bits() as u32);
        let circles = plain::circles(&rows);
        let wanted = match circles {
            0 => Ok(2),
            _ => Err(Refusal::LeadsBack(circles.trailing_zeros())),
        };
        assert_eq!(entries::quick(&a, &rows), wanted, "{rows:?}");
    }
}

#[test]
fn tabled_keeps_all_of_it() {
    let mut random = Random::new(407);
    for _ in 0..200 {
        let packed = second::line::pack(&some_plan(&mut random));
        let mut tabled = Tabled::new(Plan::from_packed(packed).expect("it has no fault"));
        for _ in 0..8 {
            let asked = some_move(&mut random, tabled.plan().packed());
            let before = tabled.clone();
            if tabled.move_claim(asked.line, asked.device).is_err() {
                assert_eq!(tabled, before);
            }
            assert_eq!(tabled, Tabled::new(tabled.plan().clone()));
            assert_eq!(tabled.rows(), tabled.plan().holds().rows());
            assert_eq!(tabled.quick(), tabled.verdict().map(|order| order.held));
            assert_eq!(tabled.quick(), tabled.plan().quick(tabled.rows()));
            let held = tabled.held().count_ones() as usize;
            assert!(tabled.quick().map_or(true, |count| count == held));
        }
    }
}
