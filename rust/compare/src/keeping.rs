//! The plans and lists on which the entries that keep the rows are called: the plan's own and others,
//! short and long lists, stale tables, damaged plans, moves one after another, and every move of small
//! plans. The paragraph is request 4 of document 02; the calls stand in `kept.rs`.

use crate::asked::Asked;
use crate::entries::answer;
use crate::kept::{build, move_kept, quick, WithRows};
use crate::plans::{any_plan, any_ring, deep_plan, forms, long_plan, room, short_plan};
use crate::run::Run;
use gimmerskip::raw;
use second::damage::{damaged_packed, stale_table};
use second::leading::{chain, dense, forward, parts, some_parts, sparse, Numbering};
use second::line::{pack, DEVICES};
use second::plain::{self, Beside, Rows};
use second::random::{some_move, Move, Random};
use second::read::check_packed;
use second::small::small_plans;
use second::Line;

/// How many rows there are.
const ROWS: usize = DEVICES as usize;
/// Every move is tried for plans of up to so many lines.
const SMALL: usize = 4;

/// By the rows that building makes the quick verdict is the verdict.
pub fn agrees(run: &mut Run, plan: &[u32]) {
    if let Ok(beside) = build(run, plan, [plan.len(), ROWS, 1]) {
        as_verdict(run, plan, &beside.rows);
    }
}

/// By these rows, which are the plan's own, the quick verdict is the verdict.
fn as_verdict(run: &mut Run, plan: &[u32], rows: &[u32]) {
    let said = quick(run, plan, rows);
    let verdict = answer(raw::verdict(plan, &mut vec![0; plan.len()]));
    let name = "quick: by the plan's own rows it is the verdict";
    run.tally.compare(name, &Asked::Quick { plan, rows }, verdict, said);
}

/// Rows under any numbering: those of a plan, or such with another member, or any of a density, or rings
/// and paths.
fn some_rows(random: &mut Random, own: &Rows) -> Rows {
    let density = 1 + random.below(ROWS);
    let rows = match random.below(8) {
        0 => return *own,
        1 => {
            let mut rows = *own;
            rows[random.below(ROWS)] ^= 1 << random.below(ROWS);
            return rows;
        }
        2 | 3 => return dense(random, density),
        4 => return sparse(random, 1 + density % 3),
        5 => forward(random, density),
        6 => parts(&some_parts(random)),
        _ => chain(&some_parts(random)),
    };
    Numbering::Shuffled.of(random, &rows)
}

/// The list with something behind what is needed of it.
fn longer(random: &mut Random, list: &mut Vec<u32>) {
    let tail = random.below(4);
    list.extend((0..tail).map(|_| random.bits() as u32));
}

/// The same lists, with something behind what is needed of some.
fn with_tails(random: &mut Random, beside: &mut Beside) {
    for list in [&mut beside.sets, &mut beside.rows, &mut beside.held] {
        longer(random, list);
    }
}

/// A table that is not the plan's own: stale in one set about the take to be moved, wrong in one
/// anywhere, or everywhere.
fn some_table(random: &mut Random, plan: &[Line], to: Move, sets: &[u32]) -> Vec<u32> {
    let mut table = sets.to_vec();
    match random.below(8) {
        0 => table.fill_with(|| random.bits() as u32),
        1 if !table.is_empty() => table[random.below(sets.len())] ^= 1 << random.below(32),
        _ => return stale_table(random, plan, to, sets),
    }
    table
}

/// Other lists than the plan's own, of which at times one is too short.
fn others(random: &mut Random, plan: &[Line], own: &Beside, to: Move) -> Beside {
    let mut other = own.clone();
    if random.once_in(3) {
        other.sets = some_table(random, plan, to, &own.sets);
    }
    if !random.once_in(3) {
        let rows = some_rows(random, &plain::rows(plan));
        other.rows[..ROWS].copy_from_slice(&rows);
    }
    if !random.once_in(3) {
        other.held[0] = match random.below(3) {
            0 => random.bits() as u32,
            1 => own.held[0] ^ 1 << random.below(32),
            _ => random.one_of(&[0, u32::MAX]),
        };
    }
    if random.once_in(5) {
        let lists = [&mut other.sets, &mut other.rows, &mut other.held];
        for (list, needed) in lists.into_iter().zip([plan.len(), ROWS, 1]) {
            if random.once_in(2) {
                list.truncate(room(random, needed));
            }
        }
    }
    other
}

/// So many moves on one plan with its own lists. Accepted ones go on from what they left, which has to
/// be what building makes of the plan. Between them, moves of the same plan with other lists, of
/// which a second goes on from what the first has left.
fn keep_moving(run: &mut Run, plan: &[Line], moves: usize) {
    let mut kept = WithRows::own(plan);
    with_tails(&mut run.random, &mut kept.beside);
    for _ in 0..moves {
        let to = some_move(&mut run.random, &kept.plan);
        if run.random.once_in(2) {
            let lines = check_packed(&kept.plan).expect("a moved plan stays without a fault");
            let beside = others(&mut run.random, &lines, &kept.beside, to);
            let mut other = WithRows { plan: kept.plan.clone(), beside };
            let _ = move_kept(run, &mut other, to);
            let next = some_move(&mut run.random, &other.plan);
            let _ = move_kept(run, &mut other, next);
        } else if move_kept(run, &mut kept, to).is_ok() {
            is_own(run, &kept);
        }
    }
}

/// What was kept is the plan's own: building makes the same, and the quick verdict is the verdict.
fn is_own(run: &mut Run, kept: &WithRows) {
    let (plan, Beside { sets, rows, held }) = (&kept.plan, &kept.beside);
    let rooms = [sets.len(), rows.len(), held.len()];
    let asked = Asked::Build { plan, rooms };
    let built = build(run, plan, [plan.len(), ROWS, 1]);
    let front = Beside {
        sets: sets[..plan.len()].to_vec(),
        rows: rows[..ROWS].to_vec(),
        held: held[..1].to_vec(),
    };
    let name = "accepted move that keeps: its lists are those that building makes";
    run.tally.compare(name, &asked, built, Ok(front));
    as_verdict(run, plan, rows);
}

/// A move of a damaged plan, with the lists that it had when it was whole, or such as are long enough.
fn move_damaged(run: &mut Run) {
    let plan = any_plan(&mut run.random);
    let mut kept = WithRows::own(&plan);
    let to = some_move(&mut run.random, &kept.plan);
    kept.plan = damaged_packed(&mut run.random, &kept.plan);
    if run.random.once_in(2) {
        kept.beside.sets.resize(kept.plan.len(), 0);
    }
    let _ = move_kept(run, &mut kept, to);
}

/// Every line of every small plan moved to each of its two devices and to a third, with its own lists
/// and with others.
fn all_moves(run: &mut Run) {
    small_plans(SMALL, &mut |plan| {
        let own = WithRows::own(plan);
        for at in 0..3 * plan.len() as u32 {
            let to = Move { line: at / 3 + 1, device: at % 3 };
            let mut kept = own.clone();
            if move_kept(run, &mut kept, to).is_ok() {
                is_own(run, &kept);
            }
            let beside = others(&mut run.random, plan, &own.beside, to);
            let _ = move_kept(run, &mut WithRows { plan: own.plan.clone(), beside }, to);
        }
    });
}

/// All moves that keep the rows.
pub fn moves(run: &mut Run) {
    all_moves(run);
    for _ in 0..1_200 {
        let plan = short_plan(&mut run.random);
        keep_moving(run, &plan, 8);
        let plan = any_ring(&mut run.random);
        keep_moving(run, &plan, 4);
        for _ in 0..4 {
            move_damaged(run);
        }
    }
    for _ in 0..10 {
        let plan = long_plan(&mut run.random);
        keep_moving(run, &plan, 150);
        let plan = deep_plan(&mut run.random);
        keep_moving(run, &plan, 30);
    }
}

/// Lengths of lists to lend for so many lines: just what is needed, more, any, or one that is too short.
fn rooms(random: &mut Random, lines: usize) -> [usize; 3] {
    let mut needed = [lines, ROWS, 1];
    match random.below(4) {
        0 => {}
        1 => needed = needed.map(|needed| needed + random.below(3)),
        2 => needed = needed.map(|needed| room(random, needed)),
        _ => {
            let list = random.below(3);
            needed[list] = random.below(needed[list].max(1));
        }
    }
    needed
}

/// Building, and the quick verdict by rows of every sort, on plans of all sizes, right and damaged.
pub fn quick_verdicts(run: &mut Run) {
    for _ in 0..9_000 {
        let plan = any_plan(&mut run.random);
        let (packed, _) = forms(&mut run.random, &plan);
        let rooms = rooms(&mut run.random, packed.len());
        let _ = build(run, &packed, rooms);
        let mut rows = some_rows(&mut run.random, &plain::rows(&plan)).to_vec();
        longer(&mut run.random, &mut rows);
        if run.random.once_in(4) {
            rows.truncate(run.random.below(ROWS + 4));
        }
        let _ = quick(run, &packed, &rows);
    }
    for density in 1..=ROWS {
        for _ in 0..100 {
            let plan = pack(&short_plan(&mut run.random));
            let rows = dense(&mut run.random, density);
            let _ = quick(run, &plan, &rows);
            let rows = forward(&mut run.random, density);
            let shuffled = Numbering::Shuffled.of(&mut run.random, &rows);
            let _ = quick(run, &plan, &shuffled);
        }
    }
}
