//! Moves of claims on plans and tables that are kept from call to call, with stale tables and
//! damaged plans among them, and every move of small plans. The paragraphs are "Moving a claim" of
//! document 01 and request 2 of document 02.

use crate::asked::Asked;
use crate::entries::{self, answer};
use crate::lent::Lent;
use crate::plans::{any_plan, any_ring, deep_plan, long_plan, short_plan};
use crate::run::{Answer, Run};
use gimmerskip::raw;
use second::damage::{damaged_packed, stale_table};
use second::line::pack;
use second::plain::{self, edited, table};
use second::random::{some_move, Move, Random};
use second::read::check_packed;
use second::small::small_plans;
use second::{shapes, Line};

/// Every move is tried for plans of up to so many lines.
const SMALL: usize = 4;

/// A plan with its table, lent together.
#[derive(Clone)]
pub struct Kept {
    pub plan: Vec<u32>,
    pub sets: Vec<u32>,
}

/// Compares one move. Plan and table go on as the proved entry left them.
pub fn moved(run: &mut Run, kept: &mut Kept, asked_move: Move) -> Answer {
    let before = kept.clone();
    let Move { line, device } = asked_move;
    let asked = Asked::Move { plan: &before.plan, sets: &before.sets, line, device };
    let mut plan = Lent::holding(&mut run.random, &kept.plan);
    let mut sets = Lent::holding(&mut run.random, &kept.sets);
    let (plan_before, sets_before) = (plan.clone(), sets.clone());
    let said = answer(raw::move_claim(plan.list_mut(), sets.list_mut(), line, device));
    let mut second = before.clone();
    let wanted = plain::move_claim(&mut second.plan, &mut second.sets, line, device).map(u64::from);
    sort(run, &before, asked_move, wanted);
    let tally = &mut run.tally;
    tally.compare("move: the answer", &asked, wanted, said);
    let name = "move: what stands around plan and table stays";
    let stray = (plan.stray(&plan_before), sets.stray(&sets_before));
    tally.compare(name, &asked, (None, None), stray);
    tally.compare("move: the plan", &asked, &second.plan[..], plan.list());
    let name = "move: the table, and past the lines what it held";
    tally.compare(name, &asked, &second.sets[..], sets.list());
    if said.is_err() {
        let name = "move: a refusal leaves plan and table";
        let lists = (plan_before.list(), sets_before.list());
        tally.compare(name, &asked, lists, (plan.list(), sets.list()));
    }
    *kept = Kept { plan: plan.list().to_vec(), sets: sets.list().to_vec() };
    if let Ok(count) = said {
        accepted(run, &before, kept, asked_move, count);
    }
    said
}

/// Counts a move in its classes.
fn sort(run: &mut Run, before: &Kept, asked_move: Move, wanted: Answer) {
    run.meet("move", &wanted);
    if let Ok(plan) = check_packed(&before.plan) {
        for shape in shapes::of_move(&plan, &before.sets, asked_move, wanted) {
            run.tally.meet(&format!("move: {shape}"));
        }
    }
}

/// What an accepted move has to leave: the count is that of the sets that differ, and where the
/// table was right, everything is that of the edited plan worked out afresh.
fn accepted(run: &mut Run, before: &Kept, after: &Kept, asked_move: Move, count: u64) {
    let Move { line, device } = asked_move;
    let asked = Asked::Move { plan: &before.plan, sets: &before.sets, line, device };
    let differ = before.sets.iter().zip(&after.sets).filter(|(old, new)| old != new).count();
    run.tally.compare("accepted move: the count of sets that differ", &asked, differ as u64, count);
    let Ok(lines) = check_packed(&before.plan) else {
        return;
    };
    let (at, device) = (line as usize - 1, device as u8);
    let fresh = edited(&lines, at, device);
    let name = "accepted move: the plan is the edited one";
    run.tally.compare(name, &asked, pack(&fresh), after.plan.clone());
    let verdict = entries::verdict(run, &after.plan, after.plan.len());
    let wanted = plain::verdict(&fresh).map(|order| (u64::from(order.held), order.lines));
    let name = "accepted move: the verdict is that of the edited plan";
    run.tally.compare(name, &asked, wanted, verdict);
    if before.sets.starts_with(&table(&lines)) {
        let sets = &after.sets[..after.plan.len()];
        let name = "accepted move: the table is that of the edited plan";
        run.tally.compare(name, &asked, &table(&fresh)[..], sets);
        let by_entry = entries::table(run, &after.plan, after.plan.len());
        let name = "accepted move: the entry for tables gives that table too";
        run.tally.compare(name, &asked, Ok(sets.to_vec()), by_entry.map(|(_, sets)| sets));
    }
}

/// A table that is not that of the plan: an older one, one with a wrong set or two, one that is stale
/// in a single set about the take to be moved, too short, or anything.
fn spoilt(random: &mut Random, kept: &Kept, older: &[u32], to: Move) -> Vec<u32> {
    let mut spoilt = kept.sets.clone();
    match random.below(12) {
        0 => return older.to_vec(),
        1 | 2 => spoilt.truncate(random.below(spoilt.len() + 1)),
        3 => spoilt.fill_with(|| random.bits() as u32),
        4..=6 => {
            for _ in 0..1 + random.below(2) {
                if !spoilt.is_empty() {
                    let place = random.below(spoilt.len());
                    spoilt[place] ^= 1 << random.below(32);
                }
            }
        }
        _ => {
            let plan = check_packed(&kept.plan).expect("a moved plan stays without a fault");
            return stale_table(random, &plan, to, &spoilt);
        }
    }
    spoilt
}

/// So many moves on one plan and its table. Accepted ones go on from what they left; a table that
/// was spoilt is put back afterwards.
fn keep_moving(run: &mut Run, plan: &[Line], moves: usize) {
    let mut sets = table(plan);
    let tail = run.random.below(3);
    sets.extend((0..tail).map(|_| run.random.bits() as u32));
    let mut older = sets.clone();
    let mut kept = Kept { plan: pack(plan), sets };
    for _ in 0..moves {
        let asked = some_move(&mut run.random, &kept.plan);
        let sets = kept.sets.clone();
        if run.random.once_in(3) {
            let spoilt = spoilt(&mut run.random, &kept, &older, asked);
            let mut stale = Kept { plan: kept.plan.clone(), sets: spoilt };
            let _ = moved(run, &mut stale, asked);
        } else if moved(run, &mut kept, asked).is_ok() && kept.sets != sets {
            older = sets;
        }
    }
}

/// A move of a damaged plan, with the table it had when it was whole, or one long enough.
fn move_damaged(run: &mut Run) {
    let plan = any_plan(&mut run.random);
    let asked = some_move(&mut run.random, &pack(&plan));
    let damaged = damaged_packed(&mut run.random, &pack(&plan));
    let mut sets = table(&plan);
    if run.random.once_in(2) {
        sets.resize(damaged.len(), 0);
    }
    let _ = moved(run, &mut Kept { plan: damaged, sets }, asked);
}

/// Every line of every small plan moved to each of its two devices and to a third, with its own
/// table and with each in which one of these devices stands wrongly in one set.
fn all_moves(run: &mut Run) {
    small_plans(SMALL, &mut |plan| {
        let own = Kept { plan: pack(plan), sets: table(plan) };
        for at in 0..3 * plan.len() as u32 {
            let to = Move { line: at / 3 + 1, device: at % 3 };
            let _ = moved(run, &mut own.clone(), to);
            for wrong in 0..3 * plan.len() {
                let mut stale = own.clone();
                stale.sets[wrong / 3] ^= 1 << (wrong % 3);
                let _ = moved(run, &mut stale, to);
            }
        }
    });
}

/// All moves.
pub fn moves(run: &mut Run) {
    all_moves(run);
    for _ in 0..2_500 {
        let plan = short_plan(&mut run.random);
        keep_moving(run, &plan, 8);
        let plan = any_ring(&mut run.random);
        keep_moving(run, &plan, 4);
        for _ in 0..4 {
            move_damaged(run);
        }
    }
    for _ in 0..30 {
        let plan = long_plan(&mut run.random);
        keep_moving(run, &plan, 900);
        let plan = deep_plan(&mut run.random);
        keep_moving(run, &plan, 100);
    }
}
