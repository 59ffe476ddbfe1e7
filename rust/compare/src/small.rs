//! Small plans, for which every order can be tried: the proved verdict is held against the
//! paragraph "Legal orders" of document 01 by itself, without rows or circles, and every other
//! entry is called on the same plans; the quick verdict of request 4 of document 02 is held against
//! the verdict.

use crate::asked::Asked;
use crate::entries;
use crate::keeping;
use crate::plans::{any_ring, room, screen_room};
use crate::run::Run;
use second::damage::{damaged_packed, spelt};
use second::line::pack;
use second::orders;
use second::plain::SCREEN;
use second::random::{plan, wish};
use second::read::{check_packed, write};
use second::small::{how_many, small_plans};
use second::Line;

/// All plans of up to so many lines are tried.
const SMALL: usize = 5;
/// Their class.
const ALL: &str = "plan: each of up to five lines over two devices, one action code";

/// Holds the verdict on a well-formed plan against all its orders.
fn against_all_orders(run: &mut Run, family: &str, plan: &[Line]) {
    let packed = pack(plan);
    let asked = Asked::Packed { plan: &packed, room: packed.len() };
    let said = entries::verdict(run, &packed, packed.len());
    let some = orders::some_legal_order(plan).is_some();
    let name = format!("{family}: accepted exactly if some order is legal");
    run.tally.compare(&name, &asked, some, said.is_ok());
    if let Ok((held, order)) = said {
        let lines: Vec<usize> = order.iter().map(|&line| line.into()).collect();
        let wanted = orders::held_after(plan, &lines).map(u64::from);
        let name = format!("{family}: what is handed out is legal, with its devices held");
        run.tally.compare(&name, &asked, wanted, Some(held));
    }
    keeping::agrees(run, &packed);
}

/// Calls the other entries on a packed list, right or not, and on its text.
fn other_entries(run: &mut Run, packed: &[u32], text: &[u8]) {
    let lines = room(&mut run.random, packed.len());
    let bytes = room(&mut run.random, text.len());
    let _ = entries::read(run, text, lines);
    let _ = entries::write(run, packed, bytes);
    let _ = entries::table(run, packed, lines);
    let out = screen_room(&mut run.random);
    entries::screen(run, text, out);
}

/// Drawn plans of at most seven lines, each tried against all orders and then once more damaged.
pub fn random_plans(run: &mut Run) {
    for _ in 0..30_000 {
        let wish = wish(&mut run.random, 7, 4, 3);
        let plan = plan(&mut run.random, wish);
        against_all_orders(run, "random plans to 7 lines", &plan);
        other_entries(run, &pack(&plan), &write(&plan));
        let damaged = damaged_packed(&mut run.random, &pack(&plan));
        // A list that has grown past the longest plan is long, and long lists have their own run.
        if damaged.len() <= 8 {
            judge_damaged(run, &damaged);
        }
    }
}

/// A damaged list: refused by its own number and place, or a plan again and then judged as one.
fn judge_damaged(run: &mut Run, damaged: &[u32]) {
    match check_packed(damaged) {
        Ok(plan) => against_all_orders(run, "damaged plans to 8 lines", &plan),
        Err(refusal) => {
            let said = entries::verdict(run, damaged, damaged.len());
            let asked = Asked::Packed { plan: damaged, room: damaged.len() };
            let name = "damaged plans to 8 lines: number and place of the refusal";
            run.tally.compare(name, &asked, Some(refusal), said.err());
        }
    }
    other_entries(run, damaged, &spelt(damaged));
}

/// Planted rings, whole and cut. They have more than seven lines, but few enough for all orders.
pub fn rings(run: &mut Run) {
    for _ in 0..6_000 {
        let plan = any_ring(&mut run.random);
        against_all_orders(run, "rings", &plan);
        other_entries(run, &pack(&plan), &write(&plan));
    }
}

/// The class of all small plans, with how many of them there are.
pub fn all_class() -> (String, u64) {
    (ALL.to_string(), how_many(SMALL))
}

/// Every well-formed plan of up to five lines over two devices, with one action code for all.
pub fn all_plans(run: &mut Run) {
    small_plans(SMALL, &mut |plan| {
        run.tally.meet(ALL);
        against_all_orders(run, "all plans to 5 lines", plan);
        let (packed, text) = (pack(plan), write(plan));
        let _ = entries::read(run, &text, packed.len());
        let _ = entries::write(run, &packed, text.len());
        let _ = entries::table(run, &packed, packed.len());
        entries::screen(run, &text, SCREEN);
    });
}
