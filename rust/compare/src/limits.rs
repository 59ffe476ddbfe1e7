//! Plans up to the limits, right and damaged, with lists of every length lent for them, and the
//! round trips through reading and writing; and plans that differ in what has no effect. The
//! paragraphs are "The plan as text" and "Refusal numbers" of document 01, and request 2 of document
//! 02.

use crate::asked::Asked;
use crate::entries;
use crate::plans::{any_plan, forms, room, screen_room};
use crate::run::Run;
use second::line::pack;
use second::read::check_packed;
use second::shapes;

/// Every entry but the move on plans of all sizes.
pub fn plans(run: &mut Run) {
    for _ in 0..40_000 {
        let plan = any_plan(&mut run.random);
        let (packed, text) = forms(&mut run.random, &plan);
        let lines = text.iter().filter(|&&byte| byte == b'\n').count();
        let for_read = room(&mut run.random, lines);
        let _ = entries::read(run, &text, for_read);
        let for_write = room(&mut run.random, text.len());
        let _ = entries::write(run, &packed, for_write);
        let for_table = room(&mut run.random, packed.len());
        let _ = entries::table(run, &packed, for_table);
        let for_verdict = room(&mut run.random, packed.len());
        let _ = entries::verdict(run, &packed, for_verdict);
        let for_screen = screen_room(&mut run.random);
        entries::screen(run, &text, for_screen);
        if run.random.once_in(3) {
            there_and_back(run, &packed, &text);
        }
        if run.random.once_in(3) {
            other_codes(run, &packed);
        }
        if run.random.once_in(3) {
            as_actions(run, &packed);
        }
    }
}

/// The code of an action touches no device.
fn other_codes(run: &mut Run, packed: &[u32]) {
    let mut recoded = packed.to_vec();
    for line in recoded.iter_mut().filter(|line| **line / 256 % 4 == 0) {
        *line = *line / 256 * 256 + run.random.below(256) as u32;
    }
    alike(run, "other codes", packed, &recoded);
}

/// To take again, and to give back what was taken so, has no more effect than an action.
fn as_actions(run: &mut Run, packed: &[u32]) {
    if let Some(plan) = check_packed(packed).ok().filter(|plan| shapes::takes_again(plan)) {
        alike(run, "actions for what takes again", packed, &pack(&shapes::as_actions(&plan)));
    }
}

/// The two plans have the same table and the same verdict.
fn alike(run: &mut Run, what: &str, plan: &[u32], other: &[u32]) {
    let asked = Asked::Packed { plan, room: plan.len() };
    let table = entries::table(run, plan, plan.len());
    let table_then = entries::table(run, other, plan.len());
    run.tally.compare(&format!("{what}: the same table"), &asked, table, table_then);
    let verdict = entries::verdict(run, plan, plan.len());
    let verdict_then = entries::verdict(run, other, plan.len());
    run.tally.compare(&format!("{what}: the same verdict"), &asked, verdict, verdict_then);
}

/// What was read is written as the same bytes; what was written is read as the same numbers.
fn there_and_back(run: &mut Run, packed: &[u32], text: &[u8]) {
    let lines = text.iter().filter(|&&byte| byte == b'\n').count();
    if let Ok((_, numbers)) = entries::read(run, text, lines) {
        let back = entries::write(run, &numbers, text.len()).map(|(_, bytes)| bytes);
        let name = "round trip: what was read is written as the same bytes";
        let asked = Asked::Text { text, room: lines };
        run.tally.compare(name, &asked, Ok(text.to_vec()), back);
    }
    // Twelve bytes a line are enough for every plan; the number tells how many there are.
    if let Ok((count, mut bytes)) = entries::write(run, packed, packed.len() * 12) {
        bytes.truncate(count as usize);
        let back = entries::read(run, &bytes, packed.len()).map(|(_, numbers)| numbers);
        let name = "round trip: what was written is read as the same numbers";
        let asked = Asked::Packed { plan: packed, room: packed.len() * 12 };
        run.tally.compare(name, &asked, Ok(packed.to_vec()), back);
    }
}
