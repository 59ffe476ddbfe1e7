//! The plans of "Plans with their verdicts" of document 01, starred and not, and those listed for
//! request 2 of document 02, through every entry and the programs, with the answers that stand
//! there; and their orders through the judge, who by request 1 of document 02 lets them pass. The
//! second program is held against the same calls, as on any other plan.

use crate::asked::Asked;
use crate::entries::{self, Filled};
use crate::judging::judge;
use crate::keeping;
use crate::moves::{moved, Kept};
use crate::processes;
use crate::program::Program;
use crate::run::{Answer, Run};
use second::listed::{all, packed, text, Listed, ListedMove, MOVES, TABLES};
use second::plain::{Order, SCREEN};
use second::random::Move;
use second::Refusal;

/// What an entry that does not look for an order has to say, if this is what it hands out.
fn unless_faulty<T>(listed: &Listed, count: usize, list: Vec<T>) -> Filled<T> {
    match listed.verdict {
        Err(refusal) if refusal.number < 9 => Err(refusal),
        _ => Ok((count as u64, list)),
    }
}

/// What the program prints.
fn printed(listed: &Listed) -> Vec<u8> {
    let print = match &listed.verdict {
        Err(refusal) => format!("refused\t{}\t{}\n", refusal.number, refusal.place),
        Ok(Order { lines, held }) => {
            let numbers: String = lines.iter().map(|line| format!("{line}\n")).collect();
            format!("order\t{}\t{held}\n{numbers}", lines.len())
        }
    };
    print.into_bytes()
}

/// One plan through the entries that fill lists.
fn through_entries(run: &mut Run, listed: &Listed) {
    let (text, packed) = (text(&listed.plan), packed(&listed.plan));
    let (lines, name) = (packed.len(), format!("listed, {}", listed.name));
    let asked = Asked::Packed { plan: &packed, room: lines };
    let said = entries::read(run, &text, lines);
    let wanted = unless_faulty(listed, lines, packed.clone());
    run.tally.compare(&format!("{name}: read"), &asked, wanted, said);
    let said = entries::write(run, &packed, text.len());
    let wanted = unless_faulty(listed, text.len(), text.clone());
    run.tally.compare(&format!("{name}: write"), &asked, wanted, said);
    // The sets themselves are listed for a few plans alone; the second program has them for all.
    let said = entries::table(run, &packed, lines).map(|(count, _)| (count, ()));
    let wanted = unless_faulty(listed, lines, Vec::<u32>::new()).map(|(count, _)| (count, ()));
    run.tally.compare(&format!("{name}: table"), &asked, wanted, said);
    let said = entries::verdict(run, &packed, lines);
    let wanted = listed.verdict.clone().map(|order| (u64::from(order.held), order.lines));
    run.tally.compare(&format!("{name}: verdict"), &asked, wanted, said);
    let said = entries::screen(run, &text, SCREEN);
    run.tally.compare(&format!("{name}: screen"), &asked, printed(listed), said);
    keeping::agrees(run, &packed);
}

/// Each take of the plan, or some of very many, moved to the device that it has: nothing changes. A
/// plan without takes is asked for its first line.
fn through_move(run: &mut Run, listed: &Listed) {
    let plan = packed(&listed.plan);
    let lines = plan.len();
    let name = format!("listed, {}: move", listed.name);
    let asked = Asked::Packed { plan: &plan, room: lines };
    let sets = entries::table(run, &plan, lines).map_or(vec![0; lines], |(_, sets)| sets);
    let mut kept = Kept { plan: plan.clone(), sets };
    let takes: Vec<usize> = (0..lines).filter(|&at| plan[at] / 256 % 4 == 1).collect();
    for &at in takes.iter().step_by(1 + takes.len() / 32) {
        let to = Move { line: at as u32 + 1, device: plan[at] % 256 };
        let wanted = unless_faulty::<u32>(listed, 0, Vec::new()).map(|(count, _)| count);
        let said = moved(run, &mut kept, to);
        run.tally.compare(&name, &asked, wanted, said);
    }
    if takes.is_empty() {
        let no_take = Err(Refusal { number: 12, place: 1 });
        let faulty = unless_faulty::<u32>(listed, 0, Vec::new());
        let said = moved(run, &mut kept, Move { line: 1, device: 0 });
        run.tally.compare(&name, &asked, faulty.and(no_take), said);
    }
}

/// The tables that are listed.
fn tables(run: &mut Run) {
    for (short, sets) in TABLES {
        let plan = packed(short);
        let asked = Asked::Packed { plan: &plan, room: plan.len() };
        let said = entries::table(run, &plan, plan.len());
        let wanted = Ok((plan.len() as u64, sets.to_vec()));
        run.tally.compare("listed: the sets of the table", &asked, wanted, said);
    }
}

/// A move that is listed, there and back.
fn there_and_back(run: &mut Run, listed: &ListedMove) {
    let ListedMove { plans, line, devices, changed } = *listed;
    let [then, now] = plans.map(|(short, sets)| Kept { plan: packed(short), sets: sets.to_vec() });
    let mut kept = then.clone();
    for (device, wanted) in [(devices[1], now), (devices[0], then)] {
        let before = kept.clone();
        let said = moved(run, &mut kept, Move { line, device });
        let asked = Asked::Move { plan: &before.plan, sets: &before.sets, line, device };
        let wanted = (Ok(changed.into()), wanted.plan, wanted.sets);
        let name = "listed: moved there and back, with table and count";
        run.tally.compare(name, &asked, wanted, (said, kept.plan.clone(), kept.sets.clone()));
    }
}

/// The listed order with what the judge has to say of it. A plan without one gets an empty list.
fn judgement(listed: &Listed) -> (Vec<u16>, Answer) {
    match &listed.verdict {
        Ok(order) => (order.lines.clone(), Ok(0)),
        Err(refusal) if refusal.number < 9 => (Vec::new(), Err(*refusal)),
        Err(_) => (Vec::new(), Err(Refusal { number: 15, place: 1 })),
    }
}

/// The listed order through the judge.
fn through_judge(run: &mut Run, listed: &Listed) {
    let (plan, (order, wanted)) = (packed(&listed.plan), judgement(listed));
    let said = judge(run, &plan, &order);
    let asked = Asked::Order { plan: &plan, order: &order };
    run.tally.compare(&format!("listed, {}: judge", listed.name), &asked, wanted, said);
}

/// The listed order, in a text behind its plan, through the program that judges.
fn through_judge_program(run: &mut Run, listed: &Listed, program: &Program) {
    let (order, wanted) = judgement(listed);
    let entries: String = order.iter().map(|line| format!("{line}\n")).collect();
    let text = [&text(&listed.plan)[..], b"--\n", entries.as_bytes()].concat();
    let wanted = match wanted {
        Ok(_) => "legal\n".to_string(),
        Err(refusal) => format!("refused\t{}\t{}\n", refusal.number, refusal.place),
    };
    let out = processes::print(run, program, &text, vec![text.clone()]);
    let asked = Asked::Fed { text: &text, pieces: 1 };
    let name = format!("listed, {}: {}", listed.name, program.name);
    run.tally.compare(&name, &asked, wanted.into_bytes(), out);
}

/// The listed plan through the program that orders.
fn through_order_program(run: &mut Run, listed: &Listed, program: &Program) {
    let text = text(&listed.plan);
    let out = processes::print(run, program, &text, vec![text.clone()]);
    let asked = Asked::Fed { text: &text, pieces: 1 };
    let name = format!("listed, {}: {}", listed.name, program.name);
    run.tally.compare(&name, &asked, printed(listed), out);
}

/// All listed plans, through everything. A program is left out where it is missing.
pub fn listed(run: &mut Run, order: Option<&Program>, judge: Option<&Program>) {
    for listed in &all() {
        through_entries(run, listed);
        through_move(run, listed);
        through_judge(run, listed);
        if let Some(program) = order {
            through_order_program(run, listed, program);
        }
        if let Some(program) = judge {
            through_judge_program(run, listed, program);
        }
    }
    tables(run);
    for listed in &MOVES {
        there_and_back(run, listed);
    }
}
