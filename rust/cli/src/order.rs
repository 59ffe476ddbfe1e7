//! `gimmerskip order`: what the program prints, or the steps as a table.

use crate::desk::Desk;
use crate::diagnosis;
use crate::input::Text;
use crate::judged;
use crate::names::Names;
use crate::steps::Column;
use crate::trouble::Trouble;
use crate::words::{counted, held, listed};
use gimmerskip::{entries, Order, Plan, Step, SCREEN_ROOM};
use std::ffi::OsString;

/// Orders one file after the other. A file that cannot be read does not keep the others from being ordered.
pub fn run(desk: &mut Desk, files: &[OsString], steps: bool) -> Result<(), Trouble> {
    for file in files {
        match desk.input.plan(file) {
            Ok(text) if steps => put_steps(desk, &text)?,
            Ok(text) => put_print(desk, &text)?,
            Err(trouble) => desk.say_trouble(&trouble),
        }
    }
    Ok(())
}

/// Prints what the program prints.
fn put_print(desk: &mut Desk, text: &Text) -> Result<(), Trouble> {
    desk.out.put(&printed(&text.bytes))?;
    say_if_refused(desk, text);
    Ok(())
}

/// What the program prints for a text.
pub fn printed(text: &[u8]) -> Vec<u8> {
    let mut room = vec![0; SCREEN_ROOM];
    // With so much room nothing is refused.
    let count = entries::order(text, &mut room).unwrap_or(0);
    room.truncate(count);
    room
}

/// Says the words of a refusal, if there is one.
fn say_if_refused(desk: &mut Desk, text: &Text) -> Option<(Plan, Order)> {
    match judged(&text.bytes) {
        Ok(judged) => Some(judged),
        Err(refusal) => {
            let refused = diagnosis::of_text(text, refusal, &desk.names);
            desk.say_refusal(&text.name, &refused);
            None
        }
    }
}

/// Prints the steps in their order.
fn put_steps(desk: &mut Desk, text: &Text) -> Result<(), Trouble> {
    let Some((plan, order)) = say_if_refused(desk, text) else { return Ok(()) };
    let table = table(&text.name, &plan, &order, &desk.names);
    desk.out.put(table.as_bytes())
}

/// The order as a table, with what stays held under it.
fn table(name: &str, plan: &Plan, order: &Order, names: &Names) -> String {
    let (lines, stay) = (counted(plan.len(), "line"), held(order.held));
    let mut out = format!("{name}: an order of {lines}, {stay}\n");
    let column = Column::of(plan);
    let mut put = |row: String| out.push_str(&format!("{}\n", row.trim_end()));
    if !plan.is_empty() {
        let name = if names.is_empty() { "" } else { "name" };
        put(format!("turn  line  job  {}  {name}", column.head));
    }
    for (turn, (line, step)) in (1..).zip(steps(plan, order)) {
        let name = step.device().and_then(|device| names.name(device)).unwrap_or_default();
        put(format!("{turn:>4}  {line:>4}  {:>3}  {}  {name}", step.job, column.row(line)));
    }
    out.push_str(&kept(plan, names));
    out
}

/// The steps of an order with their lines.
fn steps<'a>(plan: &'a Plan, order: &'a Order) -> impl Iterator<Item = (u16, Step)> + 'a {
    order.lines.iter().filter_map(|&line| Some((line, plan.step(line)?)))
}

/// Which devices stay held, and by whom: nothing, if none does.
pub fn kept(plan: &Plan, names: &Names) -> String {
    let holds = plan.holds();
    let lasting = (1..).zip(plan.steps()).filter(|(line, _)| holds.lasts(*line));
    let mut lasting: Vec<(u8, u8)> = lasting.map(|(_, step)| (step.operand, step.job)).collect();
    lasting.sort_unstable();
    let words = |(device, job): &(u8, u8)| format!("{} by job {job}", names.words(*device));
    let words: Vec<String> = lasting.iter().map(words).collect();
    match words.is_empty() {
        true => String::new(),
        false => format!("Held to the end: {}.\n", listed(&words)),
    }
}
