//! `gimmerskip judge`: whether a list of line numbers is a legal order of a plan.

use crate::desk::Desk;
use crate::diagnosis;
use crate::input::Text;
use crate::list::{List, MOST_BYTES};
use crate::trouble::Trouble;
use crate::words::refused;
use gimmerskip::{Plan, Refusal};
use std::ffi::OsStr;

/// Judges one list. Standard output gets what the program `judge` prints for the plan, the line that parts and the
/// numbers.
pub fn run(desk: &mut Desk, plan: &OsStr, order: &OsStr) -> Result<(), Trouble> {
    let text = desk.input.plan(plan)?;
    let list = List::of(desk.input.read(order, MOST_BYTES)?);
    let judged = match Plan::from_text(&text.bytes) {
        Ok(plan) => plan.judge(&list.entries),
        Err(refusal) => Err(refusal),
    };
    desk.out.put(printed(judged).as_bytes())?;
    if let Err(refusal) = judged {
        say(desk, &text, &list, refusal);
    }
    Ok(())
}

/// The line that is printed.
fn printed(judged: Result<(), Refusal>) -> String {
    match judged {
        Ok(()) => "legal\n".to_string(),
        Err(refusal) => refused(refusal) + "\n",
    }
}

/// Says in words what is wrong: with the list, all there is to say; with the plan, as for its order.
fn say(desk: &mut Desk, text: &Text, list: &List, refusal: Refusal) {
    if let Refusal::IllegalStep(_) = refusal {
        let refused = diagnosis::of_list(&text.bytes, list, refusal, &desk.names);
        return desk.say_all(&list.name, &refused);
    }
    let refused = diagnosis::of_text(text, refusal, &desk.names);
    desk.say_refusal(&text.name, &refused);
    if refusal == Refusal::Malformed(1) && List::of(text.clone()).begins_well() {
        desk.say("It looks like a list of line numbers: PLAN comes first, then ORDER.\n");
    }
}
