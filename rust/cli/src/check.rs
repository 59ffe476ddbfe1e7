//! `gimmerskip check`: a line for each file.

use crate::desk::Desk;
use crate::diagnosis;
use crate::input::Text;
use crate::judged;
use crate::trouble::{Status, Trouble};
use crate::words::{counted, held};
use std::ffi::OsString;

/// Checks one file after the other. One that cannot be read does not keep the others from being checked.
pub fn run(desk: &mut Desk, files: &[OsString]) -> Result<(), Trouble> {
    for file in files {
        match desk.input.plan(file) {
            Ok(text) => {
                let line = checked(desk, &text);
                desk.out.put(line.as_bytes())?;
            }
            Err(trouble) => desk.say_trouble(&trouble),
        }
    }
    Ok(())
}

/// The line for one text.
fn checked(desk: &mut Desk, text: &Text) -> String {
    match judged(&text.bytes) {
        Ok((plan, order)) => {
            let lines = counted(plan.len(), "line");
            format!("{}: accepted, {lines}, {}\n", text.name, held(order.held))
        }
        Err(refusal) => {
            desk.met(Status::Refused);
            let refused = diagnosis::of_text(text, refusal, &desk.names);
            refused.headline(&text.name, desk.out.style)
        }
    }
}
