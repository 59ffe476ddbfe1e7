//! `gimmerskip table`: the lines of a plan with the devices that they claim.

use crate::desk::Desk;
use crate::diagnosis;
use crate::names::Names;
use crate::steps::Column;
use crate::trouble::Trouble;
use gimmerskip::{Plan, Tabled};
use std::ffi::OsStr;

/// Prints the table of one plan. A plan without an order has one too.
pub fn run(desk: &mut Desk, file: &OsStr) -> Result<(), Trouble> {
    let text = desk.input.plan(file)?;
    match Plan::from_text(&text.bytes) {
        Ok(plan) => {
            let table = printed(&Tabled::new(plan), &desk.names);
            desk.out.put(table.as_bytes())
        }
        Err(refusal) => {
            let refused = diagnosis::of_text(&text, refusal, &desk.names);
            desk.say_refusal(&text.name, &refused);
            Ok(())
        }
    }
}

/// The table with a line for each line of the plan.
fn printed(tabled: &Tabled, names: &Names) -> String {
    let steps = Column::of(tabled.plan());
    let mut out = format!("line  job  {}  claims\n", steps.head);
    for (line, (step, set)) in (1..).zip(tabled.plan().steps().zip(tabled.table())) {
        let (words, claims) = (steps.row(line), claims(*set, names));
        out.push_str(&format!("{line:>4}  {:>3}  {words}  {claims}\n", step.job));
    }
    out
}

/// The devices of a set, or a dash where it has none.
fn claims(set: u32, names: &Names) -> String {
    let devices = (0..32).filter(|device| set >> device & 1 == 1);
    let shown: Vec<String> = devices.map(|device| names.number(device)).collect();
    if shown.is_empty() {
        return "-".to_string();
    }
    shown.join(if names.is_empty() { " " } else { ", " })
}

#[cfg(test)]
mod tests {
    use super::*;

    #[test]
    fn sets_as_devices() {
        let names = Names::read("n", b"3\tpump\n").expect("nothing is wrong");
        assert_eq!(claims(0, &names), "-");
        assert_eq!(claims(1 << 31 | 1 << 3, &Names::default()), "3 31");
        assert_eq!(claims(1 << 31 | 1 << 3, &names), "3 (pump), 31");
    }
}
