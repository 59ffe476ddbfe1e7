//! Refusals of a move: 12, 13 and 14.

use super::{pointed_line, Diagnosis, Field};
use crate::words::counted;
use gimmerskip::{Plan, Refusal, Verb};

/// Why a claim cannot be moved. The plan is as it was before.
pub fn of_move(plan: &Plan, refusal: Refusal) -> Diagnosis {
    let mut said = Diagnosis::general(refusal);
    match refusal {
        Refusal::NotATake(asked) => {
            said.head = no_take(plan, asked);
            let text = plan.text();
            said.lines.extend(pointed_line(text.as_bytes(), asked as usize, Field::Operand));
        }
        Refusal::NoSuchDevice(asked) => {
            said.head = format!("there is no device {asked}: devices are 0 to 31");
        }
        _ => {}
    }
    said
}

/// 12: what stands in the line, if there is one.
fn no_take(plan: &Plan, asked: u32) -> String {
    let line = u16::try_from(asked).ok();
    let Some((line, step)) = line.and_then(|line| Some((line, plan.step(line)?))) else {
        return format!("there is no line {asked}: the plan has {}", counted(plan.len(), "line"));
    };
    let its_take = plan.holds().take_of(line).filter(|_| step.verb == Verb::Give);
    let its_take = its_take.map(|take| format!(": its take is in line {take}")).unwrap_or_default();
    format!("line {asked} is a {}, and only a take can be moved{its_take}", step.verb)
}

#[cfg(test)]
mod tests {
    use super::*;

    #[test]
    fn each_refusal_of_a_move_has_words() {
        let plan = Plan::from_text("1\ttake\t0\n1\ttake\t1\n1\tgive\t1\n").expect("no fault");
        let head = |refusal| of_move(&plan, refusal).head;
        let give = "line 3 is a give, and only a take can be moved: its take is in line 2";
        assert_eq!(head(Refusal::NotATake(3)), give);
        assert_eq!(head(Refusal::NotATake(9)), "there is no line 9: the plan has 3 lines");
        let none = "there is no device 40: devices are 0 to 31";
        assert_eq!(head(Refusal::NoSuchDevice(40)), none);
        // The command makes its table anew and cannot meet this one: the library's words will do.
        let stale = Refusal::StaleTable(1);
        assert_eq!(head(stale), stale.to_string());
    }
}
