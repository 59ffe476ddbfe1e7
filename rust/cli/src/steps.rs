//! The steps of a plan as tables show them.

use gimmerskip::{Plan, Step, Verb};

/// The least width of the column.
const LEAST: usize = 9;

/// A column with the steps of a plan, all of it equally wide.
pub struct Column {
    /// Its head.
    pub head: String,
    rows: Vec<String>,
}

impl Column {
    /// Verb and operand of each line. A take says if its job takes `again` what it holds, and a give if it is an
    /// `inner` one, after which its job still holds the device.
    pub fn of(plan: &Plan) -> Column {
        let holds = plan.holds();
        let words = |(line, step): (u16, Step)| {
            let more = match step.verb {
                Verb::Take if holds.takes_again(line) => " again",
                Verb::Give if !holds.frees(line) => " inner",
                _ => "",
            };
            format!("{} {}{more}", step.verb, step.operand)
        };
        let rows: Vec<String> = (1..).zip(plan.steps()).map(words).collect();
        let width = rows.iter().map(String::len).max().unwrap_or(0).max(LEAST);
        let wide = |words: String| format!("{words:<width$}");
        Column { head: wide("step".to_string()), rows: rows.into_iter().map(wide).collect() }
    }

    /// The step of a line that exists, counted from 1.
    pub fn row(&self, line: u16) -> &str {
        &self.rows[usize::from(line) - 1]
    }
}
