//! `gimmerskip move`: the claim of a line to another device.

use crate::arguments::Move;
use crate::desk::Desk;
use crate::diagnosis::{self, Diagnosis};
use crate::input::{named, Text};
use crate::names::{is_whole, Names};
use crate::replace::{replace, replaceable};
use crate::shown;
use crate::trouble::Trouble;
use crate::words::{counted, few};
use gimmerskip::{Plan, Refusal, Tabled};
use std::ffi::OsStr;

/// Moves a claim of one plan, and prints the plan or replaces its file.
pub fn run(desk: &mut Desk, asked: &Move) -> Result<(), Trouble> {
    let one = Claim::of(&asked.line, &asked.device, &desk.names)?;
    if asked.in_place {
        can_be_replaced(&asked.file)?;
    }
    let text = desk.input.plan(&asked.file)?;
    let Some(before) = plan(desk, &text) else { return Ok(()) };
    let mut tabled = Tabled::new(before.clone());
    let count = match one.moved(&mut tabled) {
        Ok(count) => count,
        Err(refused) => {
            desk.say_refusal(&text.name, &refused);
            return Ok(());
        }
    };
    let (plan, verdict) = (tabled.plan(), tabled.quick());
    if !asked.in_place {
        desk.out.put(plan.text().as_bytes())?;
    } else if plan.text().as_bytes() != text.bytes {
        replace(&asked.file, plan.text().as_bytes())?;
    }
    let sets = counted(count, "set");
    desk.say(&format!("{}: {sets} of claims changed\n", text.name));
    say_what_is_taken_again(desk, &text.name, &before, plan);
    say_if_without_order(desk, &text.name, plan, verdict);
    Ok(())
}

/// Fails where a file is seen to be none that can be replaced.
pub fn can_be_replaced(file: &OsStr) -> Result<(), Trouble> {
    if file == "-" {
        return Err(Trouble("standard input cannot be replaced: name a file".to_string()));
    }
    named(file)?;
    replaceable(file)
}

/// Another device can make a take one of what its job holds, or make it no such take any more: of the moved line, and
/// of those under it. Both are allowed; but whoever mistook the device may want to know.
pub fn say_what_is_taken_again(desk: &mut Desk, name: &str, before: &Plan, after: &Plan) {
    let again = [before, after].map(|plan| {
        let holds = plan.holds();
        let lines = 1..=plan.len() as u16;
        lines.filter(|&line| holds.takes_again(line)).collect::<Vec<u16>>()
    });
    for (now, then, word) in [(1, 0, "now"), (0, 1, "no longer")] {
        let lines = again[now].iter().copied().filter(|line| !again[then].contains(line));
        let lines: Vec<u16> = lines.collect();
        let (take, its) = if lines.len() == 1 { ("takes", "its") } else { ("take", "their") };
        if !lines.is_empty() {
            let lines = few("line", &lines);
            desk.say(&format!("{name}: {lines} {word} {take} again what {its} job holds\n"));
        }
    }
}

/// A move is done whether or not there is an order afterwards; but whoever asked for it may want to know.
pub fn say_if_without_order(
    desk: &mut Desk,
    name: &str,
    plan: &Plan,
    verdict: Result<usize, Refusal>,
) {
    let Err(refusal) = verdict else { return };
    let head = without_order(plan, refusal, &desk.names);
    desk.say(&format!("{name}: the edited plan has no order: {head}\n"));
}

/// Why a plan has no order, in one line.
pub fn without_order(plan: &Plan, refusal: Refusal, names: &Names) -> String {
    let text = Text { name: String::new(), bytes: plan.text().into_bytes(), size: None };
    diagnosis::of_text(&text, refusal, names).head
}

/// The plan before the move; or the words of a refusal are said.
pub fn plan(desk: &mut Desk, text: &Text) -> Option<Plan> {
    let plan = Plan::from_text(&text.bytes);
    if let Err(refusal) = plan {
        let refused = diagnosis::of_text(text, refusal, &desk.names);
        desk.say_refusal(&text.name, &refused);
    }
    plan.ok()
}

/// A move as it is asked for.
pub struct Claim {
    line: Number,
    device: Number,
}

impl Claim {
    /// The line by its number, the device by number or by name.
    pub fn of(line: &OsStr, device: &OsStr, names: &Names) -> Result<Claim, Trouble> {
        Ok(Claim { line: line_of(line)?, device: device_of(device, names)? })
    }

    /// Moves it: how many sets have changed, or why it is refused.
    pub fn moved(&self, tabled: &mut Tabled) -> Result<usize, Box<Diagnosis>> {
        tabled.move_claim(self.line.asked, self.device.asked).map_err(|refusal| {
            let given = match refusal {
                Refusal::NoSuchDevice(_) => &self.device.given,
                _ => &self.line.given,
            };
            Box::new(diagnosis::of_move(tabled.plan(), refusal).as_given(given))
        })
    }
}

/// A number as the library is asked for it, and as it was given: the library's numbers end where those of growers do
/// not. Nothing has the highest of them.
struct Number {
    asked: u32,
    given: String,
}

impl Number {
    /// The number that is given in these words, if they are one.
    fn of(words: &str) -> Option<Number> {
        is_whole(words).then(|| Number {
            asked: words.parse().unwrap_or(u32::MAX),
            given: shown::cut(words.as_bytes()),
        })
    }
}

/// The line that was asked for.
fn line_of(given: &OsStr) -> Result<Number, Trouble> {
    let line = given.to_str().and_then(Number::of);
    line.ok_or_else(|| Trouble(format!("'{}' is no line's number", shown::name(given))))
}

/// The device that was asked for, by number or by name.
fn device_of(given: &OsStr, names: &Names) -> Result<Number, Trouble> {
    let words = given.to_str();
    let by_name = || Number::of(&words.and_then(|name| names.device(name))?.to_string());
    words.and_then(Number::of).or_else(by_name).ok_or_else(|| {
        let shown = shown::name(given);
        Trouble(format!("'{shown}' is neither a device's number nor one of the names given"))
    })
}
