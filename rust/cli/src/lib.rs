//! The command for growers: `gimmerskip order`, `explain`, `table`, `move`, `check` and `judge`.
//!
//! It stands on the wrapper of the proved archives: what is accepted or refused, with which number and at which place,
//! is always theirs. This crate reads files, finds words, and writes. [`run`] is the whole command; a subcommand is a
//! module, and all of them work at a [`desk`].

#![forbid(unsafe_code)]
#![warn(missing_docs)]

pub mod arguments;
pub mod check;
pub mod desk;
pub mod diagnosis;
pub mod explain;
pub mod gaps;
pub mod help;
pub mod input;
pub mod judge;
pub mod list;
pub mod look;
pub mod moving;
pub mod names;
pub mod order;
pub mod output;
pub mod replace;
pub mod shown;
pub mod steps;
pub mod style;
pub mod table;
pub mod trouble;
pub mod verbs;
pub mod watch;
pub mod words;

use arguments::{Asked, Command};
use desk::Desk;
use gimmerskip::{Order, Plan, Refusal};
use std::ffi::OsString;
use trouble::{Status, Trouble};

/// The standard streams that were closed when the program began.
#[derive(Clone, Copy, Debug, Default)]
pub struct Closed {
    /// Standard input.
    pub input: bool,
    /// Standard output.
    pub output: bool,
}

/// Does what the arguments ask for, and says how it ended.
pub fn run(arguments: Vec<OsString>, closed: Closed) -> Status {
    let mut desk = Desk::new(closed);
    if let Err(trouble) = arguments::parsed(arguments).and_then(|asked| answer(&mut desk, asked)) {
        desk.say_trouble(&trouble);
    }
    desk.worst()
}

/// Answers what was asked.
fn answer(desk: &mut Desk, asked: Asked) -> Result<(), Trouble> {
    let (command, names) = match asked {
        Asked::Help(of) => return desk.out.put(help::page(of).as_bytes()),
        Asked::Version => return desk.out.put(help::VERSION.as_bytes()),
        Asked::Run { command, names } => (command, names),
    };
    if let Some(file) = names {
        desk.read_names(&file)?;
    }
    match command {
        Command::Order { files, steps } => order::run(desk, &files, steps),
        Command::Explain { file } => explain::run(desk, &file),
        Command::Table { file } => table::run(desk, &file),
        Command::Move(asked) => moving::run(desk, &asked),
        Command::Watch { file, in_place } => watch::run(desk, &file, in_place),
        Command::Check { files } => check::run(desk, &files),
        Command::Judge { plan, order } => judge::run(desk, &plan, &order),
    }
}

/// The plan of a text with its order, or the refusal.
pub fn judged(text: &[u8]) -> Result<(Plan, Order), Refusal> {
    let plan = Plan::from_text(text)?;
    let order = plan.verdict()?;
    Ok((plan, order))
}
