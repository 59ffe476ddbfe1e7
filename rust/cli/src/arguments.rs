//! Arguments into what is asked for.

use crate::help;
use crate::shown;
use crate::trouble::Trouble;
use std::ffi::{OsStr, OsString};
use std::os::unix::ffi::OsStrExt;

/// The subcommands.
#[derive(Clone, Copy, Debug, PartialEq, Eq)]
pub enum Kind {
    /// `order FILE..`
    Order,
    /// `explain FILE`
    Explain,
    /// `table FILE`
    Table,
    /// `move FILE LINE DEVICE` and `move --watch FILE`
    Move,
    /// `check FILE..`
    Check,
    /// `judge PLAN ORDER`
    Judge,
}

impl Kind {
    /// All of them, as the help has them.
    pub const ALL: [Kind; 6] =
        [Kind::Order, Kind::Explain, Kind::Table, Kind::Move, Kind::Check, Kind::Judge];

    /// The word by which it is asked for.
    pub fn word(self) -> &'static str {
        match self {
            Kind::Order => "order",
            Kind::Explain => "explain",
            Kind::Table => "table",
            Kind::Move => "move",
            Kind::Check => "check",
            Kind::Judge => "judge",
        }
    }
}

/// What the arguments ask for.
#[derive(Debug, PartialEq, Eq)]
pub enum Asked {
    /// The help, of one subcommand or of all.
    Help(Option<Kind>),
    /// The version.
    Version,
    /// A subcommand, with the file of names, if one was given.
    Run {
        /// The subcommand.
        command: Command,
        /// The file of names.
        names: Option<OsString>,
    },
}

/// A subcommand with its operands.
#[derive(Debug, PartialEq, Eq)]
pub enum Command {
    /// Prints the orders of plans, as the program does or step by step.
    Order {
        /// The plans.
        files: Vec<OsString>,
        /// Whether the steps are printed.
        steps: bool,
    },
    /// Says why a plan is refused, or who holds what when.
    Explain {
        /// The plan.
        file: OsString,
    },
    /// Prints the claims.
    Table {
        /// The plan.
        file: OsString,
    },
    /// Moves a claim.
    Move(Move),
    /// Moves claims as they are asked for on standard input.
    Watch {
        /// The plan.
        file: OsString,
        /// Whether the file is replaced.
        in_place: bool,
    },
    /// Says of each plan whether it is accepted.
    Check {
        /// The plans.
        files: Vec<OsString>,
    },
    /// Says whether a list is a legal order of a plan.
    Judge {
        /// The plan.
        plan: OsString,
        /// The list of line numbers.
        order: OsString,
    },
}

/// What is to be moved.
#[derive(Debug, PartialEq, Eq)]
pub struct Move {
    /// The plan.
    pub file: OsString,
    /// The line, as it was given.
    pub line: OsString,
    /// The device or its name, as it was given.
    pub device: OsString,
    /// Whether the file is replaced.
    pub in_place: bool,
}

/// The arguments, sorted: what they mean together is looked at afterwards.
#[derive(Default)]
struct Given {
    operands: Vec<OsString>,
    names: Option<OsString>,
    steps: bool,
    in_place: bool,
    watch: bool,
    help: bool,
    version: bool,
}

/// What the arguments, without the program's name, ask for.
pub fn parsed(arguments: Vec<OsString>) -> Result<Asked, Trouble> {
    let given = sorted(arguments)?;
    let kind = given.operands.first().map(kind_of).transpose()?;
    if given.help {
        return Ok(Asked::Help(kind));
    }
    if given.version {
        return Ok(Asked::Version);
    }
    let kind = kind.ok_or_else(|| misused("a command is missing", None))?;
    for (is_given, option, of) in [
        (given.steps, "--steps", Kind::Order),
        (given.in_place, "--in-place", Kind::Move),
        (given.watch, "--watch", Kind::Move),
    ] {
        if is_given && kind != of {
            return Err(misused(&format!("{} has no option {option}", kind.word()), Some(kind)));
        }
    }
    let names = given.names.clone();
    Ok(Asked::Run { command: command(kind, given)?, names })
}

/// Parts options from operands. The first operand is the subcommand.
fn sorted(arguments: Vec<OsString>) -> Result<Given, Trouble> {
    let mut given = Given::default();
    let mut rest = arguments.into_iter();
    while let Some(argument) = rest.next() {
        let is_option = argument.as_encoded_bytes().starts_with(b"-") && argument != "-";
        if argument == "--" {
            given.operands.extend(rest.by_ref());
        } else if is_option {
            option(&mut given, &argument, &mut rest)?;
        } else {
            given.operands.push(argument);
        }
    }
    Ok(given)
}

/// Takes in one option, and what belongs to it.
fn option(
    given: &mut Given,
    option: &OsString,
    rest: &mut impl Iterator<Item = OsString>,
) -> Result<(), Trouble> {
    match option.to_str() {
        Some("--help") => given.help = true,
        Some("--version") => given.version = true,
        Some("--steps") => given.steps = true,
        Some("--in-place") => given.in_place = true,
        Some("--watch") => given.watch = true,
        Some("--names") => {
            let file = rest.next().ok_or_else(|| misused("--names needs a file", None))?;
            return names(given, file);
        }
        _ => {
            let Some(file) = option.as_bytes().strip_prefix(b"--names=") else {
                return Err(misused(&format!("unknown option {}", shown::name(option)), None));
            };
            return names(given, OsStr::from_bytes(file).to_owned());
        }
    }
    Ok(())
}

/// Takes in the file of names, of which there is one.
fn names(given: &mut Given, file: OsString) -> Result<(), Trouble> {
    match given.names.replace(file) {
        None => Ok(()),
        Some(_) => Err(misused("--names is given twice", None)),
    }
}

/// The subcommand with this word.
fn kind_of(word: &OsString) -> Result<Kind, Trouble> {
    let kind = Kind::ALL.into_iter().find(|kind| word == kind.word());
    kind.ok_or_else(|| misused(&format!("unknown command {}", shown::name(word)), None))
}

/// The subcommand with the operands that it needs.
fn command(kind: Kind, given: Given) -> Result<Command, Trouble> {
    let (steps, in_place, watch) = (given.steps, given.in_place, given.watch);
    let mut operands: Vec<OsString> = given.operands.into_iter().skip(1).collect();
    let (least, most) = match kind {
        Kind::Order | Kind::Check => (1, usize::MAX),
        Kind::Explain | Kind::Table => (1, 1),
        Kind::Move if watch => (1, 1),
        Kind::Move => (3, 3),
        Kind::Judge => (2, 2),
    };
    if operands.len() < least {
        return Err(misused(&format!("{} needs more operands", kind.word()), Some(kind)));
    }
    if operands.len() > most {
        let over = shown::name(&operands[most]);
        return Err(misused(&format!("{over} is one operand too many"), Some(kind)));
    }
    if kind == Kind::Judge && operands.iter().all(|operand| operand == "-") {
        return Err(misused("only one of PLAN and ORDER can be `-`", Some(kind)));
    }
    if watch && operands[0] == "-" {
        let words = "with --watch standard input has the moves, so FILE cannot be `-`";
        return Err(misused(words, Some(kind)));
    }
    Ok(match kind {
        Kind::Order => Command::Order { files: operands, steps },
        Kind::Check => Command::Check { files: operands },
        Kind::Explain => Command::Explain { file: operands.remove(0) },
        Kind::Table => Command::Table { file: operands.remove(0) },
        Kind::Move if watch => Command::Watch { file: operands.remove(0), in_place },
        Kind::Move => {
            let (file, line, device) = (operands.remove(0), operands.remove(0), operands.remove(0));
            Command::Move(Move { file, line, device, in_place })
        }
        Kind::Judge => Command::Judge { plan: operands.remove(0), order: operands.remove(0) },
    })
}

/// Wrong use, with a line that says the right one.
fn misused(words: &str, kind: Option<Kind>) -> Trouble {
    Trouble(format!("{words}\nuse: {}; see gimmerskip --help", help::use_line(kind)))
}

#[cfg(test)]
mod tests {
    use super::*;

    fn asked(words: &str) -> Result<Asked, Trouble> {
        parsed(words.split(' ').filter(|word| !word.is_empty()).map(OsString::from).collect())
    }

    fn trouble(words: &str) -> String {
        asked(words).expect_err("this is wrong").0
    }

    #[test]
    fn options_go_before_and_after() {
        let order = |names: Option<&str>, files: &[&str], steps| Asked::Run {
            command: Command::Order { files: files.iter().map(OsString::from).collect(), steps },
            names: names.map(OsString::from),
        };
        assert_eq!(asked("order a b"), Ok(order(None, &["a", "b"], false)));
        assert_eq!(asked("--names n order --steps a"), Ok(order(Some("n"), &["a"], true)));
        assert_eq!(asked("order a --names n"), Ok(order(Some("n"), &["a"], false)));
        assert_eq!(asked("order --names=n a"), Ok(order(Some("n"), &["a"], false)));
        assert_eq!(asked("order -- --steps -"), Ok(order(None, &["--steps", "-"], false)));
        assert_eq!(asked("order - ./-x"), Ok(order(None, &["-", "./-x"], false)));
    }

    #[test]
    fn help_and_version() {
        assert_eq!(asked("--help"), Ok(Asked::Help(None)));
        assert_eq!(asked("move --help"), Ok(Asked::Help(Some(Kind::Move))));
        assert_eq!(asked("--version"), Ok(Asked::Version));
    }

    #[test]
    fn moves_one_or_many() {
        let run = |command| Ok(Asked::Run { command, names: None });
        let watch = |in_place| run(Command::Watch { file: "a".into(), in_place });
        assert_eq!(asked("move --watch a"), watch(false));
        assert_eq!(asked("move a --in-place --watch"), watch(true));
        let (file, line, device) = ("a".into(), "2".into(), "3".into());
        let one = Move { file, line, device, in_place: true };
        assert_eq!(asked("move --in-place a 2 3"), run(Command::Move(one)));
    }

    #[test]
    fn wrong_use_is_trouble() {
        assert!(trouble("").starts_with("a command is missing\nuse: gimmerskip"));
        assert!(trouble("water a").starts_with("unknown command water"));
        assert!(trouble("order --fast a").starts_with("unknown option --fast"));
        assert!(trouble("order").starts_with("order needs more operands\nuse: gimmerskip order"));
        assert!(trouble("explain a b").starts_with("b is one operand too many"));
        assert!(trouble("move a 1").starts_with("move needs more operands"));
        assert!(trouble("move --watch").starts_with("move needs more operands"));
        assert!(trouble("move --watch a 1 2").starts_with("1 is one operand too many"));
        assert!(trouble("move --watch -").starts_with("with --watch standard input has the moves"));
        assert!(trouble("order --watch a").starts_with("order has no option --watch"));
        assert!(trouble("judge a").starts_with("judge needs more operands\nuse: gimmerskip judge"));
        assert!(trouble("judge - -").starts_with("only one of PLAN and ORDER can be `-`\nuse: "));
        assert!(trouble("judge a b c").starts_with("c is one operand too many"));
        assert!(trouble("explain --steps a").starts_with("explain has no option --steps"));
        assert!(trouble("order --in-place a").starts_with("order has no option --in-place"));
        assert!(trouble("order a --names").starts_with("--names needs a file"));
        assert!(trouble("order a --names n --names n").starts_with("--names is given twice"));
    }
}
