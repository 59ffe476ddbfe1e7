//! The help: one page for all, and one for each subcommand.

use crate::arguments::Kind;

/// What `--version` prints.
pub const VERSION: &str = concat!("gimmerskip ", env!("CARGO_PKG_VERSION"), "\n");

/// How the command, or one subcommand, is used.
pub fn use_line(kind: Option<Kind>) -> &'static str {
    match kind {
        None => "gimmerskip COMMAND [--names NAMES] ..",
        Some(Kind::Order) => "gimmerskip order [--steps] [--names NAMES] FILE..",
        Some(Kind::Explain) => "gimmerskip explain [--names NAMES] FILE",
        Some(Kind::Table) => "gimmerskip table [--names NAMES] FILE",
        Some(Kind::Move) => {
            "gimmerskip move [--in-place] [--names NAMES] {FILE LINE DEVICE | --watch FILE}"
        }
        Some(Kind::Check) => "gimmerskip check [--names NAMES] FILE..",
        Some(Kind::Judge) => "gimmerskip judge [--names NAMES] PLAN ORDER",
    }
}

/// What a subcommand does, in a few words.
fn brief(kind: Kind) -> &'static str {
    match kind {
        Kind::Order => "prints the order of each plan, or why it is refused",
        Kind::Explain => "says in words what is wrong with a plan, or who holds what when",
        Kind::Table => "prints the lines of a plan with the devices that they claim",
        Kind::Move => "moves the claim of a line to another device, or one claim after another",
        Kind::Check => "says of each plan, in one line, whether it is accepted",
        Kind::Judge => "says whether an order from elsewhere is a legal one of a plan",
    }
}

/// What there is to know of moves, one or many.
const MOVE: &str =
    "The take in LINE, and its give, get DEVICE: a number, or a name of --names (a number is never taken for\n\
    a name). Standard output gets the edited plan; how many sets of claims have changed is said on standard\n\
    error, and which takes are now of what their job holds, or no longer. A plan without an order can be\n\
    moved too.\n\n  \
    --in-place   replaces the file, whole or not at all, and prints no plan\n  \
    --watch      reads moves from standard input and answers each at once, as below\n\n\
    With --watch a line of standard input is a move: LINE, a tab or spaces, DEVICE. Standard output gets a\n\
    line for each, with tabs between its fields:\n\n  \
    changed 3 accepted 2     3 sets of claims changed; the plan has an order, and 2 devices stay held\n  \
    changed 3 refused 10 0   3 sets changed; the plan has no order now, by this number and place\n  \
    refused 12 4             the move is refused, by this number and place, and changes nothing\n  \
    malformed 5              line 5 of standard input is no move, and changes nothing\n\n\
    Standard error says in words what is behind it. At the end of the input (Ctrl-D) the plan is printed,\n\
    behind a line with two hyphens, or with --in-place put into the file; broken off before (Ctrl-C), the\n\
    file is as it was. The status is 1 if a move was refused or the plan has no order at the end, 2 if a\n\
    line was no move.\n";

/// What there is to know of a subcommand.
fn more(kind: Kind) -> &'static str {
    match kind {
        Kind::Order => {
            "Standard output gets what the program `order` prints: `order`, the number of lines and of devices that\n\
             stay held, and then the line numbers in their order; or `refused`, number and place. What is wrong is\n\
             said in words on standard error. The answers for several files come one after the other, in the files'\n\
             order and without their names.\n\n  \
             --steps   prints a table of the steps in their order instead: `again` marks a take of what the job\n\
             \x20           holds, `inner` a give after which it still holds the device\n"
        }
        Kind::Explain => {
            "Of a plan that is refused it shows the lines concerned, says what is wrong and how it could be mended.\n\
             Of a plan that is accepted it says, job by job, which device is held from which line to which, and where\n\
             the job takes again what it holds.\n"
        }
        Kind::Table => {
            "A line claims the devices that it takes itself and those that are taken behind it: further down in its\n\
             job, and in the jobs that are started there. What its job holds it can take again, but does not claim. A\n\
             plan without an order has such a table too.\n"
        }
        Kind::Move => MOVE,
        Kind::Check => "A line for each file: `accepted` with its counts, or `refused` with number, place and words.\n",
        Kind::Judge => {
            "ORDER is a list of line numbers, one a line, from any maker. It may also be what `order` prints: a first\n\
             line with the word `order` and two counts is passed over. Standard output gets what the program `judge`\n\
             prints for the plan, `--` and the numbers: `legal`, or `refused`, number and place. The place of a 15 is\n\
             where the list first goes wrong, counted from 1, or one past its end where it stops too soon. Which rule\n\
             is broken there, and what the next step could be, is said in words on standard error.\n"
        }
    }
}

/// What the operands are.
fn operands(kind: Option<Kind>) -> &'static str {
    match kind {
        Some(Kind::Move) => {
            "FILE is a plan; `-` is standard input, but not with --watch, and `--` ends the options."
        }
        Some(Kind::Judge) => "PLAN is a plan; `-`, for it or for ORDER, is standard input, and `--` ends the options.",
        _ => "FILE is a plan; `-` is standard input, and `--` ends the options.",
    }
}

/// What all subcommands have in common.
const COMMON: &str = "
  --names NAMES   a file with a line for each device that has a name: its number, a tab, the name
  --help          this help, or that of a command
  --version       the version

The status is 0 if all went well, 1 if a plan, an order or a move is refused, 2 if there was trouble with the use, with
a file, or with input and output.
";

/// The page of help for a subcommand, or for all of them.
pub fn page(kind: Option<Kind>) -> String {
    let head = format!("use: {}\n\n", use_line(kind));
    let common = format!("{}\n{COMMON}", operands(kind));
    let Some(kind) = kind else {
        let line = |kind: &Kind| format!("  {:<10}{}\n", kind.word(), brief(*kind));
        let commands: String = Kind::ALL.iter().map(line).collect();
        return format!(
            "{head}Finds the order of a plan, or says why there is none.\n\n{commands}\n{common}"
        );
    };
    let brief = brief(kind);
    format!("{head}{}{}.\n{}\n{common}", brief[..1].to_uppercase(), &brief[1..], more(kind))
}

#[cfg(test)]
mod tests {
    use super::*;

    #[test]
    fn pages_begin_with_the_use_and_fit() {
        let kinds = Kind::ALL.into_iter().map(Some);
        for kind in kinds.chain([None]) {
            let page = page(kind);
            assert!(page.starts_with(&format!("use: {}\n", use_line(kind))));
            assert!(page.lines().all(|line| line.len() <= 120), "{page}");
        }
    }
}
