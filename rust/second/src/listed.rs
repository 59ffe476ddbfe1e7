//! The plans of "Plans with their verdicts" of document 01, starred and not, with the answers that
//! stand there, for tests and comparisons; and some that take again what their jobs hold, with
//! answers that were worked out by hand from request 2 of document 02. No reading has a part in it.

use crate::line::Refusal;
use crate::plain::Order;

/// Plan A.
pub const A: &str = "1 start 2; 1 take 1; 1 do 7; 2 take 0; 2 take 1; 2 give 1";
/// Plan B, which comes of moving A.
pub const B: &str = "1 start 2; 1 take 1; 1 do 7; 2 take 0; 2 take 2; 2 give 2";
/// Plan C.
pub const C: &str = "1 start 2; 1 take 0; 1 take 1; 1 give 1; 2 take 1; 2 take 0; 2 give 0";
/// Plan D.
pub const D: &str = "1 start 2; 1 take 0; 1 take 1; 1 give 1; 1 give 0; \
                     2 take 1; 2 take 0; 2 give 0; 2 give 1";
/// Plan E.
pub const E: &str = "1 take 0; 1 start 2; 1 give 0; 2 take 0";
/// Plan F.
pub const F: &str = "1 take 0; 1 start 2; 2 take 0; 2 give 0";
/// Plan G.
pub const G: &str = "1 start 2; 1 take 5; 2 take 5";
/// Plan H.
pub const H: &str = "1 start 2; 1 start 3; 1 take 0; 1 take 1; 1 give 1; \
                     2 take 1; 2 take 2; 2 give 2; 3 take 2; 3 take 0; 3 give 0";
/// A device taken again, with another one taken between.
pub const ACROSS: &str = "1 start 2; 1 take 0; 1 take 1; 1 take 0; 1 give 0; 1 give 1; 1 give 0; \
                          2 take 0; 2 give 0";
/// A device taken again under its lasting take: the give is that of the take made last.
pub const KEPT: &str = "1 start 2; 1 take 0; 1 take 0; 1 do 7; 1 give 0; 2 take 0; 2 give 0";
/// The plan that 01 refused for taking twice, and 02 does not.
pub const TWICE: &str = "1 take 3; 1 take 3";
/// A pair inside another of the same device.
pub const NESTED: &str = "1 take 0; 1 take 0; 1 give 0; 1 give 0";
/// The same with another device outside, which comes of moving it.
pub const APART: &str = "1 take 1; 1 take 0; 1 give 0; 1 give 1";

/// A listed plan with its table.
pub type Tabled = (&'static str, &'static [u32]);

/// The tables of listed plans.
pub const TABLES: [Tabled; 7] = [
    (A, &[3, 2, 0, 3, 2, 0]),
    (B, &[7, 2, 0, 5, 4, 0]),
    (NESTED, &[1, 0, 0, 0]),
    (APART, &[3, 1, 0, 0]),
    (ACROSS, &[3, 3, 2, 0, 0, 0, 0, 1, 0]),
    (KEPT, &[1, 1, 0, 0, 0, 1, 0]),
    (TWICE, &[8, 0]),
];

/// A listed move. It goes from one plan to another, and back in the same way.
pub struct ListedMove {
    /// The plans, each with its table.
    pub plans: [Tabled; 2],
    /// The number of the line that is moved.
    pub line: u32,
    /// Its device in each plan.
    pub devices: [u32; 2],
    /// How many sets change.
    pub changed: u32,
}

/// The listed moves.
pub const MOVES: [ListedMove; 2] = [
    ListedMove { plans: [TABLES[0], TABLES[1]], line: 5, devices: [1, 2], changed: 3 },
    ListedMove { plans: [TABLES[2], TABLES[3]], line: 1, devices: [0, 1], changed: 2 },
];

/// A listed plan with its answer.
pub struct Listed {
    /// What it is called.
    pub name: &'static str,
    /// The plan, written the short way: "1 start 2; 1 take 1".
    pub plan: String,
    /// Its order, or its refusal.
    pub verdict: Result<Order, Refusal>,
}

/// A plan with its order.
fn ordered(name: &'static str, plan: &str, lines: impl Into<Vec<u16>>, held: u32) -> Listed {
    let order = Order { lines: lines.into(), held };
    Listed { name, plan: plan.to_string(), verdict: Ok(order) }
}

/// A plan that is refused.
fn refused(name: &'static str, plan: &str, number: u32, place: u64) -> Listed {
    Listed { name, plan: plan.to_string(), verdict: Err(Refusal { number, place }) }
}

/// Each job but the last starts the next one.
fn chain(jobs: u16) -> String {
    let starts = (1..jobs).map(|job| format!("{job} start {}; ", job + 1));
    starts.collect::<String>() + &format!("{jobs} do 0")
}

/// All listed plans.
pub fn all() -> Vec<Listed> {
    let times = |line: &str, times: usize| vec![line; times].join("; ");
    let longest = times("1 do 0", 1_024);
    let deepest_pair = times("1 take 3", 512) + "; " + &times("1 give 3", 512);
    let upto = |last: u16| (1..=last).collect::<Vec<u16>>();
    vec![
        ordered("A", A, [1, 4, 5, 6, 2, 3], 2),
        ordered("B", B, [1, 4, 5, 6, 2, 3], 2),
        refused("C", C, 10, 0),
        ordered("D", D, upto(9), 0),
        ordered("E", E, upto(4), 1),
        refused("F", F, 10, 0),
        refused("G", G, 9, 5),
        refused("H", H, 10, 0),
        ordered("I", "", [], 0),
        ordered("device 31", "1 take 31", [1], 1),
        refused("device 32", "1 take 32", 2, 1),
        ordered("line 1,024", &longest, upto(1_024), 0),
        refused("line 1,025", &format!("{longest}; 1 do 0"), 3, 1_025),
        ordered("job 64", &chain(64), upto(64), 0),
        refused("job 65", &format!("{}; 65 do 0", chain(64)), 2, 65),
        refused("start of job 65", &chain(65), 2, 64),
        ordered("take twice", TWICE, upto(2), 1),
        ordered("taken again across another", ACROSS, upto(9), 0),
        ordered("taken again under its lasting take", KEPT, [1, 6, 7, 2, 3, 4, 5], 1),
        ordered("a pair inside a pair", NESTED, upto(4), 0),
        ordered("taken 1,024 times", &times("1 take 3", 1_024), upto(1_024), 1),
        ordered("taken and given 512 times", &deepest_pair, upto(1_024), 0),
    ]
}

/// The lines of a plan that is written the short way.
fn lines(short: &str) -> impl Iterator<Item = &str> {
    short.split(';').map(str::trim).filter(|line| !line.is_empty())
}

/// Its text: tabs for the blanks, and each line ended.
pub fn text(short: &str) -> Vec<u8> {
    lines(short).map(|line| line.replace(' ', "\t") + "\n").collect::<String>().into_bytes()
}

/// Its packed numbers, made by the formula alone, also where a number is that of no line. Held lines have
/// the kind of takes, and 128 more.
pub fn packed(short: &str) -> Vec<u32> {
    let number = |field: &str| field.parse::<u32>().expect("a plan has numbers");
    let verb = |verb: &str| match verb {
        "do" => 0,
        "take" => 256,
        "held" => 256 + 128,
        "give" => 2 * 256,
        "start" => 3 * 256,
        _ => panic!("a plan has verbs"),
    };
    let packed = |line: &str| {
        let fields: Vec<&str> = line.split(' ').collect();
        number(fields[0]) * 1_024 + verb(fields[1]) + number(fields[2])
    };
    lines(short).map(packed).collect()
}
