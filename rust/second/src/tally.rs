//! What a comparison run has seen: its named checks, and the classes of inputs it met. The classes
//! go by the words of document 01, mostly its refusal numbers; each run brings its own list. And how
//! such a run begins and ends.

use crate::line::Line;
use crate::plain::{rows, shortest_circle};
use crate::read::write;
use std::collections::BTreeMap;
use std::fmt::Debug;
use std::process::ExitCode;

/// A class that fewer inputs than this fall into shows little; runs ask for it unless they say
/// otherwise.
pub const LEAST: u64 = 200;
/// The seed where none is asked for.
const SEED: u64 = 20_260_417;
/// Differences printed in full; later ones are only counted.
const TOLD: u64 = 10;

/// What an entry or a reading was given, told in full where answers differ.
pub trait Input {
    /// The input as a reader can take it up again.
    fn told(&self) -> String;
}

impl Input for [Line] {
    fn told(&self) -> String {
        String::from_utf8_lossy(&write(self)).into_owned()
    }
}

impl Input for Vec<Line> {
    fn told(&self) -> String {
        self.as_slice().told()
    }
}

/// The class of a plan with a circle, by its shortest one.
pub fn circle_class(plan: &[Line]) -> &'static str {
    match shortest_circle(&rows(plan)) {
        Some(1) => "plan: shortest circle 1",
        Some(2) => "plan: shortest circle 2",
        Some(3) => "plan: shortest circle 3",
        _ => "plan: shortest circle 4 or more",
    }
}

/// One named check.
struct Check {
    made: u64,
    failed: u64,
}

/// A class of inputs: how many have to be met, and how many were.
struct Class {
    name: String,
    least: u64,
    met: u64,
}

/// What the run has seen.
pub struct Tally {
    checks: BTreeMap<String, Check>,
    classes: Vec<Class>,
    /// Where each class stands in the list, which keeps the order that the run gave it.
    places: BTreeMap<String, usize>,
    told: u64,
}

impl Tally {
    /// Nothing seen yet of these classes, each with the least number that has to be met.
    pub fn new(classes: impl IntoIterator<Item = (String, u64)>) -> Tally {
        let class = |(name, least)| Class { name, least, met: 0 };
        let classes: Vec<Class> = classes.into_iter().map(class).collect();
        let place = |(place, class): (usize, &Class)| (class.name.clone(), place);
        let places = classes.iter().enumerate().map(place).collect();
        Tally { checks: BTreeMap::new(), classes, places, told: 0 }
    }

    /// Holds an answer against the one wanted, under the name of a check.
    pub fn compare<A: PartialEq + Debug>(
        &mut self,
        name: &str,
        input: &(impl Input + ?Sized),
        wanted: A,
        answer: A,
    ) {
        let same = wanted == answer;
        self.count(name, same);
        if !same && self.told < TOLD {
            self.told += 1;
            println!("DIFFERENT: {name}");
            print!("{}", input.told());
            println!("wanted: {wanted:?}\nanswer: {answer:?}\n");
        }
    }

    /// Counts one comparison.
    fn count(&mut self, name: &str, good: bool) {
        if !self.checks.contains_key(name) {
            let check = Check { made: 0, failed: 0 };
            self.checks.insert(name.to_string(), check);
        }
        let check = self.checks.get_mut(name).expect("it has just been put there");
        check.made += 1;
        check.failed += u64::from(!good);
    }

    /// Counts an input in its class.
    pub fn meet(&mut self, class: &str) {
        let place = self.places[class];
        self.classes[place].met += 1;
    }

    /// How many inputs of a class were met so far.
    pub fn met(&self, class: &str) -> u64 {
        self.classes[self.places[class]].met
    }

    /// Prints everything; true if all is well.
    pub fn print(&self) -> bool {
        let mut failed = 0;
        for Class { name, least, met } in &self.classes {
            let few = if met < least { "  TOO FEW" } else { "" };
            failed += usize::from(met < least);
            println!("{met:>9}  {name}{few}");
        }
        println!();
        for (name, check) in &self.checks {
            let mark = if check.failed == 0 { "ok" } else { "FAILED" };
            failed += usize::from(check.failed > 0);
            println!("{mark:>9}  {name}: {} made, {} wrong", check.made, check.failed);
        }
        let all = self.classes.len() + self.checks.len();
        println!("\n{} passed, {failed} failed", all - failed);
        failed == 0
    }
}

/// A program that compares: prints its seed, runs, and ends well if the run says that all is well.
/// The seed is taken from the environment variable SEED; without it, a fixed one is used.
pub fn seeded(run: impl FnOnce(u64) -> bool) -> ExitCode {
    let seed = match std::env::var("SEED").map(|seed| seed.parse().map_err(|_| seed)) {
        Ok(Err(seed)) => {
            eprintln!("SEED is no number: {seed}");
            return ExitCode::from(2);
        }
        Ok(Ok(seed)) => seed,
        Err(_) => SEED,
    };
    println!("seed {seed}");
    if run(seed) {
        ExitCode::SUCCESS
    } else {
        ExitCode::FAILURE
    }
}
