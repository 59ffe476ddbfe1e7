//! The state of a run, and the classes of calls and plans that it has to meet. The classes are the
//! numbers of "Refusal numbers" of document 01 without 8, and 15 of document 02, entry by entry, the
//! shapes of plans on which "Claims and rows" and "The order handed out" turn, the sentences of "Legal
//! orders", the shapes of plans, moves and tables on which request 2 of document 02 turns, those of
//! rows on which request 3 does, and of lists kept beside a plan on which request 4 does.

use crate::{circles, judging, kept, small, wrapper};
use second::random::Random;
use second::tally::{Tally, LEAST};
use second::{shapes, Refusal};
use std::collections::BTreeMap;

/// The least number of calls of each entry.
const CALLS: u64 = 20_000;
/// The least number of moves with tables of each sort.
const MOVES: u64 = 1_000;
/// So many texts of each answer are kept for a program.
const KEPT: usize = 240;

/// Each entry, and each program, with the refusals that it can give. The lists are checked by each
/// entry itself, so a packed list too long gives 3; a text too long, 1, reaches readers of texts
/// alone. The screens' entry has no list that could be too short: too little room is no refusal.
const REFUSALS: [(&str, &[u32]); 13] = [
    ("line", &[1, 2, 3]),
    ("read", &[1, 2, 3, 4, 5, 6, 7, 11]),
    ("write", &[2, 3, 4, 5, 6, 7, 11]),
    ("table", &[2, 3, 4, 5, 6, 7, 11]),
    ("verdict", &[2, 3, 4, 5, 6, 7, 9, 10, 11]),
    ("move", &[2, 3, 4, 5, 6, 7, 11, 12, 13, 14]),
    ("build", &[2, 3, 4, 5, 6, 7, 11]),
    ("move_kept", &[2, 3, 4, 5, 6, 7, 11, 12, 13, 14]),
    ("quick", &[2, 3, 4, 5, 6, 7, 9, 10, 11]),
    ("screen", &[1, 2, 3, 4, 5, 6, 7, 9, 10]),
    ("judge", &[2, 3, 4, 5, 6, 7, 15]),
    ("program order", &[1, 2, 3, 4, 5, 6, 7, 9, 10]),
    ("program judge", &[1, 2, 3, 4, 5, 6, 7, 15]),
];

/// The other classes.
const OTHERS: [&str; 8] = [
    "screen: too little room",
    "plan: shortest circle 1",
    "plan: shortest circle 2",
    "plan: shortest circle 3",
    "plan: shortest circle 4 or more",
    "plan: accepted, (b) passes over a lower blocked device",
    "plan: accepted with over 500 lines",
    "plan: accepted, nothing taken again",
];

/// What an entry says: its number on success, or its refusal.
pub type Answer = Result<u64, Refusal>;

/// Texts kept for a program, by the number of the refusal that they get, 0 being acceptance.
#[derive(Default)]
pub struct Texts {
    by_number: BTreeMap<u32, Vec<Vec<u8>>>,
}

impl Texts {
    /// Keeps a text, if there are not enough of its kind.
    pub fn keep(&mut self, text: &[u8], answer: &Answer) {
        let number = answer.as_ref().err().map_or(0, |refusal| refusal.number);
        let texts = self.by_number.entry(number).or_default();
        if texts.len() < KEPT {
            texts.push(text.to_vec());
        }
    }

    /// The texts, kind by kind.
    pub fn kinds(self) -> impl Iterator<Item = Vec<Vec<u8>>> {
        self.by_number.into_values()
    }
}

/// The run: what it has seen, what it draws from, and the texts kept for the program `order`.
pub struct Run {
    pub tally: Tally,
    pub random: Random,
    pub texts: Texts,
}

impl Run {
    /// Nothing seen yet.
    pub fn new(seed: u64) -> Run {
        let tally = Tally::new(classes());
        Run { tally, random: Random::new(seed), texts: Texts::default() }
    }

    /// Counts a call by its answer.
    pub fn meet(&mut self, entry: &str, answer: &Answer) {
        self.tally.meet(&format!("{entry}: calls"));
        match answer {
            Ok(_) => self.tally.meet(&format!("{entry}: accepted")),
            Err(refusal) => self.tally.meet(&format!("{entry}: refusal {}", refusal.number)),
        }
    }
}

/// All classes, each with the least number that has to be met.
fn classes() -> Vec<(String, u64)> {
    let mut classes = Vec::new();
    for (entry, numbers) in REFUSALS {
        // A process takes its time, so a program is called less often.
        let calls = if entry.starts_with("program") { LEAST } else { CALLS };
        classes.push((format!("{entry}: calls"), calls));
        classes.push((format!("{entry}: accepted"), LEAST));
        classes.extend(numbers.iter().map(|number| (format!("{entry}: refusal {number}"), LEAST)));
    }
    classes.extend(OTHERS.map(|class| (class.to_string(), LEAST)));
    classes.extend(shapes::TAKEN_AGAIN.map(|shape| (format!("plan: accepted, {shape}"), LEAST)));
    classes.extend(shapes::MOVED.map(|shape| (format!("move: {shape}"), LEAST)));
    classes.extend(shapes::TABLES.map(|shape| (format!("move: {shape}"), MOVES)));
    classes.extend(judging::CLASSES.map(|class| (format!("judge: {class}"), LEAST)));
    classes.push(small::all_class());
    classes.extend(wrapper::classes());
    classes.extend(circles::classes());
    classes.extend(kept::classes());
    classes
}
