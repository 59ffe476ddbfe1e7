//! The two sides: the library's entries and the fast ones, each with its own lent lists.

use crate::inputs::{Input, Inputs, Move, Which};
use bench::fast;
use gimmerskip::raw;
use std::fmt;
use std::hint::black_box;
use std::time::{Duration, Instant};

/// Building: a plan, and the lists for its table, its rows and its held set.
pub type Build = fn(&[u32], &mut [u32], &mut [u32], &mut [u32]) -> u64;
/// A move that keeps the rows: the plan, the same lists, a line and a device.
pub type MoveKept = fn(&mut [u32], &mut [u32], &mut [u32], &mut [u32], u32, u32) -> u64;

/// The nine entries of a side, called through pointers, so that neither side grows into the loop that times it.
pub struct Side {
    pub read: fn(&[u8], &mut [u32]) -> u64,
    pub write: fn(&[u32], &mut [u8]) -> u64,
    pub table: fn(&[u32], &mut [u32]) -> u64,
    pub verdict: fn(&[u32], &mut [u16]) -> u64,
    pub judge: fn(&[u32], &[u16]) -> u64,
    pub move_claim: fn(&mut [u32], &mut [u32], u32, u32) -> u64,
    pub build: Build,
    pub move_kept: MoveKept,
    pub quick: fn(&[u32], &[u32]) -> u64,
}

pub const OURS: Side = Side {
    read: raw::read,
    write: raw::write,
    table: raw::table,
    verdict: raw::verdict,
    judge: raw::judge,
    move_claim: raw::move_claim,
    build: raw::build,
    move_kept: raw::move_kept,
    quick: raw::quick,
};

pub const FAST: Side = Side {
    read: fast::read,
    write: fast::write,
    table: fast::table,
    verdict: fast::verdict,
    judge: fast::judge,
    move_claim: fast::move_claim,
    build: fast::build,
    move_kept: fast::move_kept,
    quick: fast::quick,
};

#[derive(Clone, Copy, PartialEq, Eq, Debug)]
pub enum Entry {
    Read,
    Write,
    Table,
    Verdict,
    Judge(Which),
    Move,
    Build,
    MoveKept,
    Quick,
}

impl fmt::Display for Entry {
    /// As it stands in the report.
    fn fmt(&self, out: &mut fmt::Formatter<'_>) -> fmt::Result {
        match self {
            Entry::Judge(which) => write!(out, "Judge, {}", which.words()),
            Entry::MoveKept => out.write_str("Move, rows kept"),
            other => write!(out, "{other:?}"),
        }
    }
}

impl Entry {
    /// Whether it moves claims.
    pub fn moves(self) -> bool {
        matches!(self, Entry::Move | Entry::MoveKept)
    }

    /// How many calls a run makes.
    pub fn calls(self, inputs: &Inputs) -> usize {
        if self.moves() {
            inputs.moves.len()
        } else {
            inputs.plans.len()
        }
    }
}

/// What the lists hold before a round: no entry's answer.
const FILLER: u8 = 0xa5;
/// Room beyond what is needed, which has to stay as it was.
const SPARE: usize = 3;

/// The lists lent for one plan.
#[derive(PartialEq, Eq, Clone)]
pub struct Lists {
    plan: Vec<u32>,
    text: Vec<u8>,
    sets: Vec<u32>,
    rows: Vec<u32>,
    held: Vec<u32>,
    order: Vec<u16>,
}

/// What a side was lent and what it answered.
#[derive(PartialEq, Eq)]
pub struct Lent {
    pub lists: Vec<Lists>,
    pub answers: Vec<u64>,
}

impl Lists {
    /// For a move the lists are the plan and what is kept beside it; else they are blank.
    fn new(input: &Input, entry: Entry) -> Lists {
        if entry.moves() {
            return Lists {
                plan: input.plan.clone(),
                sets: input.table.clone(),
                rows: input.rows.clone(),
                held: input.held.clone(),
                text: Vec::new(),
                order: Vec::new(),
            };
        }
        let room = input.plan.len() + SPARE;
        Lists {
            rows: vec![u32::from(FILLER); input.rows.len() + SPARE],
            held: vec![u32::from(FILLER); input.held.len() + SPARE],
            plan: vec![u32::from(FILLER); room],
            text: vec![FILLER; input.text.len() + SPARE],
            sets: vec![u32::from(FILLER); room],
            order: vec![u16::from(FILLER); room],
        }
    }
}

impl Lent {
    pub fn new(inputs: &Inputs, entry: Entry) -> Lent {
        let lists = inputs.plans.iter().map(|input| Lists::new(input, entry)).collect();
        Lent { lists, answers: Vec::with_capacity(entry.calls(inputs)) }
    }
}

impl Side {
    /// One run of an entry over all inputs of a size, and its time.
    pub fn run(&self, entry: Entry, inputs: &Inputs, lent: &mut Lent) -> Duration {
        let before = Instant::now();
        if entry.moves() {
            self.moves(entry, inputs, lent);
        } else {
            self.calls(entry, inputs, lent);
        }
        before.elapsed()
    }

    fn calls(&self, entry: Entry, inputs: &Inputs, lent: &mut Lent) {
        for (input, lists) in inputs.plans.iter().zip(&mut lent.lists) {
            let plan = black_box(&input.plan[..]);
            lent.answers.push(match entry {
                Entry::Read => (self.read)(black_box(&input.text), &mut lists.plan),
                Entry::Write => (self.write)(plan, &mut lists.text),
                Entry::Table => (self.table)(plan, &mut lists.sets),
                Entry::Judge(which) => (self.judge)(plan, black_box(input.orders.list(which))),
                Entry::Build => {
                    (self.build)(plan, &mut lists.sets, &mut lists.rows, &mut lists.held)
                }
                Entry::Quick => (self.quick)(plan, black_box(&input.rows)),
                _ => (self.verdict)(plan, &mut lists.order),
            });
        }
    }

    fn moves(&self, entry: Entry, inputs: &Inputs, lent: &mut Lent) {
        for &Move { plan, line, device } in &inputs.moves {
            let Lists { plan, sets, rows, held, .. } = &mut lent.lists[plan];
            lent.answers.push(match entry {
                Entry::MoveKept => (self.move_kept)(plan, sets, rows, held, line, device),
                _ => (self.move_claim)(plan, sets, line, device),
            });
        }
    }
}
