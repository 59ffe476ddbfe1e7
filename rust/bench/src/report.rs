//! What is printed, in Markdown: the machine, the inputs, the times and ratios, and the growth. The table of the circle
//! search stands in `circles.rs`, that of moves with the verdict after each in `mornings.rs`.

use crate::circles::Circles;
use crate::damaged::{Counts, TRIED};
use crate::inputs::{Inputs, Make, MOVES};
use crate::mornings::Mornings;
use crate::sides::Entry;
use crate::times::{ratio, Pair, Times};
use std::collections::BTreeMap;
use std::process::Command;

/// What one entry took at one size.
pub struct OfSize {
    lines: usize,
    again: bool,
    times: Times,
    /// The answers of the last round.
    answers: Vec<u64>,
}

/// What one entry took at all sizes.
pub struct Figures {
    entry: Entry,
    pub sizes: Vec<OfSize>,
}

impl OfSize {
    pub fn add(&mut self, pair: Pair, answers: Vec<u64>, calls: usize) {
        self.times.add(pair, calls);
        self.answers = answers;
    }
}

impl Figures {
    pub fn new(entry: Entry, sizes: &[Inputs]) -> Figures {
        let of_size = |inputs: &Inputs| OfSize {
            lines: inputs.lines,
            again: inputs.again,
            times: Times::default(),
            answers: Vec::new(),
        };
        Figures { entry, sizes: sizes.iter().map(of_size).collect() }
    }
}

/// How many of the takes are of what the job holds.
pub fn share(again: bool) -> &'static str {
    match again {
        true => "a fifth",
        false => "none",
    }
}

/// How answers came out, by their refusals.
pub fn counted<'a>(answers: impl IntoIterator<Item = &'a u64>) -> String {
    let mut counts: BTreeMap<u64, usize> = BTreeMap::new();
    for answer in answers {
        *counts.entry(answer >> 32).or_default() += 1;
    }
    let words = counts.iter().map(|(&number, &count)| came_out(number, count));
    words.collect::<Vec<String>>().join(", ")
}

/// How often a refusal was given, 0 being none.
fn came_out(number: u64, count: usize) -> String {
    match number {
        0 => format!("{count} accepted"),
        _ => format!("{count} refused by {number}"),
    }
}

/// All that was found.
#[derive(Default)]
pub struct Report {
    pub tried: Counts,
    pub makes: Vec<(usize, Make)>,
    pub figures: Vec<Figures>,
    pub mornings: Mornings,
    pub circles: Circles,
}

impl Report {
    pub fn print(&self) {
        for (lines, make) in &self.makes {
            println!(
                "- {lines} lines: {} plans, together {} takes, {} of what the job holds and {} lasting, up to {} open \
                 at once, starts up to {} deep",
                make.plans, make.takes, make.again, make.lasting, make.deepest_take, make.deepest_start
            );
        }
        println!(
            "\n| entry | lines | taken again | ours, ns | fast, ns | ours/fast |\n|---|---:|---|---:|---:|---:|"
        );
        for Figures { entry, sizes } in &self.figures {
            for OfSize { lines, again, times, .. } in sizes {
                println!("| {entry} | {lines} | {} | {} |", share(*again), times.cells(0));
            }
        }
        self.print_growth();
        self.print_moves();
        self.mornings.print();
        self.circles.print();
        println!("\nAnswers and lists were compared in every round: no difference.");
        self.print_tried();
    }

    /// How the plans of all kinds came out.
    fn print_tried(&self) {
        println!("So they were on {TRIED} plans of all kinds, whole and damaged. How often each entry refused:\n");
        let entries =
            ["read", "write", "table", "verdict", "judge", "move", "build", "move_kept", "quick"];
        for entry in entries {
            let of_entry = self.tried.iter().filter(|((name, _), _)| *name == entry);
            let words: Vec<String> =
                of_entry.map(|((_, number), count)| came_out(*number, *count)).collect();
            println!("- {entry}: {}", words.join(", "));
        }
    }

    /// By how much each entry's time grows from the smallest plans to the largest of the same kind.
    fn print_growth(&self) {
        println!("\n| entry | lines | ours | fast |\n|---|---|---:|---:|");
        for Figures { entry, sizes } in &self.figures {
            let mut alike = sizes.iter().filter(|of| of.again);
            if let (Some(small), Some(large)) = (alike.next(), alike.next_back()) {
                let ours = ratio(&large.times.ours, &small.times.ours);
                let fast = ratio(&large.times.fast, &small.times.fast);
                let (from, to) = (small.lines, large.lines);
                println!("| {entry} | {from} to {to} | {ours:.2} | {fast:.2} |");
            }
        }
    }

    /// How the moves came out.
    fn print_moves(&self) {
        println!("\nOf the {MOVES} moves a size:\n");
        let moves = self.figures.iter().filter(|of| of.entry == Entry::Move);
        for of in moves.flat_map(|of| &of.sizes) {
            let (lines, again) = (of.lines, share(of.again));
            println!("- {lines} lines, {again} taken again: {}", counted(&of.answers));
        }
    }
}

/// The machine and how the run goes.
pub fn heading(seed: u64, rounds: usize) {
    let cpu = std::fs::read_to_string("/proc/cpuinfo").unwrap_or_default();
    let model = cpu.lines().find(|line| line.starts_with("model name"));
    let model = model.and_then(|line| line.split_once(": ")).map_or("unknown", |(_, model)| model);
    let rustc = Command::new("rustc").arg("--version").output();
    let rustc = rustc.map(|out| String::from_utf8_lossy(&out.stdout).trim().to_string());
    println!("- processor: {model}");
    println!("- compiler of the fast version: {}", rustc.unwrap_or("unknown".into()));
    println!("- seed {seed}, {rounds} rounds (a tenth of them for moves), the two sides in turn");
    println!("- medians, a plan or, for moves, a move; the plans of each size have as many lines together");
    println!("- lists are filled anew before each round, outside the time");
}
