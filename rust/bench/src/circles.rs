//! The circle search by itself, ours beside the fast one, on rows of many shapes, which no plan need have.

mod families;

use crate::times::{in_turn, Pair, Times};
use bench::fast;
use families::{ring, Family};
use second::plain::Rows;
use second::random::Random;
use std::hint::black_box;
use std::time::{Duration, Instant};

/// How often the rows of a family are gone through in one timing: so often that it is long beside what the clock can
/// tell, and no more, since the processor would learn them by heart, and a verdict searches its rows once.
const PASSES: usize = 2;

/// The search of a side.
type Search = fn(&Rows) -> u32;

/// The times of all families.
#[derive(Default)]
pub struct Circles {
    families: Vec<(Family, Times)>,
    /// Rings, by their length from 1 on, with natural numbers and with shuffled ones.
    rings: Vec<[(Family, Times); 2]>,
}

/// Goes through the rows of a family, and keeps the answers of the last time. The search is called through a pointer,
/// so that it does not grow into the loop that times it.
fn search(side: Search, rows: &[Rows], answers: &mut Vec<u32>) -> Duration {
    let (side, before) = (black_box(side), Instant::now());
    for _ in 0..PASSES {
        answers.clear();
        for rows in rows {
            answers.push(side(black_box(rows)));
        }
        black_box(&answers);
    }
    before.elapsed()
}

/// One round of both sides on a family.
fn round(family: &Family, ours_first: bool) -> Result<Pair, String> {
    let room = || Vec::with_capacity(family.rows.len());
    let (mut ours, mut fast) = (room(), room());
    let times = in_turn(
        ours_first,
        || search(bare::circles, &family.rows, &mut ours),
        || search(fast::circles, &family.rows, &mut fast),
    );
    match (0..family.rows.len()).find(|&at| ours[at] != fast[at]) {
        None => Ok(times),
        Some(at) => {
            let (name, rows) = (&family.name, &family.rows[at]);
            Err(format!("circles, {name}: the answers differ for {rows:?}"))
        }
    }
}

impl Circles {
    /// Times both sides. Every round goes through all families; which side goes first changes from round to round.
    pub fn measure(random: &mut Random, rounds: usize) -> Result<Circles, String> {
        let timed = |family: Family| (family, Times::default());
        let families = families::all(random).into_iter().map(timed).collect();
        let rings = (1..=32).map(|length| ring(random, length).map(timed)).collect();
        let mut circles = Circles { families, rings };
        for number in 0..rounds {
            let rings = circles.rings.iter_mut().flatten();
            for (family, times) in circles.families.iter_mut().chain(rings) {
                let pair = round(family, number % 2 == 0)?;
                times.add(pair, PASSES * family.rows.len());
            }
        }
        Ok(circles)
    }

    /// The two tables.
    pub fn print(&self) {
        println!("\nThe circle search by itself, a call:\n");
        println!("| rows | numbered | ours, ns | fast, ns | ours/fast |\n|---|---|---:|---:|---:|");
        for (family, times) in &self.families {
            println!("| {} | {} | {} |", family.name, family.numbering(), times.cells(1));
        }
        println!("\n| a ring of | ours, ns | fast, ns | ours/fast | shuffled: ours, ns | fast, ns | ours/fast |");
        println!("|---:|---:|---:|---:|---:|---:|---:|");
        for (length, [natural, shuffled]) in (1..).zip(&self.rings) {
            println!("| {length} | {} | {} |", natural.1.cells(1), shuffled.1.cells(1));
        }
    }
}
