//! Plans in which given rows are planted: a job for each device with a row, which takes the device to
//! the end and after it all that the row has.
//!
//! Reads, of document 01: "Claims and rows", and "Rules of a well-formed plan", so that everything made
//! here keeps them; of document 02: request 2, by which what a job takes again is in no row.

use crate::line::{Line, LINES};
use crate::plain::{members, Rows};
use crate::random::{Random, Sketch, Step};
use std::cmp::Reverse;

/// How the jobs stand to each other.
#[derive(Clone, Copy, Debug, PartialEq, Eq)]
pub enum Layout {
    /// The first starts all others, above its own take, so that none counts in the row of another.
    Apart,
    /// A job starts that of another device where its row has this device and all that it leads to. Rows
    /// that have much in common so need few lines.
    Nested,
}

/// A plan with these rows, and with no device held twice; none where it would have too many lines.
/// Jobs have random names, and what a row has is taken in any order, side by side or one inside the
/// other. Some devices without a row are held to the end, too.
pub fn planted(random: &mut Random, rows: &Rows, layout: Layout) -> Option<Vec<Line>> {
    let kept = random.bits() as u32 & random.bits() as u32;
    let mut waiting = random.devices(rows.len());
    waiting.retain(|&device| rows[usize::from(device)] != 0 || kept >> device & 1 == 1);
    waiting.sort_by_key(|&device| Reverse(rows[usize::from(device)].count_ones()));
    let mut planting = Planting { random, rows, layout, waiting, jobs: Vec::new() };
    let mut started = Vec::new();
    while let Some(&device) = planting.waiting.first() {
        started.push(planting.job(device));
    }
    let mut jobs = planting.jobs;
    let Some(first) = jobs.first_mut() else {
        return Some(Vec::new());
    };
    first.splice(0..0, started.into_iter().skip(1).map(Step::Start));
    let lines: usize = jobs.iter().map(Vec::len).sum();
    (lines <= LINES).then(|| Sketch { jobs }.numbered(random))
}

/// A plan while it is being made.
struct Planting<'a> {
    random: &'a mut Random,
    rows: &'a Rows,
    layout: Layout,
    /// The devices that are to be held to the end and have no job yet, those with the largest rows first.
    waiting: Vec<u8>,
    /// The jobs: one for each device, and at most one more for it, so that 64 are enough.
    jobs: Vec<Vec<Step>>,
}

impl Planting<'_> {
    /// Makes the job of a device, with those that it starts: its place.
    fn job(&mut self, device: u8) -> usize {
        self.waiting.retain(|&other| other != device);
        let place = self.put(Vec::new());
        let row = self.rows[usize::from(device)];
        let (mut steps, mut left) = (vec![Step::Take(device)], row);
        while let Some(other) = self.to_start(row, left) {
            let started = self.job(other);
            self.insert(&mut steps, &[Step::Start(started)]);
            left &= !(1 << other | self.rows[usize::from(other)]);
        }
        for member in members(left).map(|member| member as u8) {
            let pair = [Step::Take(member), Step::Give(member)];
            if member == device {
                // By this job it would be taken again.
                let errand = self.put(pair.to_vec());
                self.insert(&mut steps, &[Step::Start(errand)]);
            } else {
                self.insert(&mut steps, &pair);
            }
        }
        self.jobs[place] = steps;
        place
    }

    /// A device whose job can be started under the take of one with this row, of which so much is left.
    fn to_start(&self, row: u32, left: u32) -> Option<u8> {
        let fits =
            |&device: &u8| left >> device & 1 == 1 && self.rows[usize::from(device)] & !row == 0;
        self.waiting.iter().copied().find(fits).filter(|_| self.layout == Layout::Nested)
    }

    /// Puts a job behind the others: its place.
    fn put(&mut self, steps: Vec<Step>) -> usize {
        self.jobs.push(steps);
        self.jobs.len() - 1
    }

    /// Puts steps together at any place below the take.
    fn insert(&mut self, steps: &mut Vec<Step>, more: &[Step]) {
        let place = 1 + self.random.below(steps.len());
        steps.splice(place..place, more.iter().copied());
    }
}
