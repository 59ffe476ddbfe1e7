//! A morning of moves with the verdict after each: the library's move that keeps the rows and its quick verdict, beside
//! the same two of the fast version, and beside the library's plain move and verdict.
//!
//! The moves are such as somebody makes who wants to keep an order. About one in fifty asks for anything: for a line
//! that may be no take and a device that may not be on the board, and is mostly refused. Of the others every other one
//! is of any take to any device, after which some plans have no order (9 or 10); the rest are drawn until the plan has
//! one still, but only so often. After a move that leaves a plan without an order the next one of that plan takes it
//! back. How many came out how is printed with the times.

use crate::inputs::{Input, Inputs, Move, MOVES};
use crate::report::{counted, share};
use crate::sides::{Side, FAST, OURS};
use crate::times::{a_call, median, ratio};
use bench::fast;
use second::random::Random;
use std::hint::black_box;
use std::time::{Duration, Instant};

/// A move that keeps the order is drawn so often at most.
const DRAWS: usize = 32;

/// What is lent for one plan.
#[derive(Clone)]
struct Desk {
    plan: Vec<u32>,
    sets: Vec<u32>,
    rows: Vec<u32>,
    held: Vec<u32>,
    order: Vec<u16>,
}

impl Desk {
    fn new(input: &Input) -> Desk {
        Desk {
            plan: input.plan.clone(),
            sets: input.table.clone(),
            rows: input.rows.clone(),
            held: input.held.clone(),
            order: vec![0; input.plan.len()],
        }
    }

    /// The answers to a move and to the quick verdict after it.
    fn kept(&mut self, side: &Side, to: Move) -> [u64; 2] {
        let Desk { plan, sets, rows, held, .. } = self;
        [(side.move_kept)(plan, sets, rows, held, to.line, to.device), (side.quick)(plan, rows)]
    }

    /// The answers to a move without rows, and to the verdict after it.
    fn plain(&mut self, side: &Side, to: Move) -> [u64; 2] {
        let Desk { plan, sets, order, .. } = self;
        [(side.move_claim)(plan, sets, to.line, to.device), (side.verdict)(plan, order)]
    }

    /// Whether table, rows and held set are the plan's own.
    fn is_own(&self) -> bool {
        let mut own = self.clone();
        own.sets.fill(0);
        fast::build(&self.plan, &mut own.sets, &mut own.rows, &mut own.held);
        (own.sets, own.rows, own.held) == (self.sets.clone(), self.rows.clone(), self.held.clone())
    }
}

/// A call on one desk: its two answers.
type Call = fn(&mut Desk, &Side, Move) -> [u64; 2];

/// The three sides, each with what it calls: ours with rows kept, the fast one, ours without rows.
const SIDES: [(Call, &Side); 3] = [(Desk::kept, &OURS), (Desk::kept, &FAST), (Desk::plain, &OURS)];

/// Draws the next move of the plan on a desk.
fn draw(random: &mut Random, plan: usize, desk: &Desk) -> Move {
    if random.once_in(50) {
        let line = 1 + random.below(desk.plan.len()) as u32;
        return Move { plan, line, device: random.below(64) as u32 };
    }
    let any = random.once_in(2);
    let keeps_order =
        |to: Move| desk.clone().kept(&FAST, to).iter().all(|answer| answer >> 32 == 0);
    let mut to = Move::new(random, plan, &desk.plan);
    for _ in 1..DRAWS {
        if any || keeps_order(to) {
            break;
        }
        to = Move::new(random, plan, &desk.plan);
    }
    to
}

/// The moves of a morning, which goes from plan to plan.
fn moves(random: &mut Random, inputs: &Inputs) -> Vec<Move> {
    let mut desks: Vec<Desk> = inputs.plans.iter().map(Desk::new).collect();
    let mut back = vec![None; desks.len()];
    let plans = (0..desks.len()).cycle().take(MOVES);
    let next = |plan: usize| {
        let desk = &mut desks[plan];
        let to = back[plan].take().unwrap_or_else(|| draw(random, plan, desk));
        let before = desk.plan.clone();
        let [moved, verdict] = desk.kept(&FAST, to);
        if moved >> 32 == 0 && verdict >> 32 != 0 {
            back[plan] = Some(Move { device: before[to.line as usize - 1] % 256, ..to });
        }
        to
    };
    plans.map(next).collect()
}

/// The answers of a side, and the desks as it has left them.
type Left = (Vec<[u64; 2]>, Vec<Desk>);

/// One side through the morning, with its time.
fn run(side: usize, inputs: &Inputs, moves: &[Move]) -> (Duration, Left) {
    let mut desks: Vec<Desk> = inputs.plans.iter().map(Desk::new).collect();
    let mut answers = Vec::with_capacity(moves.len());
    let (call, side) = black_box(SIDES[side]);
    let before = Instant::now();
    for &to in moves {
        answers.push(call(&mut desks[to.plan], side, to));
    }
    (before.elapsed(), (answers, desks))
}

/// What differs between the sides, if anything does: all have the same answers, plans and tables, and the two that keep
/// rows have the same rows and held sets, which are the plans' own.
fn difference(ours: &Left, fast: &Left, plain: &Left) -> Option<&'static str> {
    let lists = |desk: &Desk| (desk.plan.clone(), desk.sets.clone());
    let rows = |desk: &Desk| (desk.rows.clone(), desk.held.clone());
    let alike = |other: &Left| ours.1.iter().map(lists).eq(other.1.iter().map(lists));
    if ours.0 != fast.0 || ours.0 != plain.0 {
        return Some("the answers differ");
    }
    if !alike(fast) || !alike(plain) {
        return Some("plans or tables differ");
    }
    if !ours.1.iter().map(rows).eq(fast.1.iter().map(rows)) {
        return Some("rows or held sets differ");
    }
    (!ours.1.iter().all(Desk::is_own)).then_some("what was kept is not the plan's own")
}

/// The morning of one size.
struct OfSize {
    lines: usize,
    again: bool,
    moves: Vec<Move>,
    /// Nanoseconds for a move and the verdict after it, of each side, round by round.
    times: [Vec<f64>; 3],
    answers: Vec<[u64; 2]>,
}

impl OfSize {
    fn new(random: &mut Random, inputs: &Inputs) -> OfSize {
        let moves = moves(random, inputs);
        let times = [Vec::new(), Vec::new(), Vec::new()];
        OfSize { lines: inputs.lines, again: inputs.again, moves, times, answers: Vec::new() }
    }

    /// One round of all sides. Who goes first changes from round to round, and then who goes second.
    fn round(&mut self, inputs: &Inputs, number: usize) -> Result<(), String> {
        let mut turns = [0, 1, 2];
        turns.rotate_left(number % 3);
        if number / 3 % 2 == 1 {
            turns.reverse();
        }
        let mut ran = turns.map(|side| (side, run(side, inputs, &self.moves)));
        ran.sort_by_key(|(side, _)| *side);
        for (side, (time, _)) in &ran {
            self.times[*side].push(a_call(*time, self.moves.len()));
        }
        let [ours, fast, plain] = ran.map(|(_, (_, left))| left);
        if let Some(what) = difference(&ours, &fast, &plain) {
            return Err(format!("moves with verdicts, {} lines: {what}", self.lines));
        }
        self.answers = ours.0;
        Ok(())
    }

    /// The line of the table.
    fn print(&self) {
        let [kept, fast, plain] = &self.times;
        let medians = [kept, fast, plain].map(|times| median(times));
        println!(
            "| Move and verdict | {} | {} | {:.0} | {:.0} | {:.2} | {:.0} | {:.2} |",
            self.lines,
            share(self.again),
            medians[0],
            medians[1],
            ratio(kept, fast),
            medians[2],
            ratio(kept, plain)
        );
    }
}

/// The mornings of all sizes.
#[derive(Default)]
pub struct Mornings {
    sizes: Vec<OfSize>,
}

impl Mornings {
    /// Times all sides. Every round goes through all sizes.
    pub fn measure(
        random: &mut Random,
        sizes: &[Inputs],
        rounds: usize,
    ) -> Result<Mornings, String> {
        let mornings = sizes.iter().map(|inputs| OfSize::new(random, inputs)).collect();
        let mut mornings = Mornings { sizes: mornings };
        for number in 0..rounds {
            for (of_size, inputs) in mornings.sizes.iter_mut().zip(sizes) {
                of_size.round(inputs, number)?;
            }
        }
        Ok(mornings)
    }

    /// The table, and how moves and verdicts came out.
    pub fn print(&self) {
        println!("\nA move and then the verdict, with rows kept (ours and fast) and by the plain entries:\n");
        println!(
            "| | lines | taken again | ours, ns | fast, ns | ours/fast | plain, ns | ours/plain |"
        );
        println!("|---|---:|---|---:|---:|---:|---:|---:|");
        self.sizes.iter().for_each(OfSize::print);
        println!("\nOf these {MOVES} moves a size, and of the verdicts after them:\n");
        for OfSize { lines, again, answers, .. } in &self.sizes {
            let [moved, verdicts] =
                [0, 1].map(|which| counted(answers.iter().map(|pair| &pair[which])));
            let again = share(*again);
            println!("- {lines} lines, {again} taken again: moves {moved}; verdicts {verdicts}");
        }
    }
}
