//! The proved entries, by way of the archives that C and Rust callers link, held against the second
//! program, which read documents 01 and 02 apart from them. Every paragraph that an entry answers is
//! compared here; the files beside this one say which.
//!
//! Prints its seed, the number of calls and plans by class, and each check with its number of
//! comparisons. A difference is printed with all that was given and both answers. The seed is taken
//! from the environment variable SEED; without it, a fixed one is used. The programs `order` and
//! `judge` are looked for under the paths in ORDER and JUDGE; without them, where the build leaves
//! them. The last line counts the checks.

#![forbid(unsafe_code)]

mod asked;
mod bytes;
mod circles;
mod entries;
mod judge_texts;
mod judging;
mod keeping;
mod kept;
mod lent;
mod limits;
mod listed;
mod moves;
mod plans;
mod processes;
mod program;
mod run;
mod small;
mod wrapper;

use program::Program;
use run::Run;
use second::tally::seeded;
use std::process::ExitCode;
use std::time::Instant;

/// Runs one part and prints the time it took.
fn part(run: &mut Run, name: &str, part: impl FnOnce(&mut Run)) {
    let began = Instant::now();
    part(run);
    println!("{:>9.1} s  {name}", began.elapsed().as_secs_f64());
}

/// The program, if it is there.
fn there(run: &mut Run, program: Program) -> Option<Program> {
    processes::is_there(run, &program).then_some(program)
}

fn main() -> ExitCode {
    seeded(|seed| {
        let mut run = Run::new(seed);
        let order = there(&mut run, Program::order());
        let judge = there(&mut run, Program::judge());
        let (order_there, judge_there) = (order.as_ref(), judge.as_ref());
        part(&mut run, "listed plans", |run| listed::listed(run, order_there, judge_there));
        part(&mut run, "plans up to the limits", limits::plans);
        part(&mut run, "texts of any bytes", bytes::texts);
        part(&mut run, "random plans against all orders", small::random_plans);
        part(&mut run, "rings against all orders", small::rings);
        part(&mut run, "all small plans against all orders", small::all_plans);
        part(&mut run, "moves", moves::moves);
        part(&mut run, "moves that keep the rows", keeping::moves);
        part(&mut run, "quick verdicts", keeping::quick_verdicts);
        part(&mut run, "orders from elsewhere", judging::judged);
        if let Some(order) = order {
            let texts = std::mem::take(&mut run.texts);
            part(&mut run, "the program order", |run| processes::processes(run, &order, texts));
        }
        if let Some(judge) = judge {
            part(&mut run, "the program judge", |run| judge_texts::processes(run, &judge));
        }
        part(&mut run, "the wrapper", wrapper::wrapper);
        part(&mut run, "the circle search by itself", circles::by_itself);
        part(&mut run, "the circle search through the verdict", circles::through_verdict);
        println!();
        run.tally.print()
    })
}
