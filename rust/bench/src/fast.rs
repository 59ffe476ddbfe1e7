//! The nine entries once more in Rust, written plainly and for speed: what the library's times are held against.
//!
//! Each takes what the library's entry of that name takes, tests the same cases in the same order, and answers with
//! the same 64-bit number. A refusal leaves every lent list as it was. Sets of devices and of jobs are words, working
//! space is local arrays of fixed size; there is no heap, no hashing and no unsafe code. The circle search, which is no
//! entry, can be called by itself too. One thing alone is otherwise than in the library: the move that keeps the rows
//! makes all of them anew, so that it is the same where they are the plan's own, as they are in what is timed.

mod claims;
mod judge;
mod kept;
mod moving;
mod scan;
mod text;
mod verdict;

pub use claims::table;
pub use judge::judge;
pub use kept::{build, move_kept, quick};
pub use moving::move_claim;
pub use text::{read, write};
pub use verdict::{circles, verdict};

/// The most lines of a plan.
const LINES: usize = 1_024;

const DO: u32 = 0;
const TAKE: u32 = 1;
const GIVE: u32 = 2;
const START: u32 = 3;

/// A refusal as an answer: the number in the upper half, the place in the lower.
fn refusal(number: u64, place: usize) -> u64 {
    number << 32 | place as u64
}

fn job(line: u32) -> usize {
    (line / 1_024) as usize
}

fn kind(line: u32) -> u32 {
    line / 256 % 4
}

fn operand(line: u32) -> usize {
    (line % 256) as usize
}

/// The set of the device of a take or give.
fn device(line: u32) -> u32 {
    1 << operand(line)
}

/// The set of one job, job 1 being bit 0.
fn only_job(job: usize) -> u64 {
    1 << (job - 1)
}
