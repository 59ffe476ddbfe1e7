//! Plans for the tests, written the short way: "1 start 2; 1 take 1"; and moves of them.

use second::line::pack;
use second::listed::text;
use second::plain::{move_claim, table};
use second::read::read;
use second::{Line, Refusal};

/// A plan that is well-formed.
#[allow(dead_code)]
pub fn plan(short: &str) -> Vec<Line> {
    read(&text(short)).expect("the plan is well-formed")
}

/// The same, packed.
#[allow(dead_code)]
pub fn packed(short: &str) -> Vec<u32> {
    pack(&plan(short))
}

/// A refusal.
#[allow(dead_code)]
pub fn refusal(number: u32, place: u64) -> Refusal {
    Refusal { number, place }
}

/// A packed plan with its own table.
#[allow(dead_code)]
pub fn both(short: &str) -> (Vec<u32>, Vec<u32>) {
    (packed(short), table(&plan(short)))
}

/// What an accepted move leaves in plan and table, and its count.
pub type Moved = (Vec<u32>, Vec<u32>, u32);

/// Moves on copies of the lists. A refusal must leave both alone.
#[allow(dead_code)]
pub fn moved(plan: &[u32], sets: &[u32], line: u32, device: u32) -> Result<Moved, Refusal> {
    let (mut new_plan, mut new_sets) = (plan.to_vec(), sets.to_vec());
    match move_claim(&mut new_plan, &mut new_sets, line, device) {
        Ok(changed) => Ok((new_plan, new_sets, changed)),
        Err(refusal) => {
            assert_eq!((&new_plan[..], &new_sets[..]), (plan, sets));
            Err(refusal)
        }
    }
}
