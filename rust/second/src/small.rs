//! Every small plan there is, for comparisons that leave none out.
//!
//! Reads, of document 01: "Rules of a well-formed plan", and of document 02: request 5, for resumed
//! plans, both by way of [`Rules`].

use crate::line::{Line, Verb, MIDDAY};
use crate::read::Rules;

/// How many there are of each number of lines, from none on; those of up to four are counted once
/// more, by other means, in the tests of the rules.
const COUNTS: [u64; 7] = [1, 3, 14, 73, 431, 2_778, 19_395];

/// How many resumed ones there are, likewise.
const RESUMED: [u64; 7] = [1, 5, 47, 447, 4_507, 47_953, 537_075];

/// How many plans `small_resumed` has to show.
pub fn how_many_resumed(most_lines: usize) -> u64 {
    RESUMED[..=most_lines].iter().sum()
}

/// How many plans `small_plans` has to show: a run that shows fewer has left some out.
pub fn how_many(most_lines: usize) -> u64 {
    COUNTS[..=most_lines].iter().sum()
}

/// Shows every well-formed plan of up to so many lines over two devices, with one action code for
/// all: codes have no effect on devices.
pub fn small_plans(most_lines: usize, show: &mut dyn FnMut(&[Line])) {
    let two = [Verb::Take(0), Verb::Take(1), Verb::Give(0), Verb::Give(1)];
    let verbs = with_starts(&two, most_lines);
    grown(&Rules::default(), 0, &verbs, most_lines, show);
}

/// Shows every resumed plan of up to so many lines over two devices, those of the morning among them.
pub fn small_resumed(most_lines: usize, show: &mut dyn FnMut(&[Line])) {
    let of_two = |device| [Verb::Take(device), Verb::Give(device), Verb::Held(device)];
    let two = [of_two(0), of_two(1)].concat();
    let verbs = with_starts(&two, most_lines);
    grown(&Rules::by(MIDDAY), 0, &verbs, most_lines, show);
}

/// These verbs with the action, and with the starts that can be. A plan has no more jobs than lines.
fn with_starts(verbs: &[Verb], most_lines: usize) -> Vec<Verb> {
    let starts = (2..=most_lines as u8).map(Verb::Start);
    [Verb::Do(0)].into_iter().chain(verbs.iter().copied()).chain(starts).collect()
}

/// Grows lists line by line: one that the rules refuse has no well-formed list below it, but for
/// what is judged at the end.
fn grown(
    rules: &Rules,
    lines: usize,
    verbs: &[Verb],
    most_lines: usize,
    show: &mut dyn FnMut(&[Line]),
) {
    if let Ok(plan) = rules.clone().end() {
        show(&plan);
    }
    if lines == most_lines {
        return;
    }
    for &verb in verbs {
        for job in 1..=most_lines as u8 {
            let mut longer = rules.clone();
            if longer.add(Line { job, verb }).is_ok() {
                grown(&longer, lines + 1, verbs, most_lines, show);
            }
        }
    }
}
