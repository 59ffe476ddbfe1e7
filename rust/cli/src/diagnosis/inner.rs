//! Inner gives: each belongs to a take that takes again what its job holds, and the job holds the device after it too.
//! Who looks for the give of a device may take such a one for it.

use gimmerskip::{Holds, MAX_LINES};

/// The latest inner give of the device that an outermost take holds, of those that pass, in a sentence.
pub fn told(
    holds: &Holds,
    take: u16,
    device: &str,
    passes: impl Fn(u16) -> bool,
) -> Option<String> {
    let lines = (take..=MAX_LINES as u16).rev();
    let mut gives = lines.filter_map(|line| Some((line, holds.take_of(line)?)));
    let (give, again) = gives.find(|&(give, again)| {
        holds.outermost(give) == Some(take) && again != take && passes(give)
    })?;
    Some(format!(
        "Line {give} is an inner give: it belongs to line {again}, which takes {device} again."
    ))
}
