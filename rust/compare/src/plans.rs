//! The plans and texts that the comparisons draw: small ones, planted rings, and plans up to the
//! limits that "The plan as text" of document 01 sets, right and damaged; and the lengths of lists
//! that are lent for them.

use second::damage::{damaged_packed, damaged_text, spelt};
use second::line::{pack, LINES};
use second::plain::SCREEN;
use second::random::{deep_wish, plan, ring, share, take_again, wish, Cut, Random, Wish};
use second::Line;

/// A planted ring, whole or cut, in which devices may be taken again.
pub fn any_ring(random: &mut Random) -> Vec<Line> {
    let length = 1 + random.below(6);
    let cut = random.one_of(&[Cut::Whole, Cut::Whole, Cut::LeftOut, Cut::GivenBack]);
    let mut plan = ring(random, length, cut);
    for _ in 0..random.below(3) {
        plan = take_again(random, &plan);
    }
    plan
}

/// A plan up to the limits in which a device is taken again and again.
pub fn deep_plan(random: &mut Random) -> Vec<Line> {
    let wish = deep_wish(random);
    plan(random, wish)
}

/// A plan up to the limits. Most rise, for a long plan that does not rise holds a circle nearly
/// always.
pub fn long_plan(random: &mut Random) -> Vec<Line> {
    if random.once_in(16) {
        return deep_plan(random);
    }
    let lines = if random.once_in(4) { LINES } else { 1 + random.below(LINES) };
    let wish = Wish {
        lines,
        jobs: (1 + random.below(64)).min(lines),
        devices: 1 + random.below(32),
        single: !random.once_in(8),
        rising: !random.once_in(8),
        lasting: 2 + random.below(8),
        again: share(random),
    };
    plan(random, wish)
}

/// A plan of a dozen lines or some dozens.
pub fn short_plan(random: &mut Random) -> Vec<Line> {
    let most_lines = random.one_of(&[12, 60]);
    let wish = wish(random, most_lines, 10, 8);
    plan(random, wish)
}

/// Any plan of those above.
pub fn any_plan(random: &mut Random) -> Vec<Line> {
    match random.below(6) {
        0 => any_ring(random),
        1 | 2 => long_plan(random),
        _ => short_plan(random),
    }
}

/// The plan as a packed list and as a text, right in two of five cases and else damaged, each in
/// its own way or both alike.
pub fn forms(random: &mut Random, plan: &[Line]) -> (Vec<u32>, Vec<u8>) {
    let packed = pack(plan);
    let text = spelt(&packed);
    match random.below(5) {
        0 | 1 => (packed, text),
        2 => (damaged_packed(random, &packed), damaged_text(random, &text)),
        3 => {
            let damaged = damaged_packed(random, &packed);
            let text = spelt(&damaged);
            (damaged, text)
        }
        _ => {
            let once = damaged_packed(random, &packed);
            let text = damaged_text(random, &text);
            (damaged_packed(random, &once), cut_text(random, text))
        }
    }
}

/// The text, cut off at some place.
fn cut_text(random: &mut Random, mut text: Vec<u8>) -> Vec<u8> {
    text.truncate(random.below(text.len() + 1));
    text
}

/// The length of a list to lend where so much is needed: mostly just that, at times one less or
/// one more, nothing, or anything.
pub fn room(random: &mut Random, needed: usize) -> usize {
    match random.below(10) {
        0 => 0,
        1 => needed.saturating_sub(1),
        2 => needed + 1,
        3 => random.below(needed + 1),
        4 => needed + random.below(300),
        _ => needed,
    }
}

/// The length of a buffer to lend to the screens' entry.
pub fn screen_room(random: &mut Random) -> usize {
    match random.below(12) {
        0 => SCREEN - 1,
        1 => random.below(SCREEN),
        2 => SCREEN + 1,
        3 => SCREEN + random.below(3_000),
        _ => SCREEN,
    }
}
