//! Texts that are hardly plans: random bytes, bytes and lines such as plans are made of, and texts
//! at and over the longest. The paragraph is "The plan as text" of document 01, with the cases 1
//! to 3 of "Refusal numbers".

use crate::entries;
use crate::plans::{any_plan, room, screen_room};
use crate::run::Run;
use second::damage::{any_line, spelt};
use second::line::LINES;
use second::random::Random;
use second::read::{write, TEXT};

/// The bytes that plans are made of.
const ALPHABET: &[u8] = b"0123456789\t\t\n\ndotakegivestart";

/// So many bytes, of any kind or of those above.
fn bytes(random: &mut Random, length: usize) -> Vec<u8> {
    let any = random.once_in(2);
    let byte = |_| if any { random.bits() as u8 } else { random.one_of(ALPHABET) };
    (0..length).map(byte).collect()
}

/// Lines of the right spelling in no order.
fn lines(random: &mut Random, count: usize) -> Vec<u8> {
    let jobs = 1 + random.below(3);
    let list: Vec<u32> = (0..count).map(|_| any_line(random, jobs).packed()).collect();
    spelt(&list)
}

/// A plan that goes on until the text has at least so many bytes, with no more lines than may be.
fn long_text(random: &mut Random, least: usize) -> Vec<u8> {
    let mut text = write(&any_plan(random));
    while text.len() < least {
        // A code of three digits makes the text reach its length in fewer lines.
        text.extend(b"64\tdo\t200\n");
    }
    text
}

/// A text at or over an edge: by bytes, by lines, or by nothing at all.
fn edge(random: &mut Random) -> Vec<u8> {
    let length = random.one_of(&[TEXT - 1, TEXT, TEXT + 1, TEXT + 2, 2 * TEXT, 40_000]);
    match random.below(6) {
        0 => bytes(random, length),
        1 => vec![random.one_of(b"\n1\t\0x"); length],
        2 => {
            let mut text = long_text(random, length);
            text.truncate(length);
            text
        }
        3 => long_text(random, length),
        4 => {
            // After line 1,024 anything at all is too much, a single byte as well.
            let mut text = b"1\tdo\t0\n".repeat(LINES - random.below(2));
            let tail = random.below(4);
            text.extend(bytes(random, tail));
            text
        }
        _ => Vec::new(),
    }
}

/// A text of one of these kinds.
pub fn any_text(random: &mut Random) -> Vec<u8> {
    match random.below(8) {
        0 => edge(random),
        1 | 2 => {
            let length = random.below(400);
            bytes(random, length)
        }
        3 => {
            let mut text = write(&any_plan(random));
            let tail = random.below(20);
            text.extend(bytes(random, tail));
            text
        }
        _ => {
            let count = random.below(8);
            lines(random, count)
        }
    }
}

/// The two entries that take texts.
pub fn texts(run: &mut Run) {
    for _ in 0..20_000 {
        let text = any_text(&mut run.random);
        let lines = text.iter().filter(|&&byte| byte == b'\n').count();
        let for_read = room(&mut run.random, lines);
        let _ = entries::read(run, &text, for_read);
        let for_screen = screen_room(&mut run.random);
        entries::screen(run, &text, for_screen);
    }
}
