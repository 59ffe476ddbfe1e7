//! Reading and writing plans as text.

use super::scan::{test, Noted, Present};
use super::{job, kind, operand, refusal, DO, GIVE, LINES, START, TAKE};

/// The most bytes of a text.
const BYTES: usize = 12_288;

/// A text into packed numbers: the number of lines. Each line is tested as it comes, and goes into a local list until
/// all have passed.
pub fn read(text: &[u8], plan: &mut [u32]) -> u64 {
    if text.len() > BYTES {
        return refusal(1, 0);
    }
    let mut lines = [0; LINES];
    let count = match gather(text, &mut lines) {
        Ok(count) => count,
        Err(refusal) => return refusal,
    };
    let Some(plan) = plan.get_mut(..count) else {
        return refusal(11, count);
    };
    plan.copy_from_slice(&lines[..count]);
    count as u64
}

/// The lines of a text, with the tests: how many they are.
fn gather(text: &[u8], lines: &mut [u32; LINES]) -> Result<usize, u64> {
    let (mut present, mut noted) = (Present::default(), Noted::new());
    let mut rest = text;
    let mut count = 0;
    while !rest.is_empty() {
        if count == LINES {
            return Err(refusal(3, LINES + 1));
        }
        let Some((line, past)) = line_at(rest) else {
            return Err(refusal(2, count + 1));
        };
        present.line(&mut noted, line, count + 1)?;
        lines[count] = line;
        count += 1;
        rest = past;
    }
    present.end(&noted)?;
    Ok(count)
}

/// The packed number of the line in front, with what stands past it. Job and operand are up to 255 here; their ranges
/// are tested with the packed number.
fn line_at(text: &[u8]) -> Option<(u32, &[u8])> {
    let (job, text) = number_at(text, b'\t')?;
    let (kind, text) = verb_at(text)?;
    let (operand, text) = number_at(text, b'\n')?;
    Some((job * 1_024 + kind * 256 + operand, text))
}

/// The kind of the verb in front, which a tab ends.
fn verb_at(text: &[u8]) -> Option<(u32, &[u8])> {
    match text {
        [b'd', b'o', b'\t', past @ ..] => Some((DO, past)),
        [b't', b'a', b'k', b'e', b'\t', past @ ..] => Some((TAKE, past)),
        [b'g', b'i', b'v', b'e', b'\t', past @ ..] => Some((GIVE, past)),
        [b's', b't', b'a', b'r', b't', b'\t', past @ ..] => Some((START, past)),
        _ => None,
    }
}

/// The number in front, up to 255, without leading noughts, which this byte ends.
fn number_at(text: &[u8], end: u8) -> Option<(u32, &[u8])> {
    let value = |digit: &u8| u32::from(digit - b'0');
    match text {
        [a @ b'0'..=b'9', e, past @ ..] if *e == end => Some((value(a), past)),
        [a @ b'1'..=b'9', b @ b'0'..=b'9', e, past @ ..] if *e == end => {
            Some((value(a) * 10 + value(b), past))
        }
        [a @ b'1'..=b'9', b @ b'0'..=b'9', c @ b'0'..=b'9', e, past @ ..] if *e == end => {
            let number = value(a) * 100 + value(b) * 10 + value(c);
            (number <= 255).then_some((number, past))
        }
        _ => None,
    }
}

/// A packed plan into text: the number of bytes.
pub fn write(plan: &[u32], text: &mut [u8]) -> u64 {
    if let Err(refusal) = test(plan) {
        return refusal;
    }
    let mut made = [0; BYTES];
    let mut at = 0;
    for &line in plan {
        at = put_line(&mut made, at, line);
    }
    let Some(text) = text.get_mut(..at) else {
        return refusal(11, at);
    };
    text.copy_from_slice(&made[..at]);
    at as u64
}

/// Puts a line behind what is made: the place past it.
fn put_line(made: &mut [u8; BYTES], at: usize, line: u32) -> usize {
    let at = put_number(made, at, job(line) as u8);
    let at = match kind(line) {
        TAKE => put(made, at, b"\ttake\t"),
        GIVE => put(made, at, b"\tgive\t"),
        START => put(made, at, b"\tstart\t"),
        _ => put(made, at, b"\tdo\t"),
    };
    let at = put_number(made, at, operand(line) as u8);
    put(made, at, b"\n")
}

fn put_number(made: &mut [u8; BYTES], at: usize, number: u8) -> usize {
    let (hundreds, tens, ones) = (b'0' + number / 100, b'0' + number / 10 % 10, b'0' + number % 10);
    match number {
        0..10 => put(made, at, &[ones]),
        10..100 => put(made, at, &[tens, ones]),
        100.. => put(made, at, &[hundreds, tens, ones]),
    }
}

fn put<const N: usize>(made: &mut [u8; BYTES], at: usize, word: &[u8; N]) -> usize {
    made[at..at + N].copy_from_slice(word);
    at + N
}
