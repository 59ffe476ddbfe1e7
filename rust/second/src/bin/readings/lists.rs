//! Comparisons of what is read from damaged texts and packed lists, and of the entries that fill
//! lent lists. The paragraph is "Refusal numbers" of document 01, with its order and its lengths, and
//! for resumed plans request 5 of document 02.

use second::damage::damaged_text;
use second::line::{pack, Settings};
use second::plain::{self, table, verdict};
use second::random::{plan, wish, Random};
use second::read::{check_packed_by, read_by, write, Handed, Lines};
use second::resumed::{self, midday};
use second::tally::Tally;
use second::{Line, Refusal};
use std::collections::HashMap;
use std::fmt::Debug;

/// The packed numbers of all lines there are, by the bytes they are written with. A line has one
/// spelling only, so what is not in here is malformed.
fn all_lines(settings: Settings) -> HashMap<Vec<u8>, u32> {
    let line = |number| Line::unpacked_by(settings, number);
    let numbers = (0..=64 * 1_024 + 1_023).filter_map(line);
    numbers.map(|line| (write(&[line]), line.packed())).collect()
}

/// The text as a packed list that ends, where a line is malformed, in a number of no line.
fn packed_by_spelling(all_lines: &HashMap<Vec<u8>, u32>, text: &[u8]) -> Vec<u32> {
    let mut packed = Vec::new();
    for line in text.split_inclusive(|&byte| byte == b'\n') {
        let number = all_lines.get(line).copied();
        packed.push(number.unwrap_or(u32::MAX));
        if number.is_none() {
            break;
        }
    }
    packed
}

/// What is handed out of a text, as a packed list of the same kind.
fn packed_by_handing(settings: Settings, text: &[u8]) -> Vec<u32> {
    let mut packed = Vec::new();
    let mut lines = Lines::by(settings, text);
    loop {
        match lines.next_line() {
            Handed::Line(number) => packed.push(number),
            Handed::Refused(_) => {
                packed.push(u32::MAX);
                return packed;
            }
            Handed::End => return packed,
        }
    }
}

/// A plan of up to twelve lines, resumed by such settings.
fn some_plan(random: &mut Random, settings: Settings) -> Vec<Line> {
    if settings.resumed {
        let midday = midday(random, 12, 4, 3);
        return resumed::plan(random, midday);
    }
    let wish = wish(random, 12, 4, 3);
    plan(random, wish)
}

/// Holds the reading of damaged texts against the spelling of all lines, and against the reading
/// of packed lists.
pub fn damaged_texts(tally: &mut Tally, random: &mut Random, settings: Settings) {
    let all_lines = all_lines(settings);
    for _ in 0..30_000 {
        let plan = some_plan(random, settings);
        let mut text = damaged_text(random, &write(&plan));
        if random.once_in(2) {
            text = damaged_text(random, &text);
        }
        let packed = packed_by_spelling(&all_lines, &text);
        let name = "damaged texts: lines are handed out by their spelling";
        tally.compare(name, &plan, packed.clone(), packed_by_handing(settings, &text));
        let name = "damaged texts: refused alike as text and as packed list";
        let by_number = check_packed_by(settings, &packed);
        tally.compare(name, &plan, by_number, read_by(settings, &text));
    }
}

/// Lends an entry a list of some length and holds answer and list against what they should be. A
/// refusal leaves the list alone, and so does success with what lies past the entries.
fn compare_lent<T: Copy + From<u8> + PartialEq + Debug>(
    tally: &mut Tally,
    plan: &[Line],
    length: usize,
    wanted: Result<(usize, Vec<T>), Refusal>,
    entry: impl Fn(&mut [T]) -> Result<usize, Refusal>,
) {
    let mut filled = vec![T::from(0xa5); length];
    let mut lent = filled.clone();
    let answer = entry(&mut lent);
    if let Ok((_, entries)) = &wanted {
        filled[..entries.len()].copy_from_slice(entries);
    }
    let wanted = (wanted.map(|(answer, _)| answer), filled);
    tally.compare("lent lists: filled, or refused and left alone", plan, wanted, (answer, lent));
}

/// The list with its length, or refusal 11 where it would not fit.
fn fits<T>(list: Vec<T>, length: usize) -> Result<(usize, Vec<T>), Refusal> {
    match list.len() {
        needed if needed > length => Err(Refusal::at(11, needed)),
        needed => Ok((needed, list)),
    }
}

/// Compares the four entries that fill lists of lengths that may be too short.
fn compare_entries(
    tally: &mut Tally,
    settings: Settings,
    (packed, text): (&[u32], &[u8]),
    (length, bytes): (usize, usize),
) {
    let lines = check_packed_by(settings, packed);
    let plan = lines.clone().unwrap_or_default();
    let plan = plan.as_slice();
    let wanted = read_by(settings, text).and_then(|lines| fits(pack(&lines), length));
    compare_lent(tally, plan, length, wanted, |list| plain::read_into_by(settings, text, list));
    let wanted = lines.clone().and_then(|lines| fits(write(&lines), bytes));
    compare_lent(tally, plan, bytes, wanted, |list| plain::write_into_by(settings, packed, list));
    let wanted = lines.clone().and_then(|lines| fits(table(&lines), length));
    compare_lent(tally, plan, length, wanted, |list| plain::table_into_by(settings, packed, list));
    let is_step = |line: &Line| !line.is_held();
    let steps = |lines: &[Line]| lines.iter().copied().filter(is_step).collect::<Vec<Line>>();
    let fitting = lines.and_then(|lines| fits(steps(&lines), length).map(|_| lines));
    let order = fitting.and_then(|lines| verdict(&lines));
    let wanted = order.map(|order| (order.held as usize, order.lines));
    let entry =
        |list: &mut [u16]| plain::verdict_into_by(settings, packed, list).map(|held| held as usize);
    compare_lent(tally, plan, length, wanted, entry);
}

/// The entries with lent lists of all lengths, on plans that are right and on damaged ones.
pub fn lent_lists(tally: &mut Tally, random: &mut Random, settings: Settings) {
    for _ in 0..10_000 {
        let plan = some_plan(random, settings);
        let mut packed = pack(&plan);
        let mut text = write(&plan);
        if random.once_in(3) {
            text = damaged_text(random, &text);
            if let Some(last) = packed.len().checked_sub(1) {
                packed[random.below(last + 1)] ^= 1 << random.below(17);
            }
        }
        let (length, bytes) = (random.below(16), random.below(160));
        compare_entries(tally, settings, (&packed, &text), (length, bytes));
    }
}
