//! Damage done to texts, packed lists and tables, so that refusals come from what is nearly right.
//!
//! Reads, of document 01: "The plan as text", the cases 2 to 7 of "Refusal numbers", and the stale
//! sets of "Moving a claim", and of document 02: request 5, for what can go wrong; whether a piece of
//! damage makes a fault is left to the readings.

use crate::line::{Line, Settings, Verb, DEVICES, LINES, MIDDAY, MORNING};
use crate::plain::{gives, under, way};
use crate::random::{Move, Random};
use crate::read::write;

/// Damages a text: one byte or one line goes, comes, or changes its place.
pub fn damaged_text(random: &mut Random, text: &[u8]) -> Vec<u8> {
    let mut bytes = text.to_vec();
    let mut lines: Vec<&[u8]> = text.split_inclusive(|&byte| byte == b'\n').collect();
    let byte = random.one_of(b"0123456789\t\n\r dotakegivestartheld\0");
    let place = random.below(bytes.len() + 1);
    if bytes.len() == place {
        bytes.push(byte);
        return bytes;
    }
    let (line, other) = (random.below(lines.len()), random.below(lines.len()));
    match random.below(6) {
        0 => bytes.insert(place, byte),
        1 => bytes[place] = byte,
        2 => drop(bytes.remove(place)),
        3 => drop(lines.remove(line)),
        4 => lines.insert(other, lines[line]),
        _ => lines.swap(line, other),
    }
    if bytes == text {
        bytes = lines.concat();
    }
    bytes
}

/// Damages a packed list: a number is changed, goes, comes, or changes its place, or the list
/// grows past the longest plan.
pub fn damaged_packed(random: &mut Random, plan: &[u32]) -> Vec<u32> {
    let mut list = plan.to_vec();
    if list.is_empty() {
        return vec![random.bits() as u32 % (70 * 1_024)];
    }
    let (at, other) = (random.below(list.len()), random.below(list.len()));
    match random.below(13) {
        0 => list[at] ^= 1 << random.below(17),
        1 => list[at] = random.bits() as u32,
        2 => drop(list.remove(at)),
        3 => list.insert(other, list[at]),
        4 => list.swap(at, other),
        5 => list.truncate(at),
        6 => grow(random, &mut list),
        7 => put(random, &mut list, 3),
        8 => put(random, &mut list, 2),
        9 => put(random, &mut list, 1),
        10 => unstart(random, &mut list),
        11 => repeat_take(random, &mut list),
        _ => list[at] = list[at].wrapping_add(1_024),
    }
    list
}

/// The packed number of a held line less its job and device.
const HELD: u32 = 256 + 128;

/// Damages a packed list of a resumed plan: a held line comes, comes twice, gets another device, or comes
/// of a take, or its job is started; or it is damaged as any other list is.
pub fn damaged_resumed(random: &mut Random, plan: &[u32]) -> Vec<u32> {
    let mut list = plan.to_vec();
    if list.is_empty() {
        return vec![1_024 + HELD + random.below(40) as u32];
    }
    let at = random.below(list.len());
    let device = match random.below(8) {
        0 => random.below(128) as u32,
        _ => random.below(4) as u32,
    };
    let of_job = |number: u32| number / 1_024 * 1_024;
    match random.below(8) {
        0 => list.insert(at, of_job(list[at]) + HELD + device),
        1 => list.insert(at + 1, of_job(list[at]) + HELD + device),
        2 => repeat_held(random, &mut list),
        3 => hold_other(random, &mut list, device),
        4 => hold_a_take(random, &mut list),
        5 => start_running(random, &mut list),
        _ => list = damaged_packed(random, plan),
    }
    list
}

/// The places of the held lines.
fn held(list: &[u32]) -> Vec<usize> {
    (0..list.len()).filter(|&at| list[at] % 1_024 / 128 == HELD / 128).collect()
}

/// Holds once more what is held, in any job, at its beginning or later.
fn repeat_held(random: &mut Random, list: &mut Vec<u32>) {
    let (held, at) = (held(list), random.below(list.len()));
    if !held.is_empty() {
        let device = list[random.one_of(&held)] % 128;
        list.insert(at + random.below(2), list[at] / 1_024 * 1_024 + HELD + device);
    }
}

/// Gives a held line another device.
fn hold_other(random: &mut Random, list: &mut [u32], device: u32) {
    let held = held(list);
    if !held.is_empty() {
        let at = random.one_of(&held);
        list[at] = list[at] / 128 * 128 + device;
    }
}

/// Makes a held line of a take.
fn hold_a_take(random: &mut Random, list: &mut [u32]) {
    let takes = of_kind(list, 1);
    if !takes.is_empty() {
        list[random.one_of(&takes)] |= 128;
    }
}

/// Starts a job that is running: from a line of a lower job.
fn start_running(random: &mut Random, list: &mut Vec<u32>) {
    let job = list[random.below(list.len())] / 1_024;
    let above: Vec<usize> = (0..list.len()).filter(|&at| list[at] / 1_024 < job).collect();
    if !above.is_empty() {
        let at = random.one_of(&above);
        list.insert(at + 1, list[at] / 1_024 * 1_024 + 3 * 256 + job % 256);
    }
}

/// Lets the last job go on past the longest plan. What stands there need be no line at all.
fn grow(random: &mut Random, list: &mut Vec<u32>) {
    let job = list.last().map_or(1, |last| last / 1_024);
    list.resize(LINES.max(list.len()), job * 1_024);
    for _ in 0..1 + random.below(8) {
        let more = random.bits() as u32;
        list.push(if random.once_in(2) { job * 1_024 } else { more });
    }
}

/// Gives a line of a kind another operand; where there is none, some line becomes one.
fn put(random: &mut Random, list: &mut [u32], kind: u32) {
    let places = of_kind(list, kind);
    let at = if places.is_empty() { random.below(list.len()) } else { random.one_of(&places) };
    // An operand that stands elsewhere in the plan makes a fault more often than a new one.
    let operand = match random.below(3) {
        0 => random.below(70) as u32,
        _ => random.one_of(list) % 256,
    };
    list[at] = list[at] / 1_024 * 1_024 + kind * 256 + operand;
}

/// The places of the lines of a kind.
fn of_kind(list: &[u32], kind: u32) -> Vec<usize> {
    (0..list.len()).filter(|&at| list[at] / 256 % 4 == kind).collect()
}

/// Makes an action of a start, so that its job is never started.
fn unstart(random: &mut Random, list: &mut [u32]) {
    let starts = of_kind(list, 3);
    if !starts.is_empty() {
        let at = random.one_of(&starts);
        list[at] = list[at] / 1_024 * 1_024;
    }
}

/// Repeats a take somewhere below in its job. The device may still be held there, and is then taken
/// again; gives below may come to be of another device than the take made last.
fn repeat_take(random: &mut Random, list: &mut Vec<u32>) {
    let takes = of_kind(list, 1);
    if !takes.is_empty() {
        let at = random.one_of(&takes);
        let job = list[at] / 1_024;
        let below = list[at..].iter().take_while(|&&number| number / 1_024 == job).count();
        list.insert(at + 1 + random.below(below), list[at]);
    }
}

/// Makes one set of a table stale, and no other: a device is put into it that is not there, and into
/// those of all lines that lead to it. Its line is any, or, where a take is to be moved, on the way of
/// that take, under it, or from its give on.
pub fn stale_table(random: &mut Random, plan: &[Line], to: Move, sets: &[u32]) -> Vec<u32> {
    let asked = (to.line as usize).checked_sub(1);
    let take = asked.filter(|&at| plan.get(at).is_some_and(|line| line.takes().is_some()));
    let lines = match (take, random.below(4)) {
        (Some(take), 0) => way(plan, take),
        (Some(take), 1) => under(plan, take),
        (Some(take), 2) => (gives(plan)[take].unwrap_or(plan.len())..plan.len()).collect(),
        _ => (0..plan.len()).collect(),
    };
    let mut stale = sets.to_vec();
    if !lines.is_empty() {
        let line = random.one_of(&lines);
        let absent = |device: &u32| sets[line] >> device & 1 == 0;
        let absent: Vec<u32> = (0..DEVICES).filter(absent).collect();
        let device = if absent.is_empty() { 0 } else { 1 << random.one_of(&absent) };
        for on in way(plan, line) {
            stale[on] |= device;
        }
    }
    stale
}

/// A packed list of the morning as a text, line by line. What is the number of no line is spelt all the
/// same, with its job, its verb and its operand, and makes a malformed line.
pub fn spelt(list: &[u32]) -> Vec<u8> {
    spelt_by(MORNING, list)
}

/// A packed list as a text, likewise.
pub fn spelt_by(settings: Settings, list: &[u32]) -> Vec<u8> {
    let spell = |&number: &u32| match Line::unpacked_by(settings, number) {
        Some(line) => write(&[line]),
        None => {
            let (job, operand) = (number / 1_024, number % 256);
            let verb = ["do", "take", "give", "start"][(number / 256 % 4) as usize];
            let is_held = settings == MIDDAY && verb == "take" && operand >= 128;
            let (verb, operand) = if is_held { ("held", operand - 128) } else { (verb, operand) };
            format!("{job}\t{verb}\t{operand}\n").into_bytes()
        }
    };
    list.iter().flat_map(spell).collect()
}

/// A line that may stand anywhere, of a job up to so many.
pub fn any_line(random: &mut Random, jobs: usize) -> Line {
    let job = 1 + random.below(jobs) as u8;
    let device = random.below(4) as u8;
    let verb = match random.below(4) {
        0 => Verb::Do(random.below(256) as u8),
        1 => Verb::Take(device),
        2 => Verb::Give(device),
        _ => Verb::Start(2 + random.below(jobs.min(63)) as u8),
    };
    Line { job, verb }
}
