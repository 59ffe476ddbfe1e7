//! The two sides on plans of all kinds, before any time is taken: whole and damaged plans, rings, lists too short,
//! stale tables, orders that are legal and orders that are not. A version that refused differently would not be one to
//! hold times against.

use crate::again::{deep, take_again};
use crate::sides::{Build, MoveKept, FAST, OURS};
use bench::fast;
use second::elsewhere::{damaged, mixed};
use second::line::{pack, Line};
use second::random::{plan, ring, wish, Cut, Random};
use std::collections::BTreeMap;

/// Plans tried.
pub const TRIED: usize = 20_000;

/// How often each entry gave each refusal, 0 being that it gave none.
pub type Counts = BTreeMap<(&'static str, u64), usize>;

/// Tries both sides; what differs is an error.
pub fn compare(random: &mut Random) -> Result<Counts, String> {
    let mut counts = Counts::new();
    // Orders, and lists that are kept, have generators of their own, so that the plans do not hang on them.
    let (mut for_orders, mut for_kept) = (random.clone(), random.clone());
    for _ in 0..TRIED {
        let mut packed = any_plan(random);
        let mut text = vec![0; 16 * packed.len()];
        let bytes = fast::write(&packed, &mut text) as usize;
        text.truncate(bytes);
        let mut table = vec![0; packed.len()];
        fast::table(&packed, &mut table);
        if random.once_in(2) {
            damage_text(random, &mut text);
            damage_plan(random, &mut packed);
        }
        if random.once_in(4) && !table.is_empty() {
            let at = random.below(table.len());
            table[at] ^= 1 << random.below(32);
        }
        compare_lists(random, &text, &packed, &mut counts)?;
        compare_judge(&mut for_orders, &packed, &mut counts)?;
        compare_build(&mut for_kept, &packed, &mut counts)?;
        compare_kept(&mut for_kept, &packed, &mut counts)?;
        compare_move(random, &packed, &table, &mut counts)?;
    }
    Ok(counts)
}

/// A well-formed plan, of a few lines or of up to 1,024. About one in eight is a ring, and in about every other one
/// jobs take again what they hold.
fn any_plan(random: &mut Random) -> Vec<u32> {
    let most = random.one_of(&[8, 40, 300, 1_024]);
    if random.once_in(64) {
        return pack(&deep(random, most));
    }
    let mut lines = if random.once_in(8) {
        let length = 1 + random.below(5);
        let cut = random.one_of(&[Cut::Whole, Cut::LeftOut, Cut::GivenBack]);
        ring(random, length, cut)
    } else {
        let wish = wish(random, most, 64, 32);
        plan(random, wish)
    };
    let times = if random.once_in(2) && !lines.is_empty() { random.below(30) } else { 0 };
    for _ in 0..times {
        if lines.len() + 2 <= 1_024 {
            take_again(random, &mut lines);
        }
    }
    pack(&lines)
}

/// One byte other, more or less, or far too many; another verb; or too many lines of the last job.
fn damage_text(random: &mut Random, text: &mut Vec<u8>) {
    let byte = random.one_of(b"0123456789\t\n\r dotakegivst");
    let at = random.below(text.len() + 1);
    match random.below(8) {
        0 => text.insert(at, byte),
        1 => text.extend(std::iter::repeat_n(byte, 12_288)),
        2 => text.truncate(at),
        3 => {
            let last = text[..text.len().saturating_sub(1)].rsplit(|&byte| byte == b'\n').next();
            let job = last.and_then(|last| last.split(|&byte| byte == b'\t').next());
            let line = [job.filter(|job| !job.is_empty()).unwrap_or(b"1"), b"\tdo\t1\n"].concat();
            text.extend(line.repeat(1_025));
        }
        4 | 5 => exchange_verb(random, text),
        _ if at < text.len() && random.once_in(3) => drop(text.remove(at)),
        _ if at < text.len() => text[at] = byte,
        _ => {}
    }
}

/// Another verb in one line of a text, which is that of a plan.
fn exchange_verb(random: &mut Random, text: &mut Vec<u8>) {
    let tabs: Vec<usize> = (0..text.len()).filter(|&at| text[at] == b'\t').collect();
    if tabs.is_empty() {
        return;
    }
    let line = random.below(tabs.len() / 2);
    let verb = random.one_of(&[&b"do"[..], b"take", b"give", b"start"]);
    text.splice(tabs[2 * line] + 1..tabs[2 * line + 1], verb.iter().copied());
}

/// One line other, more or less; or far too many.
fn damage_plan(random: &mut Random, plan: &mut Vec<u32>) {
    let at = random.below(plan.len() + 1);
    let any = (random.below(66) * 1_024 + random.below(4) * 256 + random.below(66)) as u32;
    match random.below(10) {
        0 => plan.insert(at, any),
        1 => plan.extend(vec![plan.last().map_or(1_024, |last| last & !1_023); 1_025]),
        2 => plan.truncate(at),
        _ if at == plan.len() => {}
        3 => drop(plan.remove(at)),
        4 => plan[at] ^= 1 << random.below(32),
        5 => plan[at] = any,
        6 => plan[at] = plan[at] & !1_023 | any & 1_023,
        7 => plan[at] = plan[at] & !255 | any & 63,
        _ => plan[at] = plan[at] & !768 | any & 768,
    }
}

/// Counts the answer, if the two sides gave the same.
fn meet<T: PartialEq>(
    counts: &mut Counts,
    entry: &'static str,
    ours: (u64, T),
    fast: (u64, T),
) -> Result<(), String> {
    if ours.0 != fast.0 {
        return Err(format!(
            "{entry}, a plan of any kind: ours answers {:#x}, fast {:#x}",
            ours.0, fast.0
        ));
    }
    if ours.1 != fast.1 {
        return Err(format!("{entry}, a plan of any kind: the lists differ"));
    }
    *counts.entry((entry, ours.0 >> 32)).or_default() += 1;
    Ok(())
}

/// Calls an entry with a list of its own.
fn lend<T: Clone>(list: &[T], call: impl FnOnce(&mut [T]) -> u64) -> (u64, Vec<T>) {
    let mut list = list.to_vec();
    (call(&mut list), list)
}

/// The entries that fill one list.
fn compare_lists(
    random: &mut Random,
    text: &[u8],
    plan: &[u32],
    counts: &mut Counts,
) -> Result<(), String> {
    let room = if random.once_in(8) { random.below(plan.len() + 1) } else { 1_030 };
    let (words, halves, bytes) = (vec![7u32; room], vec![7u16; room], vec![7u8; 12 * room]);
    let read = |side: fn(&[u8], &mut [u32]) -> u64| lend(&words, |list| side(text, list));
    meet(counts, "read", read(OURS.read), read(FAST.read))?;
    let write = |side: fn(&[u32], &mut [u8]) -> u64| lend(&bytes, |list| side(plan, list));
    meet(counts, "write", write(OURS.write), write(FAST.write))?;
    let table = |side: fn(&[u32], &mut [u32]) -> u64| lend(&words, |list| side(plan, list));
    meet(counts, "table", table(OURS.table), table(FAST.table))?;
    let verdict = |side: fn(&[u32], &mut [u16]) -> u64| lend(&halves, |list| side(plan, list));
    meet(counts, "verdict", verdict(OURS.verdict), verdict(FAST.verdict))
}

/// The judge, with the order that is handed out, mixed or not, mostly damaged; for a plan without one, with the lines
/// as they stand.
fn compare_judge(random: &mut Random, plan: &[u32], counts: &mut Counts) -> Result<(), String> {
    let lines: Vec<Line> = plan.iter().map_while(|&line| Line::unpacked(line)).collect();
    let mut order: Vec<u16> = (1..=plan.len().min(1_030) as u16).collect();
    let has_order = (FAST.verdict)(plan, &mut order) >> 32 == 0;
    if has_order && random.once_in(2) {
        order = mixed(random, &lines, &order);
    }
    if !random.once_in(4) {
        order = damaged(random, plan.len(), &order);
    }
    let side = |judge: fn(&[u32], &[u16]) -> u64| (judge(plan, &order), ());
    meet(counts, "judge", side(OURS.judge), side(FAST.judge))
}

/// A line, mostly a take, and a device that may not be there.
fn some_move(random: &mut Random, plan: &[u32]) -> (usize, u32) {
    let (mut line, device) = (random.below(plan.len() + 2), random.below(36) as u32);
    for _ in 0..random.below(8) {
        if plan.get(line.wrapping_sub(1)).is_some_and(|line| line / 256 % 4 == 1) {
            break;
        }
        line = random.below(plan.len() + 2);
    }
    (line, device)
}

/// The move, mostly of a take, to a device that may not be there, with a table that may be stale or short.
fn compare_move(
    random: &mut Random,
    plan: &[u32],
    table: &[u32],
    counts: &mut Counts,
) -> Result<(), String> {
    let (line, device) = some_move(random, plan);
    let mut table = table.to_vec();
    // A line under the take, perhaps, has a set that is stale, while all sets on the way may be right.
    if let Some(set) = table.get_mut(line + random.below(8)).filter(|_| random.once_in(8)) {
        *set ^= 1 << random.below(32);
    }
    let room = if random.once_in(8) { random.below(table.len() + 1) } else { table.len() };
    let side = |entry: fn(&mut [u32], &mut [u32], u32, u32) -> u64| {
        let (mut plan, mut sets) = (plan.to_vec(), table[..room].to_vec());
        (entry(&mut plan, &mut sets, line as u32, device), (plan, sets))
    };
    meet(counts, "move", side(OURS.move_claim), side(FAST.move_claim))
}

/// Lists for table, rows and held set, with this in them, at times shorter than needed or longer.
fn any_lists(random: &mut Random, beside: &[Vec<u32>; 3]) -> [Vec<u32>; 3] {
    let mut lists = beside.clone();
    for list in &mut lists {
        let room = if random.once_in(12) { random.below(list.len() + 1) } else { list.len() + 2 };
        list.resize(room, 7);
    }
    lists
}

/// Building, and the quick verdict by rows that may be any.
fn compare_build(random: &mut Random, plan: &[u32], counts: &mut Counts) -> Result<(), String> {
    let lists = any_lists(random, &[vec![7; plan.len()], vec![7; 32], vec![7]]);
    let build = |side: Build| {
        let [mut sets, mut rows, mut held] = lists.clone();
        (side(plan, &mut sets, &mut rows, &mut held), [sets, rows, held])
    };
    let (answer, [_, mut rows, _]) = build(FAST.build);
    meet(counts, "build", build(OURS.build), build(FAST.build))?;
    if answer >> 32 == 0 && random.once_in(3) {
        rows[random.below(32)] ^= 1 << random.below(32);
    } else if random.once_in(8) {
        rows.fill_with(|| (random.bits() & random.bits() & random.bits() & random.bits()) as u32);
    }
    let quick = |side: fn(&[u32], &[u32]) -> u64| (side(plan, &rows), ());
    meet(counts, "quick", quick(OURS.quick), quick(FAST.quick))
}

/// The move that keeps the rows, with a table that may be stale. The fast version makes all rows anew and is held to
/// them where table, rows and held set are the plan's own.
fn compare_kept(random: &mut Random, plan: &[u32], counts: &mut Counts) -> Result<(), String> {
    let mut beside = [vec![0; plan.len()], vec![0; 32], vec![0]];
    let [sets, rows, held] = &mut beside;
    (FAST.build)(plan, sets, rows, held);
    let (line, device) = some_move(random, plan);
    let own = !random.once_in(6);
    if let Some(set) = beside[0].get_mut(line.saturating_sub(random.below(4))).filter(|_| !own) {
        *set ^= 1 << random.below(32);
    }
    let lists = any_lists(random, &beside);
    let side = |entry: MoveKept| {
        let (mut plan, [mut sets, mut rows, mut held]) = (plan.to_vec(), lists.clone());
        let answer = entry(&mut plan, &mut sets, &mut rows, &mut held, line as u32, device);
        let rows = (own || answer >> 32 != 0).then_some((rows, held));
        (answer, (plan, sets, rows))
    };
    meet(counts, "move_kept", side(OURS.move_kept), side(FAST.move_kept))
}
