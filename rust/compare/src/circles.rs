//! The circle search, held against the second program: by itself on any rows, which no plan need have,
//! and through the verdict, on plans in which given rows are planted. The paragraph is the end of
//! "Claims and rows" of document 01; by request 3 of document 02 the search works otherwise than
//! before, and answers the same.

use crate::asked::Asked;
use crate::entries::{self, stays};
use crate::keeping;
use crate::lent::Lent;
use crate::plans::any_plan;
use crate::run::Run;
use second::leading::{self, chain, dense, forward, of_four, only_of, parts, some_parts, sparse};
use second::leading::{union, Numbering, Part};
use second::line::{pack, DEVICES};
use second::plain::{self, circles, lowest, members, Rows};
use second::planted::{planted, Layout};
use second::random::Random;
use second::tally::LEAST;
use second::Refusal;

/// How many devices there are.
const COUNT: usize = DEVICES as usize;
/// So many random rows of each density are searched by themselves, and so many are planted.
const DRAWN: usize = 2_000;
const PLANTED: usize = 100;
/// The class of all rows of four devices.
const OF_FOUR: &str = "rows: each that four devices can have, at random numbers";

/// The other classes of rows that are searched by themselves.
const SEARCHED: [&str; 4] = [
    "rows: no circle, and some lead on",
    "rows: every device leads back",
    "rows: one that leads to a circle does not lead back",
    "rows: one that a circle leads to does not lead back",
];

/// The classes of plans in which rows are planted.
const PLANS: [&str; 4] = [
    "planted rows: accepted",
    "planted rows: refusal 10",
    "planted rows: over 900 lines",
    "planted rows: one with over 24 members",
];

/// All classes, each with the least number that has to be met.
pub fn classes() -> Vec<(String, u64)> {
    let least = |class: &str| (class.to_string(), LEAST);
    let mut classes: Vec<_> = SEARCHED.into_iter().chain(PLANS).map(least).collect();
    classes.push((OF_FOUR.to_string(), 1 << 16));
    classes
}

/// Counts what belongs to those of the classes that hold.
fn meet(run: &mut Run, classes: [&str; 4], hold: [bool; 4]) {
    for (class, _) in classes.into_iter().zip(hold).filter(|&(_, holds)| holds) {
        run.tally.meet(class);
    }
}

/// Counts rows, by the devices that lead back.
fn sort(run: &mut Run, rows: &Rows, back: u32) {
    let any = |from: u32, to: u32| members(from).any(|device| rows[device as usize] & to != 0);
    let no_circle = back == 0 && any(u32::MAX, u32::MAX);
    meet(run, SEARCHED, [no_circle, back == u32::MAX, any(!back, back), any(back, !back)]);
}

/// Compares a call of the search. The rows around the list lead everywhere, so that one of them in
/// place of another would be seen.
fn search(run: &mut Run, family: &str, rows: &Rows) {
    let asked = Asked::Rows { rows };
    let lent = Lent::among(rows, &[u32::MAX]);
    let list = lent.list().try_into().expect("a list of as many rows as were lent");
    let said = members(bare::circles(list)).collect::<Vec<u32>>();
    let back = circles(rows);
    sort(run, rows, back);
    let name = format!("circles, {family}: the devices that lead back");
    run.tally.compare(&name, &asked, members(back).collect(), said);
    stays(run, "circles", &asked, rows, &lent);
}

/// Compares a call of the verdict on plans that have these rows, where they have room for them.
fn plant(run: &mut Run, family: &str, rows: &Rows) {
    for layout in [Layout::Apart, Layout::Nested] {
        let Some(plan) = planted(&mut run.random, rows, layout) else { continue };
        let packed = pack(&plan);
        let asked = Asked::Packed { plan: &packed, room: packed.len() };
        let name = format!("planted rows, {family}: the plan has them");
        run.tally.compare(&name, &asked, *rows, plain::rows(&plan));
        let wanted = lowest(circles(rows)).map(|device| Refusal::at(10, device));
        let said = entries::verdict(run, &packed, packed.len()).err();
        let name = format!("planted rows, {family}: 10 at the lowest that leads back, or none");
        run.tally.compare(&name, &asked, wanted, said);
        sort_planted(run, rows, packed.len(), wanted.is_none());
        keeping::agrees(run, &packed);
    }
}

/// Counts a plan in which rows are planted.
fn sort_planted(run: &mut Run, rows: &Rows, lines: usize, accepted: bool) {
    let full = rows.iter().any(|row| row.count_ones() > 24);
    meet(run, PLANS, [accepted, !accepted, lines > 900, full]);
}

/// What is done with the rows of a family.
type Try = fn(&mut Run, &str, &Rows);

/// Tries rows under each numbering, and so many times where it is shuffled.
fn numbered(run: &mut Run, family: &str, rows: &Rows, times: usize, attempt: Try) {
    for numbering in Numbering::EACH {
        let times = if numbering == Numbering::Shuffled { times } else { 1 };
        for _ in 0..times {
            let rows = numbering.of(&mut run.random, rows);
            attempt(run, family, &rows);
        }
    }
}

/// Tries rows that are made to a shape.
fn shapes(run: &mut Run, times: usize, attempt: Try) {
    numbered(run, "no rows", &leading::NONE, 1, attempt);
    numbered(run, "all in each row", &leading::ALL, 1, attempt);
    numbered(run, "a full order", &leading::order(), times, attempt);
    for length in 1..=COUNT {
        numbered(run, "a path", &parts(&[Part::Path(length)]), times, attempt);
        numbered(run, "a ring", &parts(&[Part::Ring(length)]), times, attempt);
        let alike = vec![Part::Ring(length); COUNT / length];
        numbered(run, "rings of one length", &parts(&alike), times, attempt);
        numbered(run, "a chain of rings of one length", &chain(&alike), times, attempt);
    }
    for pair in 0..COUNT * COUNT {
        let (one, other) = (pair / COUNT, pair % COUNT);
        let mut rows = leading::NONE;
        rows[one] |= 1 << other;
        rows[other] |= 1 << one;
        let family = if one == other { "a device in its own row" } else { "a ring of any two" };
        attempt(run, family, &rows);
    }
    for device in 0..COUNT {
        let mut rows = leading::order();
        rows[device] |= 1 << run.random.below(COUNT);
        numbered(run, "a full order and one step more", &rows, times, attempt);
    }
}

/// Tries random rings and paths, beside each other, in a chain, and with steps from any part into later
/// ones; and a ring with a path that leads into it and one that leads out.
fn mixed_parts(run: &mut Run, times: usize, attempt: Try) {
    for _ in 0..times {
        let list = some_parts(&mut run.random);
        let once_in = 1 + run.random.below(COUNT);
        let chained = chain(&list);
        let linked = union(&chained, &forward(&mut run.random, once_in));
        numbered(run, "rings and paths", &parts(&list), 1, attempt);
        numbered(run, "a chain of rings and paths", &chained, 1, attempt);
        numbered(run, "rings with steps into later ones", &linked, 1, attempt);
        let ring = 1 + run.random.below(COUNT);
        let before = run.random.below(COUNT - ring + 1);
        let tails = [Part::Path(before), Part::Ring(ring), Part::Path(COUNT - ring - before)];
        numbered(run, "a ring with tails", &chain(&tails), 1, attempt);
    }
}

/// Tries random rows of every density: any, without circles, and those of some devices alone.
fn drawn(run: &mut Run, times: usize, attempt: Try) {
    for density in 1..=COUNT {
        for _ in 0..times {
            let rows = dense(&mut run.random, density);
            attempt(run, "random rows", &rows);
            let some = only_of(&rows, some_devices(&mut run.random));
            attempt(run, "random rows of some devices", &some);
            let rows = forward(&mut run.random, density);
            let shuffled = Numbering::Shuffled.of(&mut run.random, &rows);
            attempt(run, "random rows without circles", &shuffled);
        }
    }
    for most in 1..=3 {
        for _ in 0..4 * times {
            let rows = sparse(&mut run.random, most);
            attempt(run, "random rows of few members", &rows);
        }
    }
}

/// Some devices, few or many.
fn some_devices(random: &mut Random) -> u32 {
    let count = 1 + random.below(COUNT);
    random.devices(count).into_iter().fold(0, |set, device| set | 1 << device)
}

/// All rows of four devices, each at random numbers.
fn all_of_four(run: &mut Run) {
    for square in 0..=u16::MAX {
        let rows = Numbering::Shuffled.of(&mut run.random, &of_four(square));
        run.tally.meet(OF_FOUR);
        search(run, "four devices", &rows);
    }
}

/// The search by itself.
pub fn by_itself(run: &mut Run) {
    shapes(run, 20, search);
    mixed_parts(run, DRAWN, search);
    drawn(run, DRAWN, search);
    all_of_four(run);
    for _ in 0..DRAWN {
        let plan = any_plan(&mut run.random);
        search(run, "a plan's own rows", &plain::rows(&plan));
    }
}

/// The search through the verdict.
pub fn through_verdict(run: &mut Run) {
    shapes(run, 2, plant);
    mixed_parts(run, 4 * PLANTED, plant);
    drawn(run, PLANTED, plant);
}
