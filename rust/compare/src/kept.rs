//! What is kept beside the table: one call of building, of the move that keeps, and of the quick
//! verdict, each held against the second program. The paragraph is request 4 of document 02; which plans
//! and lists they are called on stands in `keeping.rs`.

use crate::asked::Asked;
use crate::entries::{answer, lent_plan, stays};
use crate::lent::Lent;
use crate::run::{Answer, Run};
use crate::wrapper::as_second;
use gimmerskip::{entries, raw};
use second::line::{pack, DEVICES};
use second::plain::{self, circles, concerned, edited, held_to_end, lasting, lowest, members};
use second::plain::{under, way, Beside, Rows};
use second::random::Move;
use second::read::check_packed;
use second::tally::LEAST;
use second::{shapes, Line, Refusal};

/// The list that a refusal 11 is for.
const LISTS: [&str; 3] =
    ["refusal 11, for the table", "refusal 11, for the rows", "refusal 11, for the held set"];

/// What a move that keeps the rows is, by what was lent.
const LENT: [&str; 6] = [
    "accepted, table, rows and held set are the plan's own",
    "accepted, rows that are not the plan's own",
    "accepted, a held set that is not the plan's own",
    "accepted, lists that are longer than needed",
    "accepted, on a plan with refusal 9",
    "accepted, on a plan with refusal 10",
];

/// And what it does.
const KEPT: [&str; 7] = [
    "accepted, to the present device",
    "accepted, of two lasting takes of a device one may change and one may not",
    "accepted, a lasting take under the moved one",
    "accepted, the own row of a third device changes",
    "accepted, a row of a device that is not concerned stays, and is not its own",
    "accepted, a device comes to be held to the end",
    "accepted, a device is no longer held to the end",
];

/// What a quick verdict is, beside one by the plan's own rows.
const QUICK: [&str; 5] = [
    "accepted, by other rows than the plan's own",
    "accepted, where by its own rows the plan leads back",
    "refusal 10, where by its own rows the plan does not lead back",
    "refusal 10, at another device than by its own rows",
    "refusal 9, where the rows lead back too",
];

/// All classes beside those of refusals, each with the least number that has to be met.
pub fn classes() -> Vec<(String, u64)> {
    let of = |entry: &str, classes: &[&str]| -> Vec<(String, u64)> {
        classes.iter().map(|class| (format!("{entry}: {class}"), LEAST)).collect()
    };
    [
        of("build", &LISTS),
        of("move_kept", &LISTS),
        of("move_kept", &LENT),
        of("move_kept", &KEPT),
        of("move_kept", &shapes::MOVED),
        of("move_kept", &shapes::TABLES),
        of("quick", &QUICK),
    ]
    .concat()
}

/// A plan with what is kept beside it, lent together.
#[derive(Clone, Debug, PartialEq, Eq)]
pub struct WithRows {
    pub plan: Vec<u32>,
    pub beside: Beside,
}

impl WithRows {
    /// The plan with its own.
    pub fn own(plan: &[Line]) -> WithRows {
        WithRows { plan: pack(plan), beside: Beside::of(plan) }
    }
}

/// The lists for table, rows and held set, with their guards.
type Lists = [Lent<u32>; 3];

/// What the lists hold.
fn held_in(lists: &Lists) -> Beside {
    let [sets, rows, held] = lists.each_ref().map(|lent| lent.list().to_vec());
    Beside { sets, rows, held }
}

/// Counts those of an entry's classes that hold.
fn meet<const N: usize>(run: &mut Run, entry: &str, classes: [&str; N], hold: [bool; N]) {
    for (class, _) in classes.iter().zip(hold).filter(|&(_, holds)| holds) {
        run.tally.meet(&format!("{entry}: {class}"));
    }
}

/// Counts a call by its answer, and a refusal 11 by the first list that is too short.
fn meet_answer(run: &mut Run, entry: &str, wanted: &Answer, lines: usize, beside: &Beside) {
    run.meet(entry, wanted);
    if wanted.is_err_and(|refusal| refusal.number == 11) {
        let [sets, rows] = [beside.sets.len() < lines, beside.rows.len() < DEVICES as usize];
        meet(run, entry, LISTS, [sets, !sets && rows, !sets && !rows]);
    }
}

/// Compares what an entry leaves in the lists beside the plan.
fn left(run: &mut Run, entry: &str, asked: &Asked, lists: [&Lists; 2], wanted: (&Beside, Answer)) {
    let [before, after] = lists;
    let tally = &mut run.tally;
    for (at, list) in ["the table", "the rows", "the held set"].iter().enumerate() {
        let name = format!("{entry}: what stands around {list} stays");
        tally.compare(&name, asked, None, after[at].stray(&before[at]));
        let list_wanted = [&wanted.0.sets, &wanted.0.rows, &wanted.0.held][at];
        let name = format!("{entry}: {list}, and past what is needed what it held");
        tally.compare(&name, asked, &list_wanted[..], after[at].list());
    }
    if wanted.1.is_err() {
        let name = format!("{entry}: a refusal leaves table, rows and held set");
        tally.compare(&name, asked, held_in(before), held_in(after));
    }
}

/// Compares a call of `build`, with lists of these lengths for the table, the rows and the held set; and
/// of the wrapper's.
pub fn build(run: &mut Run, plan: &[u32], rooms: [usize; 3]) -> Result<Beside, Refusal> {
    let asked = Asked::Build { plan, rooms };
    let lent = lent_plan(plan);
    let mut lists = rooms.map(|room| Lent::filled(&mut run.random, room));
    let before = lists.clone();
    let [sets, rows, held] = lists.each_mut().map(Lent::list_mut);
    let said = answer(raw::build(lent.list(), sets, rows, held));
    let mut second = held_in(&before);
    let Beside { sets, rows, held } = &mut second;
    let wanted = plain::build(plan, sets, rows, held).map(|lines| lines as u64);
    meet_answer(run, "build", &wanted, plan.len(), &second);
    run.tally.compare("build: the answer", &asked, wanted, said);
    left(run, "build", &asked, [&before, &lists], (&second, wanted));
    stays(run, "build", &asked, plan, &lent);
    let mut wrapped = held_in(&before);
    let Beside { sets, rows, held } = &mut wrapped;
    let by_wrapper = entries::build(plan, sets, rows, held).map(|lines| lines as u64);
    let by_wrapper = (by_wrapper.map_err(as_second), &wrapped);
    let name = "build: the wrapper's answer, and its lists";
    run.tally.compare(name, &asked, (wanted, &second), by_wrapper);
    said.map(|_| held_in(&lists))
}

/// Compares a call of `quick`, and of the wrapper's. The rows around the list lead everywhere, so that
/// one of them in place of another would be seen.
pub fn quick(run: &mut Run, plan: &[u32], rows: &[u32]) -> Answer {
    let asked = Asked::Quick { plan, rows };
    let (lent, lent_rows) = (lent_plan(plan), Lent::among(rows, &[u32::MAX]));
    let said = answer(raw::quick(lent.list(), lent_rows.list()));
    let wanted = plain::quick(plan, rows).map(u64::from);
    run.meet("quick", &wanted);
    sort_quick(run, plan, rows, &wanted);
    run.tally.compare("quick: the answer", &asked, wanted, said);
    stays(run, "quick", &asked, plan, &lent);
    stays(run, "quick", &asked, rows, &lent_rows);
    let wrapped = entries::quick(plan, rows).map(|held| held as u64).map_err(as_second);
    run.tally.compare("quick: the wrapper's answer", &asked, wanted, wrapped);
    said
}

/// Counts a quick verdict in its classes.
fn sort_quick(run: &mut Run, plan: &[u32], rows: &[u32], wanted: &Answer) {
    let (Ok(lines), Some(rows)) = (check_packed(plan), rows.first_chunk()) else {
        return;
    };
    let own = plain::rows(&lines);
    if own == *rows {
        return;
    }
    let [back, own_back] = [rows, &own].map(|rows| lowest(circles(rows)));
    let (accepted, leads) = (wanted.is_ok(), wanted.is_err_and(|refusal| refusal.number == 10));
    let hold = [
        accepted,
        accepted && own_back.is_some(),
        leads && own_back.is_none(),
        leads && own_back.is_some() && own_back != back,
        !accepted && !leads && back.is_some(),
    ];
    meet(run, "quick", QUICK, hold);
}

/// Compares one move that keeps the rows, and that of the wrapper. Plan and lists go on as the proved
/// entry left them.
pub fn move_kept(run: &mut Run, kept: &mut WithRows, to: Move) -> Answer {
    let before = kept.clone();
    let asked = Asked::Kept { plan: &before.plan, beside: &before.beside, to };
    let mut plan = Lent::holding(&mut run.random, &kept.plan);
    let Beside { sets, rows, held } = &kept.beside;
    let mut lists = [sets, rows, held].map(|list| Lent::holding(&mut run.random, list));
    let (plan_before, lists_before) = (plan.clone(), lists.clone());
    let [sets, rows, held] = lists.each_mut().map(Lent::list_mut);
    let said = answer(raw::move_kept(plan.list_mut(), sets, rows, held, to.line, to.device));
    let mut second = before.clone();
    let wanted = by_second(&mut second, to);
    sort_move(run, &before, &second, to, &wanted);
    run.tally.compare("move_kept: the answer", &asked, wanted, said);
    let name = "move_kept: what stands around the plan stays";
    run.tally.compare(name, &asked, None, plan.stray(&plan_before));
    run.tally.compare("move_kept: the plan", &asked, &second.plan[..], plan.list());
    left(run, "move_kept", &asked, [&lists_before, &lists], (&second.beside, wanted));
    let mut wrapped = before.clone();
    let by_wrapper = (by_wrapper(&mut wrapped, to), &wrapped);
    let name = "move_kept: the wrapper's answer, and its lists";
    run.tally.compare(name, &asked, (wanted, &second), by_wrapper);
    *kept = WithRows { plan: plan.list().to_vec(), beside: held_in(&lists) };
    as_plain_move(run, &before, kept, to, said);
    said
}

/// The move by the second program.
fn by_second(kept: &mut WithRows, Move { line, device }: Move) -> Answer {
    let Beside { sets, rows, held } = &mut kept.beside;
    plain::move_kept(&mut kept.plan, sets, rows, held, line, device).map(u64::from)
}

/// The move by the wrapper.
fn by_wrapper(kept: &mut WithRows, Move { line, device }: Move) -> Answer {
    let Beside { sets, rows, held } = &mut kept.beside;
    let answer = entries::move_kept(&mut kept.plan, sets, rows, held, line, device);
    answer.map(|changed| changed as u64).map_err(as_second)
}

/// Answer, plan and table are those of the entry that moves without rows, but for its refusal 11.
fn as_plain_move(run: &mut Run, before: &WithRows, after: &WithRows, to: Move, said: Answer) {
    let (mut plan, mut sets) = (before.plan.clone(), before.beside.sets.clone());
    if said.is_err_and(|refusal| refusal.number == 11) {
        return;
    }
    let wanted = answer(raw::move_claim(&mut plan, &mut sets, to.line, to.device));
    let asked = Asked::Kept { plan: &before.plan, beside: &before.beside, to };
    let name = "move_kept: answer, plan and table as by the plain move";
    let kept = (said, &after.plan, &after.beside.sets);
    run.tally.compare(name, &asked, (wanted, &plan, &sets), kept);
}

/// Counts a move in its classes.
fn sort_move(run: &mut Run, before: &WithRows, after: &WithRows, to: Move, wanted: &Answer) {
    meet_answer(run, "move_kept", wanted, before.plan.len(), &before.beside);
    let Ok(plan) = check_packed(&before.plan) else {
        return;
    };
    for shape in shapes::of_move(&plan, &before.beside.sets, to, *wanted) {
        run.tally.meet(&format!("move_kept: {shape}"));
    }
    if wanted.is_ok() {
        sort_lent(run, &plan, &before.beside);
        sort_kept(run, &plan, &after.beside, to);
    }
}

/// Counts an accepted move by what was lent.
fn sort_lent(run: &mut Run, plan: &[Line], lent: &Beside) {
    let own = Beside::of(plan);
    let [sets, rows, held] = [
        lent.sets.starts_with(&own.sets),
        lent.rows.starts_with(&own.rows),
        lent.held.starts_with(&own.held),
    ];
    let longer = lent.sets.len() > plan.len() && lent.rows.len() > 32 && lent.held.len() > 1;
    let own_rows: &Rows = own.rows.first_chunk().expect("a row a device");
    let two = held_to_end(plan).1 != 0;
    let ten = !two && circles(own_rows) != 0;
    meet(run, "move_kept", LENT, [sets && rows && held, !rows, !held, longer, two, ten]);
}

/// Counts an accepted move by what it does.
fn sort_kept(run: &mut Run, plan: &[Line], after: &Beside, to: Move) {
    let (at, new) = (to.line as usize - 1, to.device as u8);
    let (old, edited) = (plan[at].verb.operand(), edited(plan, at, new));
    let under = under(plan, at);
    let mut may_change = vec![false; plan.len()];
    for line in way(plan, at).into_iter().chain(under.iter().copied()) {
        may_change[line] = true;
    }
    // The devices that last among these lines, elsewhere, and under the take.
    let [mut near, mut far, mut below] = [0; 3];
    for (line, device) in lasting(plan).into_iter().enumerate() {
        let set = device.map_or(0, |device| 1 << device);
        near |= if may_change[line] { set } else { 0 };
        far |= if may_change[line] { 0 } else { set };
        below |= if under.contains(&line) { set } else { 0 };
    }
    let (own, own_then) = (plain::rows(plan), plain::rows(&edited));
    let two: u32 = 1 << old | 1 << new;
    let other = |set: u32, rows: &[u32]| {
        members(set).any(|device| rows[device as usize] != own_then[device as usize])
    };
    let [held, held_then] = [held_to_end(plan).0, held_to_end(&edited).0];
    let hold = [
        old == new,
        near & far != 0,
        below != 0,
        other(!two, &own),
        other(!concerned(plan, at, new), &after.rows),
        held_then & !held != 0,
        held & !held_then != 0,
    ];
    meet(run, "move_kept", KEPT, hold);
}
