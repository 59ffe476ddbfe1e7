//! One call of a proved entry, held against the second program: the answer, what is left in the
//! lent list, and what stands around it. The paragraph is "Refusal numbers" of document 01 with
//! its lengths and answers, and for the screens the end of "Plans with their verdicts". The move
//! stands in `moves.rs`, what keeps the rows in `kept.rs`.

use crate::asked::Asked;
use crate::lent::{Lent, Word};
use crate::run::{Answer, Run};
use gimmerskip::raw;
use second::orders;
use second::plain::{self, passes_over, SCREEN};
use second::read::{check_packed, Handed, Lines};
use second::tally::circle_class;
use second::{shapes, Line, Refusal};
use std::hint::black_box;

/// What an entry left in its list, with its number, or its refusal.
pub type Filled<T> = Result<(u64, Vec<T>), Refusal>;

/// A 64-bit answer in its two forms.
pub fn answer(number: u64) -> Answer {
    match number >> 32 {
        0 => Ok(number),
        refusal => Err(Refusal { number: refusal as u32, place: number & 0xffff_ffff }),
    }
}

/// Calls an entry that fills a list, and the second program on a copy of the list.
fn fill<T: Word>(
    run: &mut Run,
    entry: &str,
    asked: &Asked,
    proved: impl FnOnce(&mut [T]) -> Answer,
    second: impl FnOnce(&mut [T]) -> Answer,
) -> Filled<T> {
    let mut lent = Lent::filled(&mut run.random, asked.room());
    let before = lent.clone();
    let mut wanted_list = before.list().to_vec();
    let said = proved(lent.list_mut());
    let wanted = second(&mut wanted_list);
    run.meet(entry, &wanted);
    let tally = &mut run.tally;
    tally.compare(&format!("{entry}: the answer"), asked, wanted, said);
    let name = format!("{entry}: what stands around the list stays");
    tally.compare(&name, asked, None, lent.stray(&before));
    let name = format!("{entry}: the list holds the entries, and past them what it held");
    tally.compare(&name, asked, &wanted_list[..], lent.list());
    if said.is_err() {
        let name = format!("{entry}: a refusal leaves the list");
        tally.compare(&name, asked, before.list(), lent.list());
    }
    said.map(|number| (number, lent.list().to_vec()))
}

/// What was lent for reading has to be there unchanged. The compiler may take that for granted, so
/// the list is looked at again as if it were new.
pub fn stays<T: Word>(run: &mut Run, entry: &str, asked: &Asked, list: &[T], lent: &Lent<T>) {
    let name = format!("{entry}: what was lent for reading stays");
    run.tally.compare(&name, asked, list, black_box(lent).list());
}

/// A text lent for reading. A newline, or a whole line, stands where it ends.
fn lent_text(run: &mut Run, text: &[u8]) -> Lent<u8> {
    let more: &[u8] = if run.random.once_in(2) { b"\n1\tdo\t0" } else { b"1\tdo\t0\n" };
    Lent::among(text, more)
}

/// A packed plan lent for reading. Its last job could go on where it ends.
pub fn lent_plan(plan: &[u32]) -> Lent<u32> {
    Lent::among(plan, &[plan.last().map_or(1_024, |last| last / 1_024 * 1_024)])
}

/// Compares the lines of a text, handed out one after another, up to the end or a refusal, after which the same answer
/// comes again. Of a long text only some lines are asked for, since each call counts the lines before it.
pub fn lines(run: &mut Run, text: &[u8]) {
    let mut lines = Lines::new(text);
    let every = 1 + text.len() / 1_000;
    loop {
        let offset = lines.offset();
        let handed = lines.next_line();
        let wanted = match handed {
            Handed::Line(number) => Ok(number.into()),
            Handed::End => Ok(0),
            Handed::Refused(refusal) => Err(refusal),
        };
        let last = !matches!(handed, Handed::Line(_));
        if last || run.random.once_in(every) {
            let asked = Asked::Text { text, room: offset };
            let lent = lent_text(run, text);
            run.meet("line", &wanted);
            run.tally.compare(
                "line: the answer",
                &asked,
                wanted,
                answer(raw::line(lent.list(), offset)),
            );
            stays(run, "line", &asked, text, &lent);
        }
        if last {
            return;
        }
    }
}

/// Compares a call of `read`, and the lines of the same text.
pub fn read(run: &mut Run, text: &[u8], room: usize) -> Filled<u32> {
    lines(run, text);
    let asked = Asked::Text { text, room };
    let lent = lent_text(run, text);
    let proved = |list: &mut [u32]| answer(raw::read(lent.list(), list));
    let second = |list: &mut [u32]| plain::read_into(text, list).map(|lines| lines as u64);
    let filled = fill(run, "read", &asked, proved, second);
    stays(run, "read", &asked, text, &lent);
    filled
}

/// Compares a call of `write`.
pub fn write(run: &mut Run, plan: &[u32], room: usize) -> Filled<u8> {
    let asked = Asked::Packed { plan, room };
    let lent = lent_plan(plan);
    let proved = |list: &mut [u8]| answer(raw::write(lent.list(), list));
    let second = |list: &mut [u8]| plain::write_into(plan, list).map(|bytes| bytes as u64);
    let filled = fill(run, "write", &asked, proved, second);
    stays(run, "write", &asked, plan, &lent);
    filled
}

/// Compares a call of `table`.
pub fn table(run: &mut Run, plan: &[u32], room: usize) -> Filled<u32> {
    let asked = Asked::Packed { plan, room };
    let lent = lent_plan(plan);
    let proved = |list: &mut [u32]| answer(raw::table(lent.list(), list));
    let second = |list: &mut [u32]| plain::table_into(plan, list).map(|lines| lines as u64);
    let filled = fill(run, "table", &asked, proved, second);
    stays(run, "table", &asked, plan, &lent);
    filled
}

/// Compares a call of `verdict`.
pub fn verdict(run: &mut Run, plan: &[u32], room: usize) -> Filled<u16> {
    let asked = Asked::Packed { plan, room };
    let lent = lent_plan(plan);
    let proved = |list: &mut [u16]| answer(raw::verdict(lent.list(), list));
    let second = |list: &mut [u16]| plain::verdict_into(plan, list).map(u64::from);
    let filled = fill(run, "verdict", &asked, proved, second);
    stays(run, "verdict", &asked, plan, &lent);
    if let Ok((held, order)) = &filled {
        legal(run, &asked, plan, *held, order);
    }
    sort(run, plan, filled.as_ref().err());
    filled
}

/// Follows an order step by step, by "Legal orders" alone: however long the plan is, this needs no
/// trying of others.
fn legal(run: &mut Run, asked: &Asked, plan: &[u32], held: u64, order: &[u16]) {
    let name = "verdict: what is handed out is legal, with its devices held";
    let lines = order.iter().take(plan.len()).map(|&line| line.into()).collect::<Vec<usize>>();
    let wanted = check_packed(plan).ok().and_then(|plan| orders::held_after(&plan, &lines));
    run.tally.compare(name, asked, wanted.map(u64::from), Some(held));
    let said = answer(raw::judge(plan, &order[..plan.len()]));
    let name = "verdict: what is handed out passes the judge";
    run.tally.compare(name, asked, Ok(0), said);
}

/// Counts a plan in its classes, after its verdict.
fn sort(run: &mut Run, plan: &[u32], refusal: Option<&Refusal>) {
    let Ok(plan) = check_packed(plan) else {
        return;
    };
    match refusal.map(|refusal| refusal.number) {
        None => sort_accepted(run, &plan),
        Some(10) => run.tally.meet(circle_class(&plan)),
        Some(_) => {}
    }
}

/// Counts a plan that has an order.
fn sort_accepted(run: &mut Run, plan: &[Line]) {
    if passes_over(plan) {
        run.tally.meet("plan: accepted, (b) passes over a lower blocked device");
    }
    if plan.len() > 500 {
        run.tally.meet("plan: accepted with over 500 lines");
    }
    if !shapes::takes_again(plan) {
        run.tally.meet("plan: accepted, nothing taken again");
    }
    for shape in shapes::of_plan(plan) {
        run.tally.meet(&format!("plan: accepted, {shape}"));
    }
}

/// Compares a call of the screens' entry, and gives what it wrote.
pub fn screen(run: &mut Run, text: &[u8], room: usize) -> Vec<u8> {
    let asked = Asked::Text { text, room };
    let shown = lent_text(run, text);
    let mut lent = Lent::filled(&mut run.random, room);
    let before = lent.clone();
    let mut wanted_list = before.list().to_vec();
    let count = raw::order(shown.list(), lent.list_mut());
    let wanted = plain::screen(text, &mut wanted_list);
    sort_screen(run, text, room);
    let tally = &mut run.tally;
    tally.compare("screen: the count", &asked, wanted, count);
    let name = "screen: what stands around the buffer stays";
    tally.compare(name, &asked, None, lent.stray(&before));
    let name = "screen: the bytes that the program prints, and past them what the buffer held";
    tally.compare(name, &asked, &wanted_list[..], lent.list());
    if room < SCREEN {
        let name = "screen: too little room leaves the buffer";
        tally.compare(name, &asked, (0, before.list()), (count, lent.list()));
    }
    stays(run, "screen", &asked, text, &shown);
    lent.list()[..count.min(room)].to_vec()
}

/// Counts a call of the screens' entry, and keeps its text for the program.
fn sort_screen(run: &mut Run, text: &[u8], room: usize) {
    let order = second::read::read(text).and_then(|plan| plain::verdict(&plan));
    let wanted = order.map(|order| u64::from(order.held));
    run.texts.keep(text, &wanted);
    if room < SCREEN {
        run.tally.meet("screen: calls");
        run.tally.meet("screen: too little room");
    } else {
        run.meet("screen", &wanted);
    }
}
