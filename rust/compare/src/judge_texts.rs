//! Texts for the program `judge`: a plan, the line that parts, and the entries, each of them right,
//! nearly right or spoilt; and texts that go on past what the program reads. The paragraph is
//! request 1 of document 02.

use crate::bytes::any_text;
use crate::judging::some_order;
use crate::plans::{any_plan, forms, long_plan, short_plan};
use crate::processes::{self, print};
use crate::program::Program;
use crate::run::{Run, Texts};
use second::damage::damaged_text;
use second::elsewhere::damaged;
use second::listed::{text, A};
use second::random::Random;
use second::read::{write, TEXT};

/// So many texts are made, of which some of each kind are kept.
const MADE: usize = 40_000;
/// A plan's limit, the line that parts, five bytes for each of 1,024 entries, and one more: no legal
/// text is as long, and no byte behind can matter.
const ROOM: usize = TEXT + 3 + 1_024 * 5 + 1;

/// Lines that do not part, or part and leave something behind.
const PARTINGS: [&str; 12] = [
    "", "--", "-- \n", " --\n", "--\r\n", "--\n--\n", "---\n", "-\n", "\n--\n", "--\n\n", "-\t-\n",
    "--\0\n",
];

/// An entry that is nearly the number of a line.
fn odd_entry(random: &mut Random, line: u16) -> String {
    let line = u128::from(line);
    match random.below(15) {
        0 => String::new(),
        1 => "0".to_string(),
        2 => format!("0{line}"),
        3 => format!("+{line}"),
        4 => format!("-{line}"),
        5 => format!("{line} "),
        6 => format!(" {line}"),
        7 => format!("{line}\r"),
        8 => format!("{line}\t"),
        9 => (65_536 + line).to_string(),
        10 => ((1 << 32) + line).to_string(),
        11 => ((1 << 64) + line).to_string(),
        12 => line.to_string().repeat(20),
        13 => format!("line {line}"),
        _ => "--".to_string(),
    }
}

/// The entries, one a line; at times one of them is odd.
fn spelt(random: &mut Random, order: &[u16]) -> Vec<u8> {
    let mut entries: Vec<String> = order.iter().map(u16::to_string).collect();
    if !order.is_empty() && random.once_in(3) {
        let at = random.below(order.len());
        entries[at] = odd_entry(random, order[at]);
    }
    entries.into_iter().map(|entry| entry + "\n").collect::<String>().into_bytes()
}

/// A plan's text with the entries of an order of it, damaged or not.
fn parts(random: &mut Random) -> (Vec<u8>, Vec<u8>) {
    let plan = if random.once_in(80) { long_plan(random) } else { short_plan(random) };
    let mut order = some_order(random, &plan);
    if random.once_in(2) {
        order = damaged(random, plan.len(), &order);
    }
    (write(&plan), spelt(random, &order))
}

/// A text of any kind.
fn some_text(random: &mut Random) -> Vec<u8> {
    let (mut plan, entries) = parts(random);
    match random.below(8) {
        0 => plan = any_text(random),
        1..=3 => {
            let other = any_plan(random);
            plan = forms(random, &other).1;
        }
        _ => {}
    }
    let parting = if random.once_in(4) { random.one_of(&PARTINGS) } else { "--\n" };
    let whole = [&plan[..], parting.as_bytes(), &entries].concat();
    match random.below(10) {
        0 => damaged_text(random, &whole),
        1 => whole[..random.below(whole.len() + 1)].to_vec(),
        _ => whole,
    }
}

/// Texts of each kind.
fn kept(random: &mut Random, program: &Program) -> Texts {
    let mut texts = Texts::default();
    for _ in 0..MADE {
        let text = some_text(random);
        texts.keep(&text, &(program.answers)(&text));
    }
    texts
}

/// The numbers from 1 on, one a line.
fn numbers(last: usize) -> Vec<u8> {
    (1..=last).map(|line| format!("{line}\n")).collect::<String>().into_bytes()
}

/// The beginning with one byte behind it, again and again up to a length, and then the end.
fn filled(begin: &[u8], byte: u8, length: usize, end: &[u8]) -> Vec<u8> {
    let mut text = begin.to_vec();
    text.resize(length.max(begin.len()), byte);
    text.extend(end);
    text
}

/// Texts whose plan, whose entries, or of which one entry goes up to this length.
fn up_to(length: usize) -> Vec<Vec<u8>> {
    let short = [&text(A)[..], b"--\n1\n4\n"].concat();
    let whole = [&short[..], b"5\n6\n2\n3\n"].concat();
    let full = b"1\tdo\t0\n".repeat(1_024);
    let longest = b"1\ttake\t31\n1\tgive\t31\n".repeat(512);
    let with_all = |plan: &[u8]| [plan, b"--\n", &numbers(1_024)].concat();
    vec![
        filled(&short, b'5', length, b"\n6\n2\n3\n"),
        filled(&short, b'0', length, b"5\n6\n2\n3\n"),
        filled(&short, b'\n', length, b"5\n6\n2\n3\n"),
        filled(&whole, b'\n', length, b""),
        filled(&whole, b'7', length, b"\n"),
        filled(b"--\n", b'1', length, b"\n"),
        filled(b"", b'x', length, b"\n--\n1\n"),
        filled(&text(A), b'\n', length, b"--\n1\n4\n5\n6\n2\n3\n"),
        filled(&full, b'\n', length, b"--\n"),
        filled(&with_all(&full), b'\n', length, b"1\n"),
        filled(&with_all(&longest), b'1', length, b"\n"),
        with_all(&full),
        with_all(&longest),
    ]
}

/// Texts about the lengths at which something is too long, and far over them.
fn long_texts(run: &mut Run, program: &Program) {
    let about = |length: usize| length - 5..=length + 5;
    let lengths = about(TEXT).chain(about(ROOM)).chain([20_000, 100_000, 1_000_000]);
    for text in lengths.flat_map(up_to) {
        print(run, program, &text, vec![text.clone()]);
    }
    for text in up_to(ROOM + 1) {
        let halves = text.chunks(text.len() / 2 + 1).map(<[u8]>::to_vec).collect();
        print(run, program, &text, halves);
    }
    let entries = numbers(2_000);
    let text = [&text(A)[..], b"--\n", &entries].concat();
    print(run, program, &text, vec![text.clone()]);
}

/// All runs of the program.
pub fn processes(run: &mut Run, program: &Program) {
    let texts = kept(&mut run.random, program);
    processes::processes(run, program, texts);
    long_texts(run, program);
}
