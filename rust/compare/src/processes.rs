//! A program held against the second program, on the texts that were kept for it, and on streams
//! that fail. The paragraphs are that on the program `order` in "Plans with their verdicts" of
//! document 01, and that on the program `judge` in request 1 of document 02.

use crate::asked::Asked;
use crate::program::{Ended, Program};
use crate::run::{Run, Texts};
use second::random::Random;
use second::read::TEXT;
use std::fs::{File, OpenOptions};
use std::process::Stdio;
use std::time::Duration;

/// One text, in these pieces.
pub fn print(run: &mut Run, program: &Program, text: &[u8], pieces: Vec<Vec<u8>>) -> Vec<u8> {
    let asked = Asked::Fed { text, pieces: pieces.len() };
    let name = match pieces.len() {
        1 => format!("{}: prints what the second program prints", program.name),
        _ => format!("{}: prints it too for a text that comes in pieces", program.name),
    };
    run.meet(program.name, &(program.answers)(text));
    let ended = program.fed(pieces, Duration::from_millis(1));
    let out = ended.out.clone();
    let wanted = Ended { out: (program.prints)(text), err: Vec::new(), by_itself: true };
    run.tally.compare(&name, &asked, wanted, ended);
    out
}

/// The text in pieces: single bytes for a short one, else some two dozen of any length.
fn pieces(random: &mut Random, text: &[u8]) -> Vec<Vec<u8>> {
    let most = if text.len() <= 40 { 1 } else { text.len() / 12 };
    let mut pieces = Vec::new();
    let mut rest = text;
    while !rest.is_empty() {
        let length = (1 + random.below(most)).min(rest.len());
        pieces.push(rest[..length].to_vec());
        rest = &rest[length..];
    }
    pieces
}

/// All texts that were kept, whole, and some of each kind in pieces.
fn kept_texts(run: &mut Run, program: &Program, texts: Texts) {
    for texts in texts.kinds() {
        for (at, text) in texts.iter().enumerate() {
            print(run, program, text, vec![text.clone()]);
            if at % 16 == 0 {
                let pieces = pieces(&mut run.random, text);
                print(run, program, text, pieces);
            }
        }
    }
}

/// Texts about the longest and far over it, whole and in pieces, and one that never ends.
fn long_texts(run: &mut Run, program: &Program) {
    for length in [TEXT - 1, TEXT, TEXT + 1, TEXT + 2, 2 * TEXT, 100_000, 1_000_000] {
        for line in ["1\tdo\t0\n", "1\tdo\t200\n", "\n", "64\tstart\t64\n"] {
            let text: Vec<u8> = line.bytes().cycle().take(length).collect();
            print(run, program, &text, vec![text.clone()]);
            let halves = text.chunks(text.len() / 2 + 1).map(<[u8]>::to_vec).collect();
            print(run, program, &text, halves);
        }
    }
    let endless = File::open("/dev/zero").expect("there is an endless file");
    let asked = Asked::Streams { what: "standard input never ends" };
    let out = (program.prints)(&[0; TEXT + 1]);
    let wanted = Ended { out, err: Vec::new(), by_itself: true };
    let ended = program.with(endless.into(), Stdio::piped());
    let name = format!("{}: an input without end is too long", program.name);
    run.tally.compare(&name, &asked, wanted, ended);
}

/// A stream that fails: nothing on standard output, and one line on standard error.
fn fails(run: &mut Run, program: &Program, name: &str, what: &str, ended: Ended) {
    let newlines = ended.err.iter().filter(|&&byte| byte == b'\n').count();
    let one_line = newlines == 1 && ended.err.len() > 1 && ended.err.ends_with(b"\n");
    let what = format!("{what}; standard error had b\"{}\"", ended.err.escape_ascii());
    let wanted = (Vec::new(), true, true);
    let answer = (ended.out, one_line, ended.by_itself);
    let name = format!("{}: {name}", program.name);
    run.tally.compare(&name, &Asked::Streams { what: &what }, wanted, answer);
}

/// Standard input that cannot be read, and standard output that cannot be written.
fn broken_streams(run: &mut Run, program: &Program) {
    let directory = File::open("/").expect("the root can be opened");
    let ended = program.with(directory.into(), Stdio::piped());
    fails(run, program, "a directory as input", "standard input is a directory", ended);
    let unread = OpenOptions::new().write(true).open("/dev/null").expect("it can be written");
    let ended = program.with(unread.into(), Stdio::piped());
    fails(run, program, "an input for writing only", "standard input is for writing only", ended);
    let ended = program.redirected("<&-");
    fails(run, program, "a closed input", "standard input is closed", ended);
    let full = OpenOptions::new().write(true).open("/dev/full").expect("it can be opened");
    let ended = program.with(Stdio::null(), full.into());
    fails(run, program, "a full output", "standard output is full", ended);
    let ended = program.redirected(">&-");
    fails(run, program, "a closed output", "standard output is closed", ended);
}

/// Whether the program is there; if not, that is a failure and the rest cannot be run.
pub fn is_there(run: &mut Run, program: &Program) -> bool {
    let there = program.path.is_file();
    let what = format!("looked for {}", program.path.display());
    let name = format!("{}: it is there", program.name);
    run.tally.compare(&name, &Asked::Streams { what: &what }, true, there);
    there
}

/// All runs of a program, with the texts that were kept for it.
pub fn processes(run: &mut Run, program: &Program, texts: Texts) {
    kept_texts(run, program, texts);
    long_texts(run, program);
    broken_streams(run, program);
}
