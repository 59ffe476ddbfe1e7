//! What is wrong with a plan, a move or an order from elsewhere, in words. Number and place come from the library; the
//! words come from looking at the text, and where the look finds nothing they are general.

mod astray;
mod entry;
mod faults;
mod inner;
mod moves;
mod no_order;
mod text;
mod tried;

pub use astray::of_list;
pub use moves::of_move;

use crate::input::Text;
use crate::names::Names;
use crate::shown::{self, Shown, Tabs};
use crate::style::Style;
use gimmerskip::{Plan, Refusal, Step};
use std::ops::Range;

/// A refusal with its words.
#[derive(Debug)]
pub struct Diagnosis {
    /// The refusal, as the library has it.
    pub refusal: Refusal,
    /// Its place, in words.
    place: String,
    /// What is wrong, in one line.
    pub head: String,
    /// The lines concerned, those that are pointed at among them.
    pub lines: Vec<Concerned>,
    /// What else there is to say, sentence by sentence.
    pub said: Vec<String>,
    /// How it could be mended: it goes on from "To mend it,".
    pub mend: String,
    /// An edit that was tried and will do, in a sentence.
    pub example: Option<String>,
}

/// A line that a refusal is about.
#[derive(Debug)]
pub struct Concerned {
    /// Its number.
    pub number: usize,
    /// The line, with carets where something in it is wrong.
    pub shown: Shown,
}

impl Diagnosis {
    /// A diagnosis with the library's general words.
    fn general(refusal: Refusal) -> Diagnosis {
        Diagnosis::of(refusal, Found { head: refusal.to_string(), ..Found::default() })
    }

    /// A diagnosis with what was found.
    fn of(refusal: Refusal, found: Found) -> Diagnosis {
        let Found { head, lines, said, mend, example } = found;
        let place = refusal.place().to_string();
        Diagnosis { refusal, place, head, lines, said, mend, example }
    }

    /// The same, with a place as it was given: one that is too high for the library was put as the highest.
    pub fn as_given(mut self, place: &str) -> Diagnosis {
        if self.refusal.place() == u32::MAX {
            self.head = self.head.replace(&self.place, place);
            self.place = place.to_string();
        }
        self
    }

    /// The refusal in one line: the file, number and place, and the words.
    pub fn headline(&self, name: &str, style: Style) -> String {
        let (number, place) = (self.refusal.number(), &self.place);
        format!("{name}: {} {number} {place}: {}\n", style.refused(), self.head)
    }

    /// The short form: one line, and the line that is pointed at.
    pub fn short(&self, name: &str, style: Style) -> String {
        let mut out = self.headline(name, style);
        let mut pointed = self.lines.iter().filter(|line| !line.shown.carets.is_empty());
        if let Some(line) = pointed.next() {
            line.put(&mut out, style, line.number);
        }
        out
    }

    /// All there is to say.
    pub fn long(&self, name: &str, style: Style) -> String {
        let mut out = self.headline(name, style);
        if !self.lines.is_empty() {
            out.push('\n');
            self.put_lines(&mut out, style);
        }
        let mend = Some(format!("To mend it, {}.", self.mend)).filter(|_| !self.mend.is_empty());
        let mut sentences = self.said.iter().chain(&mend).chain(&self.example).peekable();
        if sentences.peek().is_some() {
            out.push('\n');
        }
        out.extend(sentences.flat_map(|sentence| [sentence, "\n"]));
        out
    }

    /// Puts the lines concerned, their numbers equally wide.
    fn put_lines(&self, out: &mut String, style: Style) {
        let highest = self.lines.iter().map(|line| line.number).max().unwrap_or(0);
        for line in &self.lines {
            line.put(out, style, highest);
        }
    }
}

impl Concerned {
    /// Puts the line with its number, as wide as the highest number that stands below or above.
    fn put(&self, out: &mut String, style: Style, highest: usize) {
        let width = highest.to_string().len();
        shown::put_line(out, &format!("line {:>width$}", self.number), &self.shown, style);
    }
}

/// What is wrong with a text that the library refuses so.
pub fn of_text(text: &Text, refusal: Refusal, names: &Names) -> Diagnosis {
    let found = match refusal {
        Refusal::TextTooLong => text::too_long(text),
        Refusal::Malformed(line) => text::malformed(&text.bytes, line as usize),
        Refusal::TooManyLines => text::too_many_lines(&text.bytes),
        Refusal::TwoLasting(device) => no_order::two_lasting(&text.bytes, device, names),
        Refusal::LeadsBack(device) => no_order::leads_back(&text.bytes, device, names),
        other => faults::of_line(&text.bytes, other, names),
    };
    match found {
        Some(found) => Diagnosis::of(refusal, found),
        None => Diagnosis::general(refusal),
    }
}

/// What a look at the text has found.
#[derive(Debug, Default)]
struct Found {
    head: String,
    lines: Vec<Concerned>,
    said: Vec<String>,
    mend: String,
    example: Option<String>,
}

/// A line of a text, counted from 1, without its newline, and whether it has one.
fn line_of(text: &[u8], number: usize) -> Option<(&[u8], bool)> {
    let mut lines = text.split_inclusive(|&byte| byte == b'\n');
    let line = lines.nth(number.checked_sub(1)?)?;
    Some(match line.strip_suffix(b"\n") {
        Some(line) => (line, true),
        None => (line, false),
    })
}

/// A line of a text with nothing pointed at.
fn plain_line(text: &[u8], number: usize) -> Option<Concerned> {
    let (line, _) = line_of(text, number)?;
    let shown = Shown { carets: 0..0, ..shown::line(line, 0..0, Tabs::Wide) };
    Some(Concerned { number, shown })
}

/// The fields of a line that is right.
#[derive(Clone, Copy)]
enum Field {
    Job,
    Operand,
}

/// A line that is right by itself, with one of its fields pointed at.
fn pointed_line(text: &[u8], number: usize, field: Field) -> Option<Concerned> {
    let (line, _) = line_of(text, number)?;
    let tab = |byte: &u8| *byte == b'\t';
    let at: Range<usize> = match field {
        Field::Job => 0..line.iter().position(tab)?,
        Field::Operand => line.iter().rposition(tab)? + 1..line.len(),
    };
    Some(Concerned { number, shown: shown::line(line, at, Tabs::Wide) })
}

/// The steps of a text from the top, as far as the lines are right by themselves.
fn steps(text: &[u8]) -> Vec<Step> {
    gimmerskip::lines(text).map_while(Result::ok).collect()
}

/// The plan of a text that has no fault.
fn plan(text: &[u8]) -> Option<Plan> {
    Plan::from_text(text).ok()
}
