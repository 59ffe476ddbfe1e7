//! Refusals 1 to 3: what is wrong with the text itself.

use super::{line_of, Concerned, Found};
use crate::input::Text;
use crate::look::{look, Finding, OUT};
use crate::shown::{self, Tabs};
use crate::words::{counted, grouped, listed};
use gimmerskip::{MAX_BYTES, MAX_LINES};

/// The most bytes that a line needs, with its newline.
const LONGEST_LINE: usize = 12;

const SPLIT: &str = "split the plan, or take out what is not needed";
const SHAPE: &str =
    "A line is a job from 1 to 64, a tab, a verb in small letters, a tab, a number and a newline.";

/// 1: how much is too much, and what is wrong with the first line or, if nothing is, a line that is longer than any has
/// to be.
pub fn too_long(text: &Text) -> Option<Found> {
    let most = grouped(MAX_BYTES);
    let mut found =
        Found { head: format!("the text has more than {most} bytes"), ..Found::default() };
    if let Some(size) = text.size.map(|size| size as usize).filter(|&size| size > MAX_BYTES) {
        let over = grouped(size - MAX_BYTES);
        found.said.push(format!("It has {} bytes, {over} too many.", grouped(size)));
    }
    let allowed = text.bytes.get(..MAX_BYTES)?;
    let line = 1 + allowed.iter().filter(|&&byte| byte == b'\n').count();
    let first = grouped(MAX_BYTES + 1);
    found.said.push(format!("Byte {first}, the first too many, stands in line {line}."));
    found.mend = SPLIT.to_string();
    // A text of the wrong form may be too long only because of it.
    if let Some((shown, first)) = wrong_form(&text.bytes) {
        found.lines.push(shown);
        found.said.push(format!("Line 1 {}.", first.words));
        found.mend = format!("{}; if it is still too long, {SPLIT}", first.mend);
        return Some(found);
    }
    let mut lines = text.bytes.split_inclusive(|&byte| byte == b'\n');
    if let Some(at) = lines.position(|line| line.len() > LONGEST_LINE) {
        found.lines.push(whole_line(&text.bytes, at + 1)?);
        found.said.push(format!("Line {} is longer than any line of a plan has to be.", at + 1));
    } else if line > MAX_LINES {
        found.said.push(format!("A plan has at most {} lines.", grouped(MAX_LINES)));
    }
    Some(found)
}

/// What is wrong with the first line, if anything.
fn wrong_form(text: &[u8]) -> Option<(Concerned, Finding)> {
    let (line, _) = line_of(text, 1)?;
    let first = look(line, true, true).into_iter().next()?;
    let shown = shown::line(line, first.at.clone(), Tabs::Marked);
    Some((Concerned { number: 1, shown }, first))
}

/// 2: what the look finds, with the first of it pointed at.
pub fn malformed(text: &[u8], number: usize) -> Option<Found> {
    let (line, ended) = line_of(text, number)?;
    let findings = look(line, ended, number == 1);
    let Some(first) = findings.first() else {
        return Some(Found {
            head: format!("line {number} is malformed"),
            lines: vec![whole_line(text, number)?],
            said: vec![SHAPE.to_string()],
            mend: "look at the line with an editor that shows tabs".to_string(),
            example: None,
        });
    };
    let shown = shown::line(line, first.at.clone(), Tabs::Marked);
    let mut said = Vec::new();
    for finding in &findings[1..] {
        let sentence = format!("Line {number} also {}.", finding.words);
        // Two gaps with the same fault are told once.
        if finding.words != first.words && !said.contains(&sentence) {
            said.push(sentence);
        }
    }
    let lines = of_each_line(text);
    said.extend(same_fault(&lines, &first.words));
    said.extend(other_faults(&lines, &first.words));
    Some(Found {
        head: format!("line {number} {}", first.words),
        lines: vec![Concerned { number, shown }],
        said,
        mend: mends(&findings, lines.iter().filter(|found| has(found, &first.words)).count()),
        example: None,
    })
}

/// What is wrong with each line of a text.
fn of_each_line(text: &[u8]) -> Vec<Vec<Finding>> {
    let lines = text.split_inclusive(|&byte| byte == b'\n').enumerate();
    let found = lines.map(|(at, line)| {
        let bare = line.strip_suffix(b"\n");
        look(bare.unwrap_or(line), bare.is_some(), at == 0)
    });
    found.collect()
}

/// Whether a line has a fault with these words.
fn has(found: &[Finding], words: &str) -> bool {
    found.iter().any(|finding| finding.words == words)
}

/// How many lines have the same fault, if this one is not the only one.
fn same_fault(lines: &[Vec<Finding>], words: &str) -> Option<String> {
    let (all, faulty) = (lines.len(), lines.iter().filter(|found| has(found, words)).count());
    match faulty {
        0 | 1 => None,
        2 if all == 2 => Some("Both lines have this fault.".to_string()),
        _ if faulty == all => Some(format!("All {} lines have this fault.", grouped(all))),
        _ => {
            let (faulty, all) = (grouped(faulty), grouped(all));
            Some(format!("{faulty} of the {all} lines have this fault."))
        }
    }
}

/// The lines that have other faults.
fn other_faults(lines: &[Vec<Finding>], words: &str) -> Option<String> {
    let others = (1..).zip(lines).filter(|(_, found)| !found.is_empty() && !has(found, words));
    let others: Vec<usize> = others.map(|(number, _)| number).collect();
    match &others[..] {
        [] => None,
        [line] => Some(format!("Line {line} is malformed too.")),
        [first, .., last] if others.len() > 6 => {
            let count = grouped(others.len());
            Some(format!("{count} other lines from line {first} to line {last} are malformed too."))
        }
        _ => Some(format!("Lines {} are malformed too.", listed(&others))),
    }
}

/// How all that was found is mended, each way told once. So many lines have the first fault.
fn mends(findings: &[Finding], lines: usize) -> String {
    let mut mends: Vec<&str> = Vec::new();
    for finding in findings {
        let mend =
            if finding.mend == OUT && lines > 1 { "take these lines out" } else { &finding.mend };
        if !mends.contains(&mend) {
            mends.push(mend);
        }
    }
    mends.join("; ")
}

/// 3: how many lines are too many.
pub fn too_many_lines(text: &[u8]) -> Option<Found> {
    let lines = text.split_inclusive(|&byte| byte == b'\n').count();
    let over = lines.checked_sub(MAX_LINES).filter(|&over| over > 0)?;
    Some(Found {
        head: format!("something stands after line {MAX_LINES}, the last that a plan can have"),
        lines: vec![whole_line(text, MAX_LINES + 1)?],
        said: vec![format!("The text has {}, {} too many.", counted(lines, "line"), grouped(over))],
        mend: SPLIT.to_string(),
        example: None,
    })
}

/// A line with all of it pointed at.
fn whole_line(text: &[u8], number: usize) -> Option<Concerned> {
    let (line, _) = line_of(text, number)?;
    Some(Concerned { number, shown: shown::line(line, 0..line.len(), Tabs::Marked) })
}
