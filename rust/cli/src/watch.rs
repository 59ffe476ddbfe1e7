//! `gimmerskip move --watch`: claims moved as they are asked for on standard input, each answered at once, with the
//! quick verdict on the plan as it is then (02, request 4).

use crate::desk::Desk;
use crate::input::{End, Line, Text, LONGEST};
use crate::moving::{self, Claim};
use crate::names::Names;
use crate::replace::replace;
use crate::trouble::{Status, Trouble};
use crate::words::{counted, grouped, held, refused};
use gimmerskip::{Plan, Refusal, Tabled};
use std::ffi::OsStr;
use std::io::{self, IsTerminal};
use std::os::unix::ffi::OsStrExt;

/// Moves claims of one plan until the input ends; then the plan is printed, or its file replaced.
pub fn run(desk: &mut Desk, file: &OsStr, in_place: bool) -> Result<(), Trouble> {
    if in_place {
        moving::can_be_replaced(file)?;
    }
    let text = desk.input.plan(file)?;
    let Some(plan) = moving::plan(desk, &text) else { return Ok(()) };
    let mut tabled = Tabled::new(plan);
    let mut lines = desk.input.lines()?;
    greet(desk, &text.name, &tabled, in_place);
    let mut number = 0;
    while let Some(line) = lines.next_line()? {
        number += 1;
        answer(desk, &mut tabled, number, &line)?;
    }
    if tabled.quick().is_err() {
        desk.met(Status::Refused);
    }
    finish(desk, file, &text, tabled.plan(), in_place)
}

/// Whoever sits at a terminal is told how the plan stands, and what to type.
fn greet(desk: &mut Desk, name: &str, tabled: &Tabled, in_place: bool) {
    if !io::stdin().is_terminal() {
        return;
    }
    let (plan, lines) = (tabled.plan(), counted(tabled.plan().len(), "line"));
    let stands = match tabled.quick() {
        Ok(count) => format!("accepted, {lines}, {}", held(count)),
        Err(refusal) => {
            format!("it has no order: {}", moving::without_order(plan, refusal, &desk.names))
        }
    };
    let goes = if in_place { "puts the plan into the file" } else { "prints the plan" };
    desk.say(&format!("{name}: {stands}\n"));
    desk.say(&format!(
        "Type a move a line, as '5 2' for line 5 to device 2; Ctrl-D {goes}, Ctrl-C breaks off.\n"
    ));
}

/// Answers one line of the input, whatever it is, by one line of output.
fn answer(desk: &mut Desk, tabled: &mut Tabled, number: usize, line: &Line) -> Result<(), Trouble> {
    let name = format!("move {number}");
    let one = match asked(line, &desk.names) {
        Ok(one) => one,
        Err(Trouble(words)) => {
            desk.out.put(format!("malformed\t{number}\n").as_bytes())?;
            desk.say_trouble(&Trouble(format!("{name}: {words}")));
            return Ok(());
        }
    };
    let before = tabled.plan().clone();
    match one.moved(tabled) {
        Ok(count) => {
            let verdict = tabled.quick();
            desk.out.put(format!("changed\t{count}\t{}\n", printed(verdict)).as_bytes())?;
            moving::say_what_is_taken_again(desk, &name, &before, tabled.plan());
            moving::say_if_without_order(desk, &name, tabled.plan(), verdict);
        }
        Err(diagnosis) => {
            desk.out.put(format!("{}\n", refused(diagnosis.refusal)).as_bytes())?;
            desk.say_refusal(&name, &diagnosis);
        }
    }
    Ok(())
}

/// The quick verdict as it is printed.
fn printed(verdict: Result<usize, Refusal>) -> String {
    match verdict {
        Ok(held) => format!("accepted\t{held}"),
        Err(refusal) => refused(refusal),
    }
}

/// The move in a line: a line's number, a tab or spaces, and a device. A name may have spaces of its own.
fn asked(line: &Line, names: &Names) -> Result<Claim, Trouble> {
    let wrong = |words: String| Err(Trouble(words));
    match line.end {
        End::Newline => {}
        End::Input => return wrong("has no newline at its end, and may be cut off".to_string()),
        End::Cut => return wrong(format!("has more than {} bytes", grouped(LONGEST))),
    }
    if line.bytes.contains(&b'\r') {
        return wrong(
            "has a carriage return (a Windows newline): Unix newlines are needed (LF)".to_string(),
        );
    }
    let words = bare(&line.bytes);
    if words.is_empty() {
        return wrong("is an empty line: a line and a device are needed".to_string());
    }
    let Some(gap) = words.iter().position(is_gap) else {
        return wrong(
            "has one word: a line and a device are needed, with a tab or spaces between"
                .to_string(),
        );
    };
    let (line, device) = (&words[..gap], bare(&words[gap..]));
    Claim::of(OsStr::from_bytes(line), OsStr::from_bytes(device), names)
}

/// Whether a byte parts words.
fn is_gap(byte: &u8) -> bool {
    matches!(byte, b' ' | b'\t')
}

/// Words without the gaps before and after them.
fn bare(bytes: &[u8]) -> &[u8] {
    let is_word = |byte: &u8| !is_gap(byte);
    let first = bytes.iter().position(is_word).unwrap_or(bytes.len());
    let last = bytes.iter().rposition(is_word).map_or(first, |at| at + 1);
    &bytes[first..last]
}

/// Prints the plan, or puts it into its file. Where it cannot be put there it is printed all the same: a morning's
/// moves are not to be lost.
fn finish(
    desk: &mut Desk,
    file: &OsStr,
    text: &Text,
    plan: &Plan,
    in_place: bool,
) -> Result<(), Trouble> {
    let bytes = plan.text().into_bytes();
    let is_done = in_place && (bytes == text.bytes || is_replaced(desk, file, text, &bytes));
    match is_done {
        true => Ok(()),
        // One write for both, so that a reader who sees the line of hyphens has the plan.
        false => desk.out.put(&[b"--\n", &bytes[..]].concat()),
    }
}

/// Whether the file was replaced; if not, it is said why. One that somebody else has changed in the meantime is left.
fn is_replaced(desk: &mut Desk, file: &OsStr, text: &Text, bytes: &[u8]) -> bool {
    let replaced = match desk.input.plan(file) {
        Ok(now) if now.bytes != text.bytes => {
            Err(Trouble(format!("{}: it was changed since it was read, and is left so", text.name)))
        }
        Ok(_) => replace(file, bytes),
        Err(trouble) => Err(trouble),
    };
    if let Err(Trouble(words)) = &replaced {
        desk.say_trouble(&Trouble(format!("{words}; the plan is printed instead")));
    }
    replaced.is_ok()
}

#[cfg(test)]
mod tests {
    use super::*;

    /// Why a line is no move.
    fn wrong(bytes: &[u8]) -> Option<String> {
        let names = Names::read("n", b"5\tvalve five\n").expect("nothing is wrong");
        let line = Line { bytes: bytes.to_vec(), end: End::Newline };
        asked(&line, &names).err().map(|trouble| trouble.0)
    }

    #[test]
    fn moves_as_they_are_typed() {
        for line in [&b"5 2"[..], b"5\t2", b"5 \t  2", b" 5 2\t ", b"5 valve five", b"0 99"] {
            assert_eq!(wrong(line), None, "{line:?}");
        }
        for line in [&b""[..], b" ", b"\t \t"] {
            assert!(wrong(line).is_some_and(|words| words.starts_with("is an empty line")));
        }
        assert!(wrong(b"5").is_some_and(|words| words.starts_with("has one word")));
        assert!(wrong(b"5 2\r").is_some_and(|words| words.contains("carriage return")));
        for (line, words) in [
            (&b"x 2"[..], "'x' is no line's number"),
            (b"05 2", "'05' is no line's number"),
            (b"5 2 7", "'2 7' is neither a device's number nor one of the names given"),
            (b"5 valve", "'valve' is neither a device's number nor one of the names given"),
        ] {
            assert_eq!(wrong(line).as_deref(), Some(words));
        }
    }

    #[test]
    fn words_without_gaps() {
        assert_eq!([&b" a b\t"[..], b"", b" \t", b"a"].map(bare), [&b"a b"[..], b"", b"", b"a"]);
    }
}
