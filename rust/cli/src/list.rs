//! A list of line numbers from elsewhere, one a line.

use crate::input::{Text, STANDARD};
use crate::names::is_whole;

/// So many bytes of a list are read. The entries of a legal order have five bytes at most, and there are no more of
/// them than a plan has lines: whatever goes on past this is refused before.
pub const MOST_BYTES: usize = 16_384;

/// The most digits of a count in the line that is passed over.
const DIGITS: usize = 10;

/// A list, and where it came from.
#[derive(Debug)]
pub struct List {
    /// The file's name as it can be shown.
    pub name: String,
    /// The numbers, or 0 for a line that is none or that no plan's line can have.
    pub entries: Vec<u16>,
    lines: Vec<Vec<u8>>,
    /// Whether a first line was passed over.
    headed: bool,
    /// Whether there may be more than was read.
    full: bool,
}

/// An entry as it was written.
#[derive(Debug)]
pub struct Written<'a> {
    /// The line, without its newline.
    pub bytes: &'a [u8],
    /// Whether a newline ends it.
    pub ended: bool,
    /// Whether it is the first line of the text.
    pub first: bool,
    /// Whether it may go on behind what was read.
    pub cut: bool,
}

impl List {
    /// The list in a text. A first line as it stands before an order that was printed is passed over.
    pub fn of(text: Text) -> List {
        let mut lines = text.bytes.split_inclusive(|&byte| byte == b'\n').peekable();
        let is_passed = |line: &&[u8]| line.strip_suffix(b"\n").is_some_and(is_heading);
        let headed = lines.next_if(is_passed).is_some();
        let lines: Vec<Vec<u8>> = lines.map(<[u8]>::to_vec).collect();
        let entries = lines.iter().map(|line| entry(line)).collect();
        List { name: text.name, entries, lines, headed, full: text.bytes.len() >= MOST_BYTES }
    }

    /// The entry at a position, counted from 1, as it was written.
    pub fn written(&self, position: usize) -> Option<Written<'_>> {
        let line = self.lines.get(position.checked_sub(1)?)?;
        let bytes = line.strip_suffix(b"\n").unwrap_or(line);
        let ended = bytes.len() < line.len();
        let first = position == 1 && !self.headed;
        Some(Written { bytes, ended, first, cut: self.full && !ended })
    }

    /// A position in words, with the line of the file where that is another.
    pub fn entry_words(&self, position: usize) -> String {
        let text = if self.name == STANDARD { "input" } else { "file" };
        match self.headed {
            true => format!("entry {position} (line {} of the {text})", position + 1),
            false => format!("entry {position}"),
        }
    }

    /// Whether it begins as a list does: with a number or a line that is passed over.
    pub fn begins_well(&self) -> bool {
        self.headed || self.entries.first().is_some_and(|&entry| entry > 0)
    }
}

/// Whether this is the line before an order that was printed: `order` and two counts. It is given without its newline.
pub fn is_heading(line: &[u8]) -> bool {
    let Ok(line) = std::str::from_utf8(line) else { return false };
    let is_count = |word: &&str| is_whole(word) && word.len() <= DIGITS;
    match &line.split('\t').collect::<Vec<&str>>()[..] {
        ["order", counts @ ..] => counts.len() == 2 && counts.iter().all(is_count),
        _ => false,
    }
}

/// The number in a line, or 0.
fn entry(line: &[u8]) -> u16 {
    let digits = line.strip_suffix(b"\n").and_then(|digits| std::str::from_utf8(digits).ok());
    digits.filter(|digits| is_whole(digits)).and_then(|digits| digits.parse().ok()).unwrap_or(0)
}

#[cfg(test)]
mod tests {
    use super::*;

    fn list(text: &str) -> List {
        List::of(Text { name: "l".to_string(), bytes: text.as_bytes().to_vec(), size: None })
    }

    #[test]
    fn numbers_one_a_line() {
        assert_eq!(list("1\n4\n1024\n").entries, [1, 4, 1_024]);
        assert_eq!(list("").entries, []);
        assert_eq!(
            list("1\n\n04\n+4\n4 \n4\r\nx\n65535\n65536\n4").entries,
            [1, 0, 0, 0, 0, 0, 0, 65_535, 0, 0]
        );
    }

    #[test]
    fn entries_as_they_were_written() {
        let written = |text: &str, position| {
            let list = list(text);
            let entry = list.written(position)?;
            Some((entry.bytes.to_vec(), entry.ended, entry.first, entry.cut))
        };
        assert_eq!(written("1\n4", 2), Some((b"4".to_vec(), false, false, false)));
        assert_eq!(written("1\n4", 1), Some((b"1".to_vec(), true, true, false)));
        assert_eq!(written("order\t1\t0\n1\n", 1), Some((b"1".to_vec(), true, false, false)));
        assert_eq!((written("1\n", 0), written("1\n", 2)), (None, None));
        let long = "1".repeat(MOST_BYTES);
        assert_eq!(written(&long, 1), Some((long.into_bytes(), false, true, true)));
    }

    #[test]
    fn positions_in_words() {
        assert_eq!(list("1\n").entry_words(3), "entry 3");
        assert_eq!(list("order\t2\t0\n1\n").entry_words(3), "entry 3 (line 4 of the file)");
        let name = STANDARD.to_string();
        let piped = List::of(Text { name, bytes: b"order\t2\t0\n".to_vec(), size: None });
        assert_eq!(piped.entry_words(1), "entry 1 (line 2 of the input)");
    }

    #[test]
    fn the_line_before_a_printed_order_is_passed_over() {
        assert_eq!(list("order\t2\t0\n1\n2\n").entries, [1, 2]);
        assert_eq!(list("order\t2\t0\n").entries, []);
        assert_eq!(list("1\norder\t2\t0\n").entries, [1, 0]);
        for odd in ["order\n", "order\t2\n", "order\t2\t0\t0\n", "Order\t2\t0\n", "order\t2\t0"] {
            assert_eq!(list(odd).entries, [0], "{odd:?}");
        }
        assert_eq!(list("order\t02\t0\n").entries, [0]);
        assert_eq!(list("refused\t2\t1\n").entries, [0]);
    }
}
