//! Bytes as they can be shown: a line with what is wrong in it pointed at, and names of files.
//!
//! Only plain ASCII goes out. All else, and the sign that marks it, is shown between angle brackets: a byte by its two
//! hexadecimal digits, a tab as `<tab>`, a carriage return as `<cr>`.

use crate::style::Style;
use std::ffi::OsStr;
use std::fmt::Write;
use std::ops::Range;

/// How tabs are shown.
#[derive(Clone, Copy, Debug, PartialEq, Eq)]
pub enum Tabs {
    /// As `<tab>`, where the fault may be one of spaces.
    Marked,
    /// By spaces up to the next column that eight divides, as editors do.
    Wide,
}

/// The most columns of a line that are shown.
const WIDTH: usize = 72;
/// What stands for columns that are left out.
const CUT: &str = "..";

/// A line as shown, and the columns that are pointed at.
#[derive(Debug, PartialEq, Eq)]
pub struct Shown {
    /// The line.
    pub text: String,
    /// The columns.
    pub carets: Range<usize>,
}

/// Shows a line with these bytes of it pointed at. A long line is cut, around the bytes pointed at.
pub fn line(bytes: &[u8], pointed: Range<usize>, tabs: Tabs) -> Shown {
    let (cells, columns) = cells(bytes, tabs);
    let at = columns[pointed.start.min(bytes.len())];
    let whole = columns[bytes.len()];
    // The left edge of what is shown: nothing is cut off a line that fits.
    let left = if whole <= WIDTH { 0 } else { at.saturating_sub(WIDTH / 2) };
    let first = columns.partition_point(|&column| column < left);
    let last = columns.partition_point(|&column| column <= columns[first] + WIDTH) - 1;
    let front = if first > 0 { CUT } else { "" };
    let back = if last < bytes.len() { CUT } else { "" };
    let text = format!("{front}{}{back}", cells[first..last].concat());
    let column = |byte: usize| columns[byte.clamp(first, last)] - columns[first] + front.len();
    let begin = column(pointed.start);
    Shown { text, carets: begin..column(pointed.end).max(begin + 1) }
}

/// Each byte as shown, and the column where it begins; the last column is the line's end.
fn cells(bytes: &[u8], tabs: Tabs) -> (Vec<String>, Vec<usize>) {
    let (mut cells, mut columns, mut column) = (Vec::new(), vec![0], 0);
    for &byte in bytes {
        let cell = match (byte, tabs) {
            (b'\t', Tabs::Wide) => " ".repeat(8 - column % 8),
            _ => cell(byte),
        };
        column += cell.len();
        cells.push(cell);
        columns.push(column);
    }
    (cells, columns)
}

/// One byte as shown.
fn cell(byte: u8) -> String {
    match byte {
        b'\t' => "<tab>".to_string(),
        b'\r' => "<cr>".to_string(),
        b'<' => "<3c>".to_string(),
        b' '..=b'~' => char::from(byte).to_string(),
        _ => format!("<{byte:02x}>"),
    }
}

/// A field of a line in quotes, short enough for a sentence.
pub fn field(bytes: &[u8]) -> String {
    format!("'{}'", cut(bytes))
}

/// A field of a line, short enough for a sentence.
pub fn cut(bytes: &[u8]) -> String {
    const MOST: usize = 16;
    let shown: String = bytes.iter().take(MOST).map(|&byte| cell(byte)).collect();
    format!("{shown}{}", if bytes.len() > MOST { CUT } else { "" })
}

/// A line of a text with a mark in front, and under it the carets.
pub fn put_line(out: &mut String, mark: &str, shown: &Shown, style: Style) {
    let empty = " ".repeat(mark.len());
    let space = " ".repeat(shown.carets.start);
    let carets = style.carets(shown.carets.len());
    let line = format!("  {mark} | {}", shown.text);
    // An empty line leaves no space behind. Writing to a string cannot fail.
    let _ = writeln!(out, "{}", if shown.text.is_empty() { line.trim_end() } else { &line });
    if !shown.carets.is_empty() {
        let _ = writeln!(out, "  {empty} | {space}{carets}");
    }
}

/// The name of a file: what is no character, and whatever could move the cursor, is shown as its escape.
pub fn name(name: &OsStr) -> String {
    words(&name.to_string_lossy())
}

/// Words from outside, with characters that are not to be printed shown as their escapes.
pub fn words(words: &str) -> String {
    let safe = |character: char| match is_hidden(character) {
        true => character.escape_unicode().to_string(),
        false => character.to_string(),
    };
    words.chars().map(safe).collect()
}

/// Control characters, and those that are not seen or that change the direction of what is.
pub fn is_hidden(character: char) -> bool {
    let hidden = ['\u{ad}', '\u{61c}', '\u{feff}'];
    let ranges = ['\u{200b}'..='\u{200f}', '\u{2028}'..='\u{202e}', '\u{2060}'..='\u{206f}'];
    character.is_control()
        || hidden.contains(&character)
        || ranges.iter().any(|range| range.contains(&character))
}

#[cfg(test)]
mod tests {
    use super::*;

    #[test]
    fn the_caret_stands_under_the_field() {
        let marked = line(b"1\ttake\t32", 7..9, Tabs::Marked);
        assert_eq!(marked, Shown { text: "1<tab>take<tab>32".into(), carets: 15..17 });
        let wide = line(b"1\ttake\t32", 7..9, Tabs::Wide);
        assert_eq!(wide, Shown { text: "1       take    32".into(), carets: 16..18 });
        let end = line(b"1\tdo\t7", 6..6, Tabs::Wide);
        assert_eq!(end.carets, 17..18);
    }

    #[test]
    fn bytes_that_are_no_plain_text_are_shown_by_number() {
        let shown = line(b"\xef\xbb\xbf1\x1b[31m<\xc3\xa9\x00\r", 3..4, Tabs::Marked);
        assert_eq!(shown.text, "<ef><bb><bf>1<1b>[31m<3c><c3><a9><00><cr>");
        assert_eq!(shown.carets, 12..13);
        assert_eq!(field(b"\x07ab"), "'<07>ab'");
        assert_eq!(field(&[b'x'; 20]), "'xxxxxxxxxxxxxxxx..'");
    }

    #[test]
    fn long_lines_are_cut_around_the_fault() {
        let bytes: Vec<u8> = (0..1_000).map(|at| b'a' + (at % 26) as u8).collect();
        for at in 0..1_000 {
            let shown = line(&bytes, at..at + 1, Tabs::Marked);
            assert!(shown.text.len() <= WIDTH + 2 * CUT.len());
            assert_eq!(shown.text.as_bytes()[shown.carets.start], bytes[at], "{at}");
            assert_eq!(shown.carets.len(), 1);
        }
        let whole = line(&bytes, 0..1_000, Tabs::Marked);
        assert_eq!(whole.carets, 0..WIDTH);
    }

    #[test]
    fn names_cannot_move_the_cursor() {
        assert_eq!(name(OsStr::new("a\nb\u{202e}c")), "a\\u{a}b\\u{202e}c");
        assert_eq!(name(OsStr::new("Gewächs")), "Gewächs");
    }
}
