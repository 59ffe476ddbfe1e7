//! The form of an entry that is no number: what growers, their editors and other makers may have put there.

use crate::gaps;
use crate::list::{is_heading, Written};
use crate::names::is_whole;
use crate::shown;

/// Numbers with so many digits are no line's, with a newline or without.
const LONG: usize = 16;

/// What is wrong with the form of an entry, if anything: it goes on from "entry 3".
pub fn wrong_form(entry: &Written) -> Option<String> {
    let (bytes, shown) = (entry.bytes, shown::field(entry.bytes));
    let number = match bytes {
        [] => return Some("is an empty line".to_string()),
        // What stands behind the bytes that were read is not known.
        _ if entry.cut && is_digits(bytes) => {
            return Some(format!("begins with {shown} and is too long for the number of a line"));
        }
        _ if is_number(bytes) && (entry.ended || bytes.len() >= LONG) => return None,
        _ if is_number(bytes) => " without its newline",
        _ if entry.cut => ", which is no number",
        _ => wrong_number(bare(bytes)),
    };
    let whole = wrong_text(entry).or_else(|| wrong_newlines(entry));
    Some(whole.unwrap_or_else(|| format!("is {shown}{number}")))
}

/// A list in another kind of text, or with a mark in front.
fn wrong_text(entry: &Written) -> Option<String> {
    let words = match entry.bytes {
        _ if !entry.first => return None,
        [0xef, 0xbb, 0xbf, ..] => {
            "begins with a byte order mark: save the list as UTF-8 without it"
        }
        [0xff, 0xfe, ..] | [0xfe, 0xff, ..] => {
            "begins as a text in UTF-16 does: save the list as plain text (ASCII or UTF-8)"
        }
        _ => return None,
    };
    Some(words.to_string())
}

/// Carriage returns behind something that is right by itself, or where newlines are needed.
fn wrong_newlines(entry: &Written) -> Option<String> {
    const UNIX: &str = "save the list with Unix newlines (LF)";
    let front = bare(entry.bytes);
    let mut parts = front.split(|&byte| byte == b'\r');
    if front.contains(&b'\r') && parts.all(is_number) {
        return Some(format!("has carriage returns where newlines are needed: {UNIX}"));
    }
    let is_right = front.is_empty() || is_number(front) || entry.first && is_heading(front);
    match entry.bytes.len() - front.len() {
        0 => None,
        _ if entry.cut || !is_right => None,
        1 if !entry.ended => Some(format!("ends with a carriage return and no newline: {UNIX}")),
        1 => Some(format!("ends with a carriage return (a Windows newline): {UNIX}")),
        count => Some(format!("ends with {count} carriage returns: take them out, and {UNIX}")),
    }
}

/// What is wrong with something that has to be a number: it goes on from the entry as it is shown.
fn wrong_number(bytes: &[u8]) -> &'static str {
    let is_gap = |byte: &u8| matches!(byte, b' ' | b'\t');
    let is_part = |byte: &u8| is_gap(byte) || matches!(byte, b',' | b';');
    let words: Vec<&[u8]> = bytes.split(is_part).filter(|word| !word.is_empty()).collect();
    match bytes {
        [b'0', rest @ ..] if is_digits(rest) => ", with a leading zero",
        [b'+' | b'-', rest @ ..] if is_digits(rest) => ", with a sign",
        [_, ..] if bytes.iter().all(is_gap) => ", spaces or tabs alone",
        _ if gaps::loose_fields(bytes, 0..bytes.len()).is_some() => {
            ", which looks like a line of a plan: PLAN comes first, then ORDER"
        }
        _ if words.is_empty() || !words.iter().all(|word| is_digits(word)) => {
            ", which is no number"
        }
        _ if bytes.iter().any(|byte| is_part(byte) && !is_gap(byte)) => {
            ", not written in digits alone: one number a line is needed"
        }
        _ if words.len() == 1 => ", with a space or tab",
        _ => ", several numbers: one a line is needed",
    }
}

/// What stands before the carriage returns at the end.
fn bare(bytes: &[u8]) -> &[u8] {
    &bytes[..bytes.iter().rposition(|&byte| byte != b'\r').map_or(0, |at| at + 1)]
}

/// Whether there are digits, and nothing else.
fn is_digits(bytes: &[u8]) -> bool {
    !bytes.is_empty() && bytes.iter().all(u8::is_ascii_digit)
}

/// Whether this is a number as lists have it.
fn is_number(bytes: &[u8]) -> bool {
    std::str::from_utf8(bytes).is_ok_and(is_whole)
}

#[cfg(test)]
mod tests {
    use super::*;
    use second::random::Random;

    const UNIX: &str = "save the list with Unix newlines (LF)";

    /// The words for the first line of a list, with its newline.
    fn words(line: &[u8]) -> String {
        words_of(&Written { bytes: line, ended: true, first: true, cut: false })
    }

    fn words_of(entry: &Written) -> String {
        wrong_form(entry).unwrap_or_default()
    }

    #[test]
    fn numbers_are_right() {
        assert_eq!([&b"1"[..], b"0", b"1024", b"65540"].map(words), [""; 4]);
        assert_eq!(words(&[b'7'; 100]), "");
    }

    #[test]
    fn ends_and_marks() {
        let windows = format!("ends with a carriage return (a Windows newline): {UNIX}");
        assert_eq!([&b"1\r"[..], b"\r", b"order\t6\t2\r"].map(words), [&windows[..]; 3]);
        let two = format!("ends with 2 carriage returns: take them out, and {UNIX}");
        assert_eq!(words(b"1\r\r"), two);
        let old = format!("has carriage returns where newlines are needed: {UNIX}");
        assert_eq!([&b"1\r4\r5"[..], b"1\r4\r"].map(words), [&old[..]; 2]);
        assert_eq!(words(b"\r1"), "is '<cr>1', which is no number");
        assert_eq!(words(b"04\r"), "is '04<cr>', with a leading zero");
        let mark = "begins with a byte order mark: save the list as UTF-8 without it";
        assert_eq!([&b"\xef\xbb\xbf1"[..], b"\xef\xbb\xbforder\t1\t0"].map(words), [mark; 2]);
        assert!(words(b"\xff\xfe1\0").starts_with("begins as a text in UTF-16 does"));
        let later = Written { bytes: b"\xef\xbb\xbf1", ended: true, first: false, cut: false };
        assert_eq!(words_of(&later), "is '<ef><bb><bf>1', which is no number");
        let last = Written { bytes: b"4", ended: false, first: false, cut: false };
        assert_eq!(words_of(&last), "is '4' without its newline");
        let last = Written { bytes: b"4\r", ..last };
        assert_eq!(words_of(&last), format!("ends with a carriage return and no newline: {UNIX}"));
    }

    #[test]
    fn what_stands_there_is_told() {
        assert_eq!(words(b""), "is an empty line");
        assert_eq!(words(b" 4"), "is ' 4', with a space or tab");
        assert_eq!(words(b"4\t"), "is '4<tab>', with a space or tab");
        assert_eq!(words(b" "), "is ' ', spaces or tabs alone");
        assert_eq!(words(b"1 4\t5"), "is '1 4<tab>5', several numbers: one a line is needed");
        let digits = "is '1,024', not written in digits alone: one number a line is needed";
        assert_eq!(words(b"1,024"), digits);
        assert_eq!(words(b"1\x0c"), "is '1<0c>', which is no number");
        assert_eq!(words(b"-4"), "is '-4', with a sign");
        assert_eq!(words(b"line 4"), "is 'line 4', which is no number");
        assert_eq!(words(b","), "is ',', which is no number");
        assert_eq!(words(b"--"), "is '--', which is no number");
        let plan = "which looks like a line of a plan: PLAN comes first, then ORDER";
        for line in [&b"1\ttake\t1"[..], b"1 take 1", b"1\ttake\t1\r"] {
            assert!(words(line).ends_with(plan), "{line:?}");
        }
    }

    #[test]
    fn of_a_line_that_is_cut_only_what_was_read_is_told() {
        let cut = |bytes: &[u8]| words_of(&Written { bytes, ended: false, first: true, cut: true });
        let long = "begins with '7777777777777777..' and is too long for the number of a line";
        assert_eq!(cut(&[b'7'; 100]), long);
        let other = [&[b'7'; 100][..], b"\r"].concat();
        assert_eq!(cut(&other), "is '7777777777777777..', which is no number");
    }

    #[test]
    fn what_is_told_stands_there() {
        let mut random = Random::new(15);
        let (mut right, mut told) = (0, [0; 8]);
        for _ in 0..200_000 {
            let parts =
                ["1", "40", "0", "\r", " ", "\t", "\u{c}", "\u{feff}", "-", ",", "x", "take"];
            let line: String = (0..random.below(6)).map(|_| random.one_of(&parts)).collect();
            let (ended, first) = (line.is_empty() || !random.once_in(4), random.once_in(2));
            let entry = Written { bytes: line.as_bytes(), ended, first, cut: false };
            let words = words_of(&entry);
            assert_eq!(words.is_empty(), is_whole(&line) && ended, "{entry:?}: {words}");
            right += usize::from(words.is_empty());
            let bare = line.trim_end_matches('\r');
            let truths = [
                ("a space or tab", bare.trim_matches([' ', '\t']).len() < bare.len()),
                ("spaces or tabs alone", bare.trim_matches([' ', '\t']).is_empty()),
                ("several numbers", bare.split([' ', '\t']).count() > 1),
                ("carriage return", line.contains('\r')),
                ("Windows newline", line.ends_with('\r') && ended),
                ("byte order mark", line.starts_with('\u{feff}') && first),
                ("leading zero", line.starts_with('0')),
                ("without its newline", is_whole(&line) && !ended),
            ];
            for (at, (claim, is_true)) in truths.into_iter().enumerate() {
                assert!(is_true || !words.contains(claim), "{entry:?}: {words}");
                told[at] += usize::from(words.contains(claim));
            }
        }
        assert!(right > 1_000 && told.iter().all(|&times| times > 500), "{right} {told:?}");
    }
}
