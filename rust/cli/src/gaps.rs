//! What parts the words of a line: a tab, where all is right, and whatever else growers and their editors put there.

use crate::verbs;
use std::ops::Range;

/// Where the words of a line stand.
pub type Fields = Vec<Range<usize>>;

/// How many bytes the space or tab has that stands at the front, of whatever kind; nought if none does.
fn space(bytes: &[u8]) -> usize {
    match bytes {
        [b' ' | b'\t', ..] => 1,
        [0xc2, 0xa0, ..] => 2,
        [0xe1, 0x9a, 0x80, ..] | [0xe3, 0x80, 0x80, ..] => 3,
        [0xe2, 0x80, 0x80..=0x8b | 0xaf, ..] | [0xe2, 0x81, 0x9f, ..] => 3,
        _ => 0,
    }
}

/// Where the words of a part of a line stand, if spaces and tabs of all kinds part them.
pub fn fields(line: &[u8], part: Range<usize>) -> Fields {
    let mut fields: Fields = Vec::new();
    let mut at = part.start;
    while at < part.end {
        let gap = space(&line[at..part.end]);
        match fields.last_mut() {
            _ if gap > 0 => {}
            Some(field) if field.end == at => field.end = at + 1,
            _ => fields.push(at..at + 1),
        }
        at += gap.max(1);
    }
    fields
}

/// Where a number, a verb and a number stand, whatever parts them: commas, semicolons, or nothing. `None` if there is
/// anything else.
pub fn loose_fields(line: &[u8], part: Range<usize>) -> Option<Fields> {
    let mut fields: Fields = Vec::new();
    let mut at = part.start;
    while at < part.end {
        let gap = match line[at] {
            b',' | b';' => 1,
            _ => space(&line[at..part.end]),
        };
        match fields.last_mut() {
            _ if gap > 0 => {}
            Some(field) if field.end == at && is_letter(line[at]) == is_letter(line[at - 1]) => {
                field.end = at + 1
            }
            _ => fields.push(at..at + 1),
        }
        at += gap.max(1);
    }
    let [job, verb, operand] = &fields[..] else { return None };
    let is_number = |field: &Range<usize>| line[field.clone()].iter().all(u8::is_ascii_digit);
    let is_verb = verbs::named(&line[verb.clone()]).is_some();
    (is_verb && is_number(job) && is_number(operand)).then_some(fields)
}

fn is_letter(byte: u8) -> bool {
    byte.is_ascii_alphabetic()
}

/// Whether a line has two numbers, parted by two tabs between which its verb should stand.
pub fn lacks_verb(line: &[u8], fields: &Fields) -> bool {
    let [first, second] = &fields[..] else { return false };
    let is_verb = |field: &Range<usize>| verbs::named(&line[field.clone()]).is_some();
    &line[first.end..second.start] == b"\t\t" && !is_verb(first) && !is_verb(second)
}

/// Whether a gap has this character.
fn has(gap: &[u8], character: &str) -> bool {
    gap.windows(character.len()).any(|part| part == character.as_bytes())
}

/// What is wrong with what stands between two words.
pub fn wrong(gap: &[u8]) -> Option<&'static str> {
    Some(match gap {
        b"\t" => return None,
        b"" => "has no tab between two fields",
        _ if has(gap, ",") => "has a comma where a tab has to be",
        _ if has(gap, ";") => "has a semicolon where a tab has to be",
        _ if has(gap, "\u{a0}") => "has a no-break space, as pages and letters have them",
        _ if has(gap, "\u{3000}") => "has a wide space where a tab has to be",
        _ if !gap.is_ascii() => "has a space of another kind where a tab has to be",
        _ if !gap.contains(&b'\t') => "has spaces where a tab has to be",
        _ if gap.contains(&b' ') => "has spaces beside a tab",
        _ => "has more than one tab between two fields",
    })
}

/// What stands before or after all words, by name.
pub fn named(gap: &[u8]) -> &'static str {
    match (gap.contains(&b' ') || !gap.is_ascii(), gap.contains(&b'\t')) {
        _ if has(gap, ",") => "a comma",
        _ if has(gap, ";") => "a semicolon",
        (true, true) => "spaces and tabs",
        (true, false) => "a space",
        _ => "a tab",
    }
}

#[cfg(test)]
mod tests {
    use super::*;

    #[test]
    fn words_are_found_whatever_parts_them() {
        let loose = |line: &str| loose_fields(line.as_bytes(), 0..line.len());
        assert_eq!(loose("1take\t3"), Some(vec![0..1, 1..5, 6..7]));
        assert_eq!(loose("1, take; 3"), Some(vec![0..1, 3..7, 9..10]));
        assert_eq!(loose("1\u{3000}take3"), Some(vec![0..1, 4..8, 8..9]));
        for other in ["1\tdo\t1,5", "1\tdrop\t3", "1\ttake\t-3", "take3", "1\ttake"] {
            assert_eq!(loose(other), None, "{other}");
        }
    }

    #[test]
    fn what_parts_two_words_is_named() {
        assert_eq!(wrong(b"\t"), None);
        let named = ["", ",", " ; ", "\u{a0}", "\u{3000}", "\u{2009}", " ", "\t ", "\t\t"];
        let words: Vec<_> = named.iter().map(|gap| wrong(gap.as_bytes())).collect();
        assert!(words.iter().all(Option::is_some));
        assert!((1..words.len()).all(|at| !words[..at].contains(&words[at])), "{words:?}");
    }
}
