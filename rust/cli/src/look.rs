//! A look at a line that is no line: what a grower may have done to it in an editor.
//!
//! The library says that the line is malformed; here its bytes are looked at for the reason. Nothing is found exactly
//! if the line is right.

use crate::gaps::{self, Fields};
use crate::shown;
use crate::verbs;
use gimmerskip::Verb;
use std::ops::Range;

/// One thing that is wrong with a line.
#[derive(Clone, Debug, PartialEq, Eq)]
pub struct Finding {
    /// The bytes of the line that are wrong; none at the place where something is missing.
    pub at: Range<usize>,
    /// What is wrong: it goes on from "line 7".
    pub words: String,
    /// How it is mended.
    pub mend: String,
}

fn finding(at: Range<usize>, words: impl Into<String>, mend: impl Into<String>) -> Finding {
    Finding { at, words: words.into(), mend: mend.into() }
}

const THREE: &str = "write a job, a tab, a verb, a tab and a number";
const ONE_TAB: &str = "put one tab, and nothing else, between the fields";
const PLAIN: &str = "save the file as plain text (ASCII or UTF-8)";
const UNIX: &str = "save the file with Unix newlines (LF)";
/// How a line that should not be there is mended.
pub const OUT: &str = "take the line out";

/// Everything that is wrong with a line, given without its newline, from left to right. It is told whether it has one,
/// and whether it is the first line of the text.
pub fn look(line: &[u8], ended: bool, first: bool) -> Vec<Finding> {
    if let Some(other) = no_text(line, first) {
        return vec![other];
    }
    let mut found = Vec::new();
    let start = if first && line.starts_with(b"\xef\xbb\xbf") { 3 } else { 0 };
    if start > 0 {
        let words = "begins with a byte order mark, which some editors put in front of a text";
        found.push(finding(0..start, words, "save the file as UTF-8 without a byte order mark"));
    }
    // Without its mark a text of nothing else has no line at all.
    if start > 0 && start == line.len() && !ended {
        return found;
    }
    let end = bare_end(line).max(start);
    found.extend(between(line, start..end));
    found.extend(returns(line, end));
    // A line that is to be taken out needs no newline.
    if !ended && found.iter().all(|finding| finding.mend != OUT) {
        let words = "has no newline at its end";
        found.push(finding(line.len()..line.len(), words, "end the last line with the Enter key"));
    }
    found
}

/// Where the carriage returns at the end of a line begin.
fn bare_end(line: &[u8]) -> usize {
    line.iter().rposition(|&byte| byte != b'\r').map_or(0, |at| at + 1)
}

/// The carriage returns at the end of a line.
fn returns(line: &[u8], end: usize) -> Option<Finding> {
    let (words, mend) = match line.len() - end {
        0 => return None,
        1 => ("ends with a carriage return (a Windows newline)".to_string(), UNIX.to_string()),
        count => (
            format!("ends with {count} carriage returns"),
            format!("take the carriage returns out, and {UNIX}"),
        ),
    };
    Some(finding(end..line.len(), words, mend))
}

/// Bytes that belong to another kind of text, so that no field can be made out.
fn no_text(line: &[u8], first: bool) -> Option<Finding> {
    let marks: [&[u8]; 2] = [b"\xff\xfe", b"\xfe\xff"];
    if first && marks.iter().any(|mark| line.starts_with(mark)) {
        return Some(finding(0..2, "begins as a text in UTF-16 does", PLAIN));
    }
    if let Some(at) = line.iter().position(|&byte| byte == 0) {
        return Some(finding(at..at + 1, "has a byte of value 0, which no plain text has", PLAIN));
    }
    let at = line[..bare_end(line)].iter().position(|&byte| byte == b'\r')?;
    Some(match gaps::fields(line, 0..at).len() {
        // What stands before it could be a line.
        3.. => finding(at..at + 1, "has a carriage return inside, where newlines are needed", UNIX),
        _ => finding(at..at + 1, "has a carriage return inside", "take the carriage return out"),
    })
}

/// What is wrong between the line's start and its end.
fn between(line: &[u8], part: Range<usize>) -> Vec<Finding> {
    let fields = gaps::fields(line, part.clone());
    if fields.is_empty() {
        let words = if part.is_empty() { "is empty" } else { "has only spaces or tabs" };
        return vec![finding(part, words, OUT)];
    }
    if line[fields[0].clone()].starts_with(b"#") || line[fields[0].clone()].starts_with(b"//") {
        return vec![finding(part, "is a remark, and a plan has none", OUT)];
    }
    let fields = gaps::loose_fields(line, part.clone()).unwrap_or(fields);
    let mut found = wrong_gaps(line, part.clone(), &fields);
    found.extend(match fields.len() {
        1 | 2 => vec![too_few(line, &fields)],
        count => {
            let mut wrong = wrong_fields(line, &fields);
            wrong.extend((count > 3).then(|| too_many(line, &fields, part.end)));
            wrong
        }
    });
    found.sort_by_key(|finding| finding.at.start);
    found
}

/// What is wrong before, between and after the three words: one tab has to part them, and nothing else.
fn wrong_gaps(line: &[u8], part: Range<usize>, fields: &Fields) -> Vec<Finding> {
    let (first, last) = (fields[0].start, fields[fields.len() - 1].end);
    let mut found = Vec::new();
    if part.start < first {
        let words = format!("begins with {}", gaps::named(&line[part.start..first]));
        found.push(finding(part.start..first, words, "begin the line with the job's number"));
    }
    // What stands behind the third word has to go, whatever parts it.
    for pair in fields.windows(2).take(2).filter(|_| !gaps::lacks_verb(line, fields)) {
        let gap = pair[0].end..pair[1].start;
        found.extend(gaps::wrong(&line[gap.clone()]).map(|words| finding(gap, words, ONE_TAB)));
    }
    // A tab after the second field, with nothing behind it, is right so far.
    if last < part.end && fields.len() <= 3 && (fields.len() == 3 || &line[last..part.end] != b"\t")
    {
        let words = format!("has {} after its last field", gaps::named(&line[last..part.end]));
        found.push(finding(last..part.end, words, "take out what stands after the last field"));
    }
    found
}

/// A line of one or two words.
fn too_few(line: &[u8], fields: &Fields) -> Finding {
    let word = |field: &Range<usize>| &line[field.clone()];
    let is_verb = |field: &Range<usize>| verbs::named(word(field)).is_some();
    let is_number = |field: &Range<usize>| word(field).iter().all(u8::is_ascii_digit);
    let end = line.len()..line.len();
    let (missing, at) = match &fields[..] {
        [first, ..] if is_verb(first) => ("its job is missing in front", first.clone()),
        [_, second] if is_verb(second) => ("its number is missing at the end", end),
        [first, second] if is_number(second) => {
            ("its verb is missing in the middle", first.end..second.start)
        }
        [_] => ("two are missing", end),
        _ => ("one is missing", end),
    };
    let count = if fields.len() == 1 { "only one field" } else { "only two fields" };
    finding(at, format!("has {count} of three: {missing}"), THREE)
}

/// A line of four words or more.
fn too_many(line: &[u8], fields: &Fields, end: usize) -> Finding {
    let words = match line[fields[3].clone()].first() {
        Some(b'#' | b'/') => "has a remark at its end, and a plan has none".to_string(),
        _ => format!("has something after its number: {} fields, not three", fields.len()),
    };
    let third = shown::field(&line[fields[2].clone()]);
    finding(fields[2].end..end, words, format!("take out everything after {third}"))
}

/// What is wrong with the first three words.
fn wrong_fields(line: &[u8], fields: &Fields) -> Vec<Finding> {
    let word = |field: usize| &line[fields[field].clone()];
    let mut found = wrong_number(word(0), &fields[0], "job", Some(1..=64));
    found
        .extend(verbs::wrong(word(1)).map(|(words, mend)| finding(fields[1].clone(), words, mend)));
    let (what, range) = match verbs::named(word(1)) {
        Some(Verb::Do) => ("action", Some(0..=255)),
        Some(Verb::Take | Verb::Give) => ("device", Some(0..=31)),
        Some(Verb::Start) => ("started job", Some(2..=64)),
        // Without the verb nobody knows how far its numbers go.
        _ => ("number", None),
    };
    found.extend(wrong_number(word(2), &fields[2], what, range));
    found
}

/// What is wrong with a number: its form, and where the form is right, its size.
fn wrong_number(
    word: &[u8],
    at: &Range<usize>,
    what: &str,
    range: Option<std::ops::RangeInclusive<u64>>,
) -> Vec<Finding> {
    let shown = shown::field(word);
    let digits = word.strip_prefix(b"-").or(word.strip_prefix(b"+")).unwrap_or(word);
    if digits.is_empty() || !digits.iter().all(u8::is_ascii_digit) {
        let why = if has_digits(word) { "is not written in digits alone" } else { "is no number" };
        let words = format!("has {shown} as its {what}, which {why}");
        return vec![finding(at.clone(), words, "write the number in digits, 0 to 9")];
    }
    let zeros = digits.iter().take_while(|&&byte| byte == b'0').count().min(digits.len() - 1);
    let (value, bare) = (value(digits), shown::cut(&digits[zeros..]));
    let outside = range.filter(|range| !range.contains(&value));
    let mend = match &outside {
        Some(range) => format!("choose a number from {} to {}", range.start(), range.end()),
        None => format!("write {bare}"),
    };
    let mut words = Vec::new();
    if digits.len() < word.len() {
        words.push(format!("has a sign in its {what}, {shown}"));
    }
    if zeros > 0 {
        words.push(format!("has a leading zero in its {what}, {shown}"));
    }
    if let Some(range) = &outside {
        let (low, high) = (range.start(), range.end());
        words.push(format!("has {what} {bare}, which is out of range: {low} to {high}"));
    }
    words.into_iter().map(|words| finding(at.clone(), words, &mend[..])).collect()
}

/// Whether a word has digits, plain or wide.
fn has_digits(word: &[u8]) -> bool {
    let is_wide = |three: &[u8]| matches!(three, [0xef, 0xbc, 0x90..=0x99]);
    word.iter().any(u8::is_ascii_digit) || word.windows(3).any(is_wide)
}

/// The value of digits, or a number that is out of every range.
fn value(digits: &[u8]) -> u64 {
    let add = |sum: u64, &digit: &u8| sum.saturating_mul(10).saturating_add((digit - b'0').into());
    digits.iter().fold(0, add)
}

#[cfg(test)]
mod tests {
    use super::*;
    use second::random::Random;

    /// The words for a line with its newline.
    fn words(line: &[u8]) -> Vec<String> {
        look(line, true, false).into_iter().map(|finding| finding.words).collect()
    }

    #[test]
    fn spaces_and_tabs() {
        assert_eq!(words(b"1 take 3"), ["has spaces where a tab has to be"; 2]);
        assert_eq!(words(b"1\t take\t3"), ["has spaces beside a tab"]);
        assert_eq!(words(b"1\t\ttake\t3"), ["has more than one tab between two fields"]);
        assert_eq!(words(b" 1\ttake\t3"), ["begins with a space"]);
        assert_eq!(words(b"1\ttake\t3 "), ["has a space after its last field"]);
        assert_eq!(words(b"1\ttake\t3\t"), ["has a tab after its last field"]);
        assert!(words(b"1\xc2\xa0take\t3")[0].starts_with("has a no-break space"));
        assert_eq!(words(b""), ["is empty"]);
        assert_eq!(words(b" \t"), ["has only spaces or tabs"]);
    }

    #[test]
    fn ends_and_marks() {
        assert_eq!(words(b"1\ttake\t3\r"), ["ends with a carriage return (a Windows newline)"]);
        assert_eq!(words(b"1\ttake\t3\r\r"), ["ends with 2 carriage returns"]);
        assert_eq!(words(b"1\t\rtake\t3"), ["has a carriage return inside"]);
        assert_eq!(words(b"\r").len(), 2);
        assert_eq!(look(b"\xef\xbb\xbf", false, true).len(), 1);
        assert_eq!(look(b" ", false, false).len(), 1);
        assert_eq!(words(b"1\ttake\t3\r1\tdo\t2").len(), 1);
        let last = look(b"1\ttake\t3", false, false);
        assert_eq!((last[0].at.clone(), &last[0].words[..]), (8..8, "has no newline at its end"));
        assert_eq!(look(b"\xef\xbb\xbf1\tdo\t1", true, true)[0].at, 0..3);
        assert_eq!(look(b"\xff\xfe1\x00", true, true)[0].words, "begins as a text in UTF-16 does");
    }

    #[test]
    fn numbers() {
        let range = "has device 32, which is out of range: 0 to 31";
        assert_eq!(words(b"1\ttake\t32"), [range]);
        assert_eq!(words(b"65\tdo\t256").len(), 2);
        assert_eq!(words(b"01\tdo\t1"), ["has a leading zero in its job, '01'"]);
        assert_eq!(words(b"1\tdo\t+1"), ["has a sign in its action, '+1'"]);
        assert_eq!(words(b"1\tdo\t00"), ["has a leading zero in its action, '00'"]);
        let digits = "has '1.0' as its action, which is not written in digits alone";
        assert_eq!(words(b"1\tdo\t1.0"), [digits]);
        assert!(words("1\tdo\t\u{ff11}".as_bytes())[0].ends_with("not written in digits alone"));
        assert!(words(b"0x1\tdo\t1")[0].ends_with("not written in digits alone"));
        let mends = |line: &[u8]| look(line, true, false).into_iter().map(|finding| finding.mend);
        for line in [&b"1\ttake\t-40"[..], b"1\ttake\t00032"] {
            assert!(mends(line).all(|mend| mend == "choose a number from 0 to 31"));
        }
        assert_eq!(words(b"1\tdo\tx"), ["has 'x' as its action, which is no number"]);
        let start = "has started job 1, which is out of range: 2 to 64";
        assert_eq!(words(b"1\tstart\t1"), [start]);
        assert_eq!(words(b"1\tdo\t99999999999999999999999").len(), 1);
    }

    #[test]
    fn fields_too_few_and_too_many() {
        assert_eq!(
            words(b"1\ttake"),
            ["has only two fields of three: its number is missing at the end"]
        );
        assert_eq!(words(b"1\ttake\t").len(), 1);
        assert_eq!(
            words(b"take\t3"),
            ["has only two fields of three: its job is missing in front"]
        );
        assert_eq!(words(b"1"), ["has only one field of three: two are missing"]);
        assert_eq!(
            words(b"1\ttake\t3\t4"),
            ["has something after its number: 4 fields, not three"]
        );
        let remark = "has a remark at its end, and a plan has none";
        assert_eq!(words(b"1\ttake\t3\t# pump"), [remark]);
        assert_eq!(words(b"1\ttake\t3 # pump"), [remark]);
        assert_eq!(words(b"1\ttake\t3 4"), ["has something after its number: 4 fields, not three"]);
        let verb = "has only two fields of three: its verb is missing in the middle";
        assert_eq!(words(b"1\t\t3"), [verb]);
        assert_eq!(words(b"1\t3"), [verb]);
        assert_eq!(words(b"# pump"), ["is a remark, and a plan has none"]);
    }

    /// A line from pieces that growers could put together, right ones and wrong ones.
    fn line(random: &mut Random) -> Vec<u8> {
        let jobs = ["1", "2", "3", "64", "65", "0", "01", "-1", "", "x", "7"];
        let verbs = ["do", "take", "give", "start", "do", "take", "Take", "tak", "", "doo"];
        let operands =
            ["0", "2", "31", "32", "64", "255", "256", "00", "+1", "", "1.", "4294967298"];
        let tabs = ["\t"; 14];
        let others = [" ", "\t\t", "", "\t ", ",", ";", "\u{3000}", "\t\u{2009}"];
        let gaps = [&tabs[..], &others].concat();
        let ends = [
            "", "", "", "", "", "", "", "", "\r", " ", "\t", "\t9", "\r\r", "\0", "\u{e9}",
            "\u{a0}",
        ];
        let fronts = ["", "", "", "", "", "", "", "\u{feff}", " ", "\t", "\r", "\u{3000}", ","];
        let (front, end) = (random.one_of(&fronts), random.one_of(&ends));
        let (job, verb) = (random.one_of(&jobs), random.one_of(&verbs));
        let (operand, gap, other) =
            (random.one_of(&operands), random.one_of(&gaps), random.one_of(&gaps));
        format!("{front}{job}{gap}{verb}{other}{operand}{end}").into_bytes()
    }

    #[test]
    fn nothing_is_found_exactly_if_the_line_is_right() {
        let (mut random, mut right) = (Random::new(14), 0);
        for _ in 0..200_000 {
            let (line, ended) = (line(&mut random), !random.once_in(8));
            let text = [&line[..], if ended { b"\n" } else { b"" }].concat();
            let says = gimmerskip::entries::line(&text, 0);
            let found = look(&line, ended, true);
            // A text of no bytes has no line at all.
            if !text.is_empty() {
                assert_eq!(found.is_empty(), says.is_ok(), "{line:?} {ended}: {found:?}");
                assert!(found.iter().all(|finding| finding.at.end <= line.len()));
            }
            right += usize::from(says.is_ok());
        }
        assert!(right > 1_000, "{right}");
    }
}
