//! Small words: counts, lists, and a refusal as programs print it.

use gimmerskip::Refusal;

/// A count with its word: `1 line`, `7 lines`.
pub fn counted(count: usize, word: &str) -> String {
    match count {
        1 => format!("1 {word}"),
        _ => format!("{} {word}s", grouped(count)),
    }
}

/// A number with a comma before each three digits from the right.
pub fn grouped(number: usize) -> String {
    match number {
        0..1_000 => number.to_string(),
        _ => format!("{},{:03}", grouped(number / 1_000), number % 1_000),
    }
}

/// How many devices stay held.
pub fn held(count: usize) -> String {
    match count {
        0 => "no device stays held".to_string(),
        1 => "1 device stays held".to_string(),
        _ => format!("{count} devices stay held"),
    }
}

/// A refusal as programs print it, without the newline: the word, the number and the place, with tabs between.
pub fn refused(refusal: Refusal) -> String {
    format!("refused\t{}\t{}", refusal.number(), refusal.place())
}

/// A list: `1`, `1 and 2`, `1, 2 and 3`.
pub fn listed<T: ToString>(items: &[T]) -> String {
    let items: Vec<String> = items.iter().map(T::to_string).collect();
    match &items[..] {
        [] => String::new(),
        [one] => one.clone(),
        [front @ .., last] => format!("{} and {last}", front.join(", ")),
    }
}

/// Lines or jobs that stand together: `line 3`, `lines 3 and 4`, `lines 3 to 7`.
pub fn together(word: &str, first: usize, last: usize) -> String {
    match last.saturating_sub(first) {
        0 => format!("{word} {first}"),
        1 => format!("{word}s {first} and {last}"),
        _ => format!("{word}s {first} to {last}"),
    }
}

/// So many of a longer row of lines are told.
const FEW: usize = 6;

/// One of some lines, the first few of them told: `line 3`, `line 3 or 4`, `line 1, 2, 3, 4, 5, 6 or one of 9 more`.
pub fn one_of(word: &str, lines: &[u16]) -> String {
    let numbers = |lines: &[u16]| lines.iter().map(u16::to_string).collect::<Vec<_>>().join(", ");
    match lines {
        [front @ .., last] if !front.is_empty() && lines.len() <= FEW + 1 => {
            format!("{word} {} or {last}", numbers(front))
        }
        _ if lines.len() <= FEW + 1 => format!("{word} {}", numbers(lines)),
        _ => {
            let more = grouped(lines.len() - FEW);
            format!("{word} {} or one of {more} more", numbers(&lines[..FEW]))
        }
    }
}

/// The first few of some lines: `line 3`, `lines 3 and 4`, `lines 1, 2, 3, 4, 5, 6 and 9 more`.
pub fn few(word: &str, lines: &[u16]) -> String {
    match lines {
        [line] => format!("{word} {line}"),
        _ if lines.len() <= FEW + 1 => format!("{word}s {}", listed(lines)),
        _ => {
            let first: Vec<String> = lines[..FEW].iter().map(u16::to_string).collect();
            format!("{word}s {} and {} more", first.join(", "), grouped(lines.len() - FEW))
        }
    }
}

#[cfg(test)]
mod tests {
    use super::*;

    #[test]
    fn counts_and_lists() {
        assert_eq!((counted(1, "line"), counted(0, "line")), ("1 line".into(), "0 lines".into()));
        assert_eq!(
            (grouped(999), grouped(12_288), grouped(1_000_007)),
            ("999".into(), "12,288".into(), "1,000,007".into())
        );
        assert_eq!(
            (listed(&[1]), listed(&[1, 2]), listed(&[1, 2, 3])),
            ("1".into(), "1 and 2".into(), "1, 2 and 3".into())
        );
        assert_eq!(
            (together("line", 3, 3), together("job", 1, 2)),
            ("line 3".into(), "jobs 1 and 2".into())
        );
        assert_eq!(together("line", 3, 7), "lines 3 to 7");
        assert_eq!(held(1), "1 device stays held");
        assert_eq!(
            (few("line", &[3]), few("line", &[3, 4])),
            ("line 3".into(), "lines 3 and 4".into())
        );
        let lines: Vec<u16> = (1..=15).collect();
        assert_eq!(few("line", &lines[..7]), "lines 1, 2, 3, 4, 5, 6 and 7");
        assert_eq!(few("line", &lines), "lines 1, 2, 3, 4, 5, 6 and 9 more");
        assert_eq!(
            (one_of("line", &[3]), one_of("line", &[3, 4]), one_of("line", &[3, 4, 7])),
            ("line 3".into(), "line 3 or 4".into(), "line 3, 4 or 7".into())
        );
        assert_eq!(one_of("line", &lines[..7]), "line 1, 2, 3, 4, 5, 6 or 7");
        assert_eq!(one_of("line", &lines), "line 1, 2, 3, 4, 5, 6 or one of 9 more");
    }
}
