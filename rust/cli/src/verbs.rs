//! Verbs that are not quite right: capitals, and the nearest verb to a word that is none.

use crate::shown;
use gimmerskip::Verb;

/// The verb that a word stands for, whatever its letters' size.
pub fn named(word: &[u8]) -> Option<Verb> {
    Verb::ALL.into_iter().find(|verb| word.eq_ignore_ascii_case(verb.word().as_bytes()))
}

/// What is wrong with a word that has to be a verb, and how to mend it.
pub fn wrong(word: &[u8]) -> Option<(String, String)> {
    let shown = shown::field(word);
    match named(word) {
        Some(verb) if verb.word().as_bytes() == word => None,
        Some(verb) => {
            let words = format!("has capitals in its verb, {shown}");
            Some((words, format!("write {verb} in small letters")))
        }
        None => {
            let near = nearest(word).map(|verb| format!("; the nearest is {verb}"));
            let words =
                format!("has {shown} as its verb, which is no verb{}", near.unwrap_or_default());
            Some((words, "write do, take, give or start".to_string()))
        }
    }
}

/// The verb that is nearest to a word, if one is near and no other as near: at most half of its letters are to change,
/// and two at the most.
pub fn nearest(word: &[u8]) -> Option<Verb> {
    let word = word.to_ascii_lowercase();
    if word.len() > 16 {
        return None;
    }
    let far = |verb: &Verb| changes(&word, verb.word().as_bytes());
    let least = Verb::ALL.iter().map(far).min()?;
    let mut near = Verb::ALL.into_iter().filter(|verb| far(verb) == least);
    let verb = near.next().filter(|verb| least <= 2 && 2 * least <= verb.word().len())?;
    near.next().is_none().then_some(verb)
}

/// How many letters have to be put in, left out or changed to make one word of the other.
fn changes(from: &[u8], into: &[u8]) -> usize {
    let mut row: Vec<usize> = (0..=into.len()).collect();
    for (at, letter) in from.iter().enumerate() {
        row = next_row(&row, at, *letter, into);
    }
    row[into.len()]
}

/// One row further: the changes that make each beginning of a word out of one letter more.
fn next_row(row: &[usize], at: usize, letter: u8, into: &[u8]) -> Vec<usize> {
    let mut next = vec![at + 1];
    for (column, other) in into.iter().enumerate() {
        let changed = row[column] + usize::from(letter != *other);
        next.push(changed.min(row[column + 1] + 1).min(next[column] + 1));
    }
    next
}

#[cfg(test)]
mod tests {
    use super::*;

    #[test]
    fn the_nearest_verb() {
        let near = |word: &str| nearest(word.as_bytes()).map(Verb::word);
        assert_eq!(["tak", "tkae", "Takes"].map(near), [Some("take"); 3]);
        assert_eq!(["giv", "gives"].map(near), [Some("give"); 2]);
        assert_eq!(["Strat", "started", "stat"].map(near), [Some("start"); 3]);
        assert_eq!(near("doo"), Some("do"));
        assert_eq!(["drop", "release", "", "7", "water", &"take".repeat(9)].map(near), [None; 6]);
    }

    #[test]
    fn capitals_and_other_words() {
        assert_eq!(wrong(b"take"), None);
        assert_eq!(wrong(b"Take").unwrap().0, "has capitals in its verb, 'Take'");
        assert_eq!(
            wrong(b"tak").unwrap().0,
            "has 'tak' as its verb, which is no verb; the nearest is take"
        );
        assert_eq!(wrong(b"drop").unwrap().0, "has 'drop' as its verb, which is no verb");
    }
}
