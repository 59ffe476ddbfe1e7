//! Colours: the word `refused` and the caret, where a stream is a terminal that shows them and nobody asked for none.

use std::env;
use std::ffi::OsStr;

/// How words for one stream are coloured.
#[derive(Clone, Copy, Debug, Default)]
pub struct Style {
    colours: bool,
}

impl Style {
    /// The style for a stream, by the environment.
    pub fn of_stream(is_terminal: bool) -> Style {
        let (none, term) = (env::var_os("NO_COLOR"), env::var_os("TERM"));
        Style { colours: wanted(is_terminal, none.as_deref(), term.as_deref()) }
    }

    /// The word `refused`.
    pub fn refused(self) -> String {
        self.red("refused")
    }

    /// A row of carets.
    pub fn carets(self, count: usize) -> String {
        self.red(&"^".repeat(count))
    }

    fn red(self, words: &str) -> String {
        if self.colours {
            format!("\x1b[1;31m{words}\x1b[0m")
        } else {
            words.to_string()
        }
    }
}

/// Colours are wanted on a terminal alone, not with NO_COLOR set at all, and not where TERM is missing or `dumb`.
fn wanted(is_terminal: bool, none: Option<&OsStr>, term: Option<&OsStr>) -> bool {
    is_terminal && none.is_none() && term.is_some_and(|term| term != "dumb" && !term.is_empty())
}

#[cfg(test)]
mod tests {
    use super::*;

    #[test]
    fn colours_are_for_terminals_alone() {
        let (xterm, dumb, set) = (OsStr::new("xterm"), OsStr::new("dumb"), OsStr::new(""));
        assert!(wanted(true, None, Some(xterm)));
        assert!(!wanted(false, None, Some(xterm)));
        assert!(!wanted(true, Some(set), Some(xterm)));
        assert!(!wanted(true, Some(OsStr::new("1")), Some(xterm)));
        assert!(!wanted(true, None, Some(dumb)));
        assert!(!wanted(true, None, None));
    }

    #[test]
    fn few_words_have_colour() {
        assert_eq!(Style::default().refused(), "refused");
        assert_eq!(Style { colours: true }.refused(), "\x1b[1;31mrefused\x1b[0m");
        assert_eq!(Style::default().carets(3), "^^^");
    }
}
