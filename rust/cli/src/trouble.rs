//! Trouble: use, files, input and output. It is told in words on standard error, and the status is 2.

use std::io;

/// What went wrong, in words for one line.
#[derive(Clone, Debug, PartialEq, Eq)]
pub struct Trouble(pub String);

impl Trouble {
    /// Trouble with something that has a name, in the system's words.
    pub fn with(name: &str, error: &io::Error) -> Trouble {
        Trouble(format!("{name}: {}", system_words(error)))
    }
}

/// The system's words for an error, without its number.
fn system_words(error: &io::Error) -> String {
    let words = error.to_string();
    match words.rfind(" (os error ") {
        Some(end) => words[..end].to_string(),
        None => words,
    }
}

/// How a run ends, the worst last.
#[derive(Clone, Copy, Debug, PartialEq, Eq, PartialOrd, Ord)]
pub enum Status {
    /// Done, and what was judged was accepted.
    Accepted = 0,
    /// Refused.
    Refused = 1,
    /// Trouble.
    Trouble = 2,
}

#[cfg(test)]
mod tests {
    use super::*;

    #[test]
    fn the_number_of_an_error_is_left_out() {
        let trouble = Trouble::with("a", &io::Error::from_raw_os_error(2));
        assert_eq!(trouble.0, "a: No such file or directory");
        assert_eq!(Trouble::with("a", &io::Error::other("odd")).0, "a: odd");
    }

    #[test]
    fn trouble_is_worse_than_a_refusal() {
        assert_eq!(Status::Accepted.max(Status::Refused), Status::Refused);
        assert_eq!(Status::Trouble.max(Status::Refused), Status::Trouble);
    }
}
