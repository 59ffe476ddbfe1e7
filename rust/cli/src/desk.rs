//! What every subcommand works with: input, output, the devices' names.

use crate::diagnosis::Diagnosis;
use crate::input::Input;
use crate::names::{Names, MOST_BYTES};
use crate::output::Output;
use crate::trouble::{Status, Trouble};
use crate::Closed;
use std::ffi::OsStr;

/// The streams, the names, and the worst that has come up.
pub struct Desk {
    /// Where texts come from.
    pub input: Input,
    /// Standard output.
    pub out: Output,
    /// Standard error.
    err: Output,
    /// The devices' names.
    pub names: Names,
    worst: Status,
}

impl Desk {
    /// The desk as the program finds it: no names, and nothing has come up.
    pub fn new(closed: Closed) -> Desk {
        let (out, err) = (Output::standard(closed.output), Output::error());
        let (input, names) = (Input::new(closed.input), Names::default());
        Desk { input, out, err, names, worst: Status::Accepted }
    }

    /// Reads the names of devices from a file.
    pub fn read_names(&mut self, file: &OsStr) -> Result<(), Trouble> {
        let text = self.input.read(file, MOST_BYTES + 1)?;
        self.names = Names::read(&text.name, &text.bytes)?;
        Ok(())
    }

    /// Says words on standard error. Where they cannot be said whole, that is trouble too.
    pub fn say(&mut self, words: &str) {
        if self.err.put(words.as_bytes()).is_err() {
            self.met(Status::Trouble);
        }
    }

    /// Says what the trouble is.
    pub fn say_trouble(&mut self, trouble: &Trouble) {
        self.met(Status::Trouble);
        self.say(&format!("gimmerskip: {}\n", trouble.0));
    }

    /// Says the short form of a refusal on standard error.
    pub fn say_refusal(&mut self, name: &str, refused: &Diagnosis) {
        self.met(Status::Refused);
        let words = refused.short(name, self.err.style);
        self.say(&words);
    }

    /// Says all there is to say of a refusal on standard error.
    pub fn say_all(&mut self, name: &str, refused: &Diagnosis) {
        self.met(Status::Refused);
        let words = refused.long(name, self.err.style);
        self.say(&words);
    }

    /// Keeps a status in mind, if it is worse than those before.
    pub fn met(&mut self, status: Status) {
        self.worst = self.worst.max(status);
    }

    /// The worst status that has come up.
    pub fn worst(&self) -> Status {
        self.worst
    }
}
