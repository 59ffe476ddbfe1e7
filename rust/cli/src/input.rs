//! Texts from files and from standard input, never more of them than is needed to know one that is too long.

use crate::shown;
use crate::trouble::Trouble;
use gimmerskip::MAX_BYTES;
use std::ffi::OsStr;
use std::fs::File;
use std::io::{self, BufRead, BufReader, Read};
use std::os::fd::AsFd;

/// How standard input is called.
pub const STANDARD: &str = "standard input";

/// Fails where a file has no name: the system's words would not say so.
pub fn named(name: &OsStr) -> Result<(), Trouble> {
    match name.is_empty() {
        true => Err(Trouble("an empty name is no file".to_string())),
        false => Ok(()),
    }
}

/// A text and where it came from.
#[derive(Clone, Debug)]
pub struct Text {
    /// The file's name as it can be shown.
    pub name: String,
    /// What was read: at most one byte more than a plan's text can have.
    pub bytes: Vec<u8>,
    /// How long the file is, if it is a plain file that was named.
    pub size: Option<u64>,
}

/// The input side: standard input can be read once, if it is open.
pub struct Input {
    closed: bool,
    used: bool,
}

impl Input {
    /// Standard input may have been closed at the beginning.
    pub fn new(closed: bool) -> Input {
        Input { closed, used: false }
    }

    /// Reads a plan's text; the name `-` is standard input.
    pub fn plan(&mut self, name: &OsStr) -> Result<Text, Trouble> {
        self.read(name, MAX_BYTES + 1)
    }

    /// Reads at most so many bytes of a file or of standard input.
    pub fn read(&mut self, name: &OsStr, most: usize) -> Result<Text, Trouble> {
        named(name)?;
        let shown = if name == "-" { STANDARD.to_string() } else { shown::name(name) };
        let told = |error: &io::Error| Trouble::with(&shown, error);
        let file = if name == "-" { self.standard() } else { File::open(name) };
        let file = file.map_err(|error| told(&error))?;
        // Of standard input nobody knows how much was read before.
        let about = file.metadata().ok().filter(|about| about.is_file() && name != "-");
        let size = about.map(|about| about.len());
        let mut bytes = Vec::new();
        file.take(most as u64).read_to_end(&mut bytes).map_err(|error| told(&error))?;
        Ok(Text { name: shown, bytes, size })
    }

    /// The lines of standard input, one after another as they come.
    pub fn lines(&mut self) -> Result<Lines, Trouble> {
        let file = self.standard().map_err(|error| Trouble::with(STANDARD, &error))?;
        Ok(Lines { reader: BufReader::new(file), in_line: false })
    }

    /// Standard input as a file. Read a second time it would look like an empty plan, which it is not.
    fn standard(&mut self) -> io::Result<File> {
        if self.closed {
            return Err(io::Error::other("it is closed"));
        }
        if std::mem::replace(&mut self.used, true) {
            return Err(io::Error::other("it can be read only once"));
        }
        Ok(File::from(io::stdin().as_fd().try_clone_to_owned()?))
    }
}

/// The most bytes of a line that are kept, its newline among them.
pub const LONGEST: usize = 1_024;

/// The lines of standard input.
pub struct Lines {
    reader: BufReader<File>,
    /// Whether the rest of a long line is still to come, which nobody wants.
    in_line: bool,
}

/// One line as it came.
#[derive(Debug, PartialEq, Eq)]
pub struct Line {
    /// Its bytes, without the newline.
    pub bytes: Vec<u8>,
    /// How it ends.
    pub end: End,
}

/// How a line ends.
#[derive(Clone, Copy, Debug, PartialEq, Eq)]
pub enum End {
    /// With its newline, as it should.
    Newline,
    /// With the input.
    Input,
    /// It may go on: it has as many bytes as are kept.
    Cut,
}

impl Lines {
    /// The next line, as soon as its newline has come, or `None` at the end of the input.
    pub fn next_line(&mut self) -> Result<Option<Line>, Trouble> {
        self.read_line().map_err(|error| Trouble::with(STANDARD, &error))
    }

    fn read_line(&mut self) -> io::Result<Option<Line>> {
        while self.in_line {
            let part = self.reader.fill_buf()?;
            let newline = part.iter().position(|&byte| byte == b'\n');
            let used = newline.map_or(part.len(), |at| at + 1);
            self.in_line = newline.is_none() && used > 0;
            self.reader.consume(used);
        }
        let mut bytes = Vec::new();
        let read = self.reader.by_ref().take(LONGEST as u64).read_until(b'\n', &mut bytes)?;
        let end = match bytes.last() {
            Some(b'\n') => End::Newline,
            _ if read == LONGEST => End::Cut,
            _ => End::Input,
        };
        bytes.truncate(read - usize::from(end == End::Newline));
        self.in_line = end == End::Cut;
        Ok((read > 0).then_some(Line { bytes, end }))
    }
}
