//! Standard output and standard error: written whole, or it is trouble.
//!
//! Both are written through a copy of the descriptor, as a file: Rust's own streams take a descriptor that cannot be
//! written to for one that swallows everything.

use crate::style::Style;
use crate::trouble::Trouble;
use std::fs::File;
use std::io::{self, IsTerminal, Write};
use std::os::fd::AsFd;

/// One of the two streams.
pub struct Output {
    name: &'static str,
    file: io::Result<File>,
    /// How words are coloured here.
    pub style: Style,
}

impl Output {
    /// Standard output, which may have been closed at the beginning.
    pub fn standard(closed: bool) -> Output {
        let stream = io::stdout();
        let file = if closed { Err(io::Error::other("it is closed")) } else { copy(&stream) };
        let style = Style::of_stream(stream.is_terminal());
        Output { name: "standard output", file, style }
    }

    /// Standard error. Where it was closed nobody wants to hear, and the words go nowhere.
    pub fn error() -> Output {
        let stream = io::stderr();
        let style = Style::of_stream(stream.is_terminal());
        Output { name: "standard error", file: copy(&stream), style }
    }

    /// Writes all of it, or says why not. No bytes are no trouble, also where nothing can be written.
    pub fn put(&mut self, bytes: &[u8]) -> Result<(), Trouble> {
        if bytes.is_empty() {
            return Ok(());
        }
        let written = match &mut self.file {
            Ok(file) => file.write_all(bytes).and_then(|()| file.flush()),
            Err(error) => return Err(Trouble::with(self.name, error)),
        };
        written.map_err(|error| Trouble::with(self.name, &error))
    }
}

/// A copy of a stream's descriptor, as a file.
fn copy(stream: &impl AsFd) -> io::Result<File> {
    Ok(File::from(stream.as_fd().try_clone_to_owned()?))
}
