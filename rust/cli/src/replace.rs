//! A file replaced whole or not at all.

use crate::shown;
use crate::trouble::Trouble;
use std::ffi::OsStr;
use std::fs::{self, File, Metadata, OpenOptions, Permissions};
use std::io::{self, Write};
use std::os::unix::fs::{fchown, MetadataExt, OpenOptionsExt, PermissionsExt};
use std::path::{Path, PathBuf};
use std::process;

/// A new file beside the one to be replaced; it is taken away again unless it was put in its place.
struct Beside {
    path: PathBuf,
    placed: bool,
}

impl Drop for Beside {
    fn drop(&mut self) {
        if !self.placed {
            // There is nobody left to tell, and the trouble that led here is told already.
            let _ = fs::remove_file(&self.path);
        }
    }
}

/// Whether a file can be replaced, as far as that is seen from outside. It is looked at before it is opened: a pipe
/// would be waited for.
pub fn replaceable(name: &OsStr) -> Result<(), Trouble> {
    let looked = plain_file(Path::new(name));
    looked.map(drop).map_err(|error| Trouble::with(&shown::name(name), &error))
}

/// Replaces what is in a file, or in the file that a link leads to. Permissions and owner stay.
pub fn replace(name: &OsStr, bytes: &[u8]) -> Result<(), Trouble> {
    replaced(Path::new(name), bytes).map_err(|error| told(name, &error))
}

/// Why a file was not replaced.
fn told(name: &OsStr, error: &io::Error) -> Trouble {
    let Trouble(words) = Trouble::with(&shown::name(name), error);
    Trouble(format!("{words}; the file is as it was"))
}

/// Where a plain file with one name stands, and what is known of it.
fn plain_file(name: &Path) -> io::Result<(PathBuf, Metadata)> {
    let target = fs::canonicalize(name)?;
    let about = fs::metadata(&target)?;
    if !about.is_file() {
        return Err(io::Error::other("it is no plain file"));
    }
    match about.nlink() {
        0 | 1 => Ok((target, about)),
        count => Err(io::Error::other(format!(
            "it has {count} names (hard links), and under the others the old plan would stay"
        ))),
    }
}

/// An error with words in front that say what it was met at.
fn at(words: &str, error: io::Error) -> io::Error {
    io::Error::new(error.kind(), format!("{words}: {error}"))
}

fn replaced(name: &Path, bytes: &[u8]) -> io::Result<()> {
    let (target, about) = plain_file(name)?;
    // One that is protected from being written to is not replaced either.
    drop(OpenOptions::new().write(true).open(&target)?);
    let folder = target.parent().ok_or_else(|| io::Error::other("it is in no folder"))?;
    let made = new_file(folder).map_err(|error| at("its folder cannot be written to", error));
    let (mut beside, mut file) = made?;
    file.write_all(bytes)?;
    keep_rights(&file, &about)?;
    file.sync_all()?;
    fs::rename(&beside.path, &target)?;
    beside.placed = true;
    // The new file is in its place; that its name is on the disk too cannot be had everywhere.
    let _ = File::open(folder).and_then(|folder| folder.sync_all());
    Ok(())
}

/// Makes a file with a name that nothing has, which only its owner can read until it has its rights.
fn new_file(folder: &Path) -> io::Result<(Beside, File)> {
    let mut number = 0;
    loop {
        let path = folder.join(format!(".gimmerskip-{}-{number}", process::id()));
        match OpenOptions::new().write(true).create_new(true).mode(0o600).open(&path) {
            Ok(file) => return Ok((Beside { path, placed: false }, file)),
            Err(error) if error.kind() == io::ErrorKind::AlreadyExists && number < 99 => {
                number += 1
            }
            Err(error) => return Err(error),
        }
    }
}

/// Gives a new file the owner, group and permissions of the old one.
fn keep_rights(file: &File, about: &Metadata) -> io::Result<()> {
    let new = file.metadata()?;
    if (new.uid(), new.gid()) != (about.uid(), about.gid()) {
        let kept = fchown(file, Some(about.uid()), Some(about.gid()));
        kept.map_err(|error| at("its owner cannot be kept", error))?;
    }
    file.set_permissions(Permissions::from_mode(about.mode() & 0o7777))
}
