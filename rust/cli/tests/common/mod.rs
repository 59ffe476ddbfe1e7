//! Runs of the command as a process, folders for its files, and plans written the short way: "1 start 2; 1 take 1".
#![allow(dead_code)]

use std::fs;
use std::io::{Read, Write};
use std::os::unix::fs::MetadataExt;
use std::os::unix::process::CommandExt;
use std::path::{Path, PathBuf};
use std::process::{Child, Command, Stdio};
use std::sync::atomic::{AtomicUsize, Ordering::Relaxed};
use std::thread;
use std::time::{Duration, Instant};

/// The command.
pub const GIMMERSKIP: &str = env!("CARGO_BIN_EXE_gimmerskip");
/// A run is given up after this long; it needs some thousandths of a second.
const PATIENCE: Duration = Duration::from_secs(20);

/// How a run ended.
#[derive(Debug)]
pub struct Ended {
    /// The status, or `None` after a signal.
    pub status: Option<i32>,
    pub out: Vec<u8>,
    pub err: String,
}

impl Ended {
    /// Standard output as text.
    pub fn text(&self) -> &str {
        std::str::from_utf8(&self.out).expect("what is printed is text")
    }

    /// Fails unless the status is this one.
    pub fn ends(self, status: i32) -> Ended {
        assert_eq!(self.status, Some(status), "{}{}", self.text(), self.err);
        self
    }

    /// Fails unless all of these words are on standard output.
    pub fn prints(self, words: &[&str]) -> Ended {
        for word in words {
            assert!(self.text().contains(word), "'{word}' is not in:\n{}", self.text());
        }
        self
    }

    /// Fails unless all of these words are on standard error.
    pub fn says(self, words: &[&str]) -> Ended {
        for word in words {
            assert!(self.err.contains(word), "'{word}' is not in:\n{}", self.err);
        }
        self
    }
}

/// A command that has its streams piped, with colours out of the way.
pub fn command(arguments: &[&str]) -> Command {
    let mut command = Command::new(GIMMERSKIP);
    command.args(arguments).env("TERM", "xterm").env_remove("NO_COLOR");
    command.stdin(Stdio::null()).stdout(Stdio::piped()).stderr(Stdio::piped());
    command
}

/// A run with nothing on standard input.
pub fn run(arguments: &[&str]) -> Ended {
    ended(command(arguments).spawn().expect("the command can be started"))
}

/// A run with these bytes on standard input.
pub fn fed(arguments: &[&str], input: impl AsRef<[u8]>) -> Ended {
    let mut child = command(arguments).stdin(Stdio::piped()).spawn().expect("it can be started");
    let mut stdin = child.stdin.take().expect("standard input is a pipe");
    let input = input.as_ref().to_vec();
    // A thread of its own: the command may stop reading. That it does is no fault.
    let feeder = thread::spawn(move || drop(stdin.write_all(&input)));
    let ended = ended(child);
    feeder.join().expect("feeding does not fail");
    ended
}

/// A run by the shell, in which the command is `"$0"` and the arguments are `"$1"` and so on.
pub fn shell(script: &str, arguments: &[&str]) -> Ended {
    let mut command = Command::new("sh");
    command.arg("-c").arg(script).arg(GIMMERSKIP).args(arguments);
    command.stdin(Stdio::null()).stdout(Stdio::piped()).stderr(Stdio::piped());
    ended(command.spawn().expect("there is a shell"))
}

/// Waits for the end.
pub fn ended(mut child: Child) -> Ended {
    let out = child.stdout.take().map(|pipe| thread::spawn(move || all(pipe)));
    let err = child.stderr.take().map(|pipe| thread::spawn(move || all(pipe)));
    let began = Instant::now();
    let status = loop {
        match child.try_wait().expect("a child can be waited for") {
            Some(status) => break status.code(),
            None if began.elapsed() > PATIENCE => {
                child.kill().expect("a child can be stopped");
                panic!("the command does not end");
            }
            None => thread::sleep(Duration::from_micros(200)),
        }
    };
    let got = |pipe: Option<thread::JoinHandle<Vec<u8>>>| {
        pipe.map(|reader| reader.join().expect("a pipe can be read")).unwrap_or_default()
    };
    let err = String::from_utf8(got(err)).expect("what is said is text");
    Ended { status, out: got(out), err }
}

fn all(mut pipe: impl Read) -> Vec<u8> {
    let mut bytes = Vec::new();
    pipe.read_to_end(&mut bytes).expect("a pipe can be read");
    bytes
}

/// A folder of its own, which is taken away at the end.
pub struct Folder {
    pub path: PathBuf,
}

impl Folder {
    pub fn new() -> Folder {
        static COUNT: AtomicUsize = AtomicUsize::new(0);
        let name = format!("gimmerskip-{}-{}", std::process::id(), COUNT.fetch_add(1, Relaxed));
        let path = std::env::temp_dir().join(name);
        fs::create_dir(&path).expect("a folder can be made");
        Folder { path }
    }

    /// Puts a file into the folder: its path.
    pub fn file(&self, name: &str, bytes: impl AsRef<[u8]>) -> String {
        let path = self.path.join(name);
        fs::write(&path, bytes).expect("a file can be written");
        path.to_str().expect("the path is text").to_string()
    }

    /// The names of all that is in the folder.
    pub fn names(&self) -> Vec<String> {
        let entries = fs::read_dir(&self.path).expect("the folder is there");
        let name = |entry: fs::DirEntry| entry.file_name().to_string_lossy().into_owned();
        let mut names: Vec<String> = entries.map(|entry| name(entry.expect("an entry"))).collect();
        names.sort();
        names
    }
}

impl Drop for Folder {
    fn drop(&mut self) {
        let _ = fs::remove_dir_all(&self.path);
    }
}

/// The text of a plan written the short way.
pub fn text(short: &str) -> Vec<u8> {
    second::listed::text(short)
}

/// A copy of the command where everybody can reach it, run by somebody without rights.
pub fn without_rights(arguments: &[&str], folder: &Folder) -> Command {
    let copy = folder.path.join("gimmerskip");
    // Copied by another process: nobody here may have it open for writing while it is started.
    let copied = Command::new("cp").arg(GIMMERSKIP).arg(&copy).status().expect("there is cp");
    assert!(copied.success());
    let mut command = Command::new(copy);
    command.args(arguments).stdin(Stdio::null()).stdout(Stdio::piped()).stderr(Stdio::piped());
    // Only the keeper of the machine, whom nothing stops, can run it as somebody else, and has to.
    if fs::metadata(&folder.path).expect("the folder is there").uid() == 0 {
        command.uid(65_534).gid(65_534);
    }
    command
}

/// The plans of the project, by their paths.
pub fn plans() -> Vec<String> {
    let folder = Path::new(env!("CARGO_MANIFEST_DIR")).join("../../plans");
    let entries =
        fs::read_dir(folder).expect("there are plans").map(|entry| entry.expect("an entry").path());
    let plans = entries.filter(|path| path.extension().is_some_and(|end| end == "plan"));
    let mut plans: Vec<String> =
        plans.map(|path| path.to_str().expect("text").to_string()).collect();
    plans.sort();
    assert!(plans.len() >= 4);
    plans
}

/// What the wrapper prints for a text.
pub fn printed(text: &[u8]) -> Vec<u8> {
    let mut out = vec![0; gimmerskip::SCREEN_ROOM];
    let count = gimmerskip::entries::order(text, &mut out).expect("there is room");
    out.truncate(count);
    out
}
