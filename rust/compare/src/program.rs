//! The programs `order` and `judge` as processes: standard input whole, in pieces, too long or not
//! to be read, and standard output, also one that takes nothing. The paragraphs are that on the
//! program in "Plans with their verdicts" of document 01, and request 1 of document 02.

use crate::run::Answer;
use second::read::read;
use second::{judge, plain};
use std::io::{Read, Write};
use std::path::PathBuf;
use std::process::{Child, ChildStdin, Command, Stdio};
use std::thread;
use std::time::{Duration, Instant};

/// A program is given up after this long; it needs some thousandths of a second.
const PATIENCE: Duration = Duration::from_secs(10);

/// How a run of the program ended.
#[derive(Debug, PartialEq, Eq)]
pub struct Ended {
    pub out: Vec<u8>,
    pub err: Vec<u8>,
    /// It came to its own end: no signal, and not given up.
    pub by_itself: bool,
}

/// A program.
pub struct Program {
    /// With this begin the names of its classes and checks.
    pub name: &'static str,
    pub path: PathBuf,
    /// What the second program answers for a text, and what it prints.
    pub answers: fn(&[u8]) -> Answer,
    pub prints: fn(&[u8]) -> Vec<u8>,
}

/// The path in an environment variable, or where `rt ci` leaves a program.
fn path(variable: &str, program: &str) -> PathBuf {
    let top = concat!(env!("CARGO_MANIFEST_DIR"), "/../../crates");
    let built = || [top, program, "out", program].iter().collect();
    std::env::var_os(variable).map_or_else(built, PathBuf::from)
}

impl Program {
    /// The program `order`.
    pub fn order() -> Program {
        let answers = |text: &[u8]| {
            let order = read(text).and_then(|plan| plain::verdict(&plan));
            order.map(|order| u64::from(order.held))
        };
        let path = path("ORDER", "order");
        Program { name: "program order", path, answers, prints: plain::printed }
    }

    /// The program `judge`.
    pub fn judge() -> Program {
        let answers = |text: &[u8]| judge::judge_text(text).map(|()| 0);
        let path = path("JUDGE", "judge");
        Program { name: "program judge", path, answers, prints: judge::printed }
    }

    /// A run with these pieces on standard input, with a pause after each but the last.
    pub fn fed(&self, pieces: Vec<Vec<u8>>, pause: Duration) -> Ended {
        let mut command = Command::new(&self.path);
        command.stdin(Stdio::piped()).stdout(Stdio::piped());
        let mut child = spawned(&mut command);
        let stdin = child.stdin.take().expect("standard input is a pipe");
        // A thread of its own: the program may stop reading, and has to be waited for meanwhile.
        let feeder = thread::spawn(move || feed(stdin, &pieces, pause));
        let ended = ended(child);
        feeder.join().expect("feeding does not fail");
        ended
    }

    /// A run with other streams.
    pub fn with(&self, stdin: Stdio, stdout: Stdio) -> Ended {
        let mut command = Command::new(&self.path);
        ended(spawned(command.stdin(stdin).stdout(stdout)))
    }

    /// A run by the shell, with a redirection that leaves a stream closed.
    pub fn redirected(&self, redirection: &str) -> Ended {
        let mut command = Command::new("sh");
        command.arg("-c").arg(format!("exec \"$0\" {redirection}")).arg(&self.path);
        ended(spawned(command.stdin(Stdio::null()).stdout(Stdio::piped())))
    }
}

/// Starts the program. That it is there has been looked at before.
fn spawned(command: &mut Command) -> Child {
    command.stderr(Stdio::piped()).spawn().expect("the program can be started")
}

/// Writes the pieces. A program that has seen enough closes the pipe, which is no fault.
fn feed(mut stdin: ChildStdin, pieces: &[Vec<u8>], pause: Duration) {
    for (at, piece) in pieces.iter().enumerate() {
        if at > 0 {
            thread::sleep(pause);
        }
        if stdin.write_all(piece).and_then(|()| stdin.flush()).is_err() {
            return;
        }
    }
}

/// Waits for the end. What the program prints is less than a pipe holds, so it can be read after.
fn ended(mut child: Child) -> Ended {
    let began = Instant::now();
    let status = loop {
        match child.try_wait().expect("a child can be waited for") {
            Some(status) => break Some(status),
            None if began.elapsed() > PATIENCE => break None,
            None => thread::sleep(Duration::from_micros(100)),
        }
    };
    if status.is_none() {
        // It may end at this very moment, and then there is nothing left to stop.
        let _ = child.kill();
        let _ = child.wait();
    }
    let (mut out, mut err) = (Vec::new(), Vec::new());
    if let Some(mut pipe) = child.stdout.take() {
        pipe.read_to_end(&mut out).expect("standard output is a pipe");
    }
    if let Some(mut pipe) = child.stderr.take() {
        pipe.read_to_end(&mut err).expect("standard error is a pipe");
    }
    let by_itself = status.is_some_and(|status| status.code().is_some());
    Ended { out, err, by_itself }
}
