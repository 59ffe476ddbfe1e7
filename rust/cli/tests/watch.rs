//! `gimmerskip move --watch`: each move answered at once, what is no move, the plan at the end, and files replaced.

mod common;

use common::{command, ended, fed, run, shell, text, Ended, Folder, GIMMERSKIP};
use gimmerskip::{Plan, Tabled};
use second::random::{plan, some_move, wish, Random};
use second::read;
use std::fs::{self, Permissions};
use std::io::{BufRead, BufReader, Write};
use std::os::unix::fs::{MetadataExt, PermissionsExt};
use std::process::{Command, Stdio};
use std::thread;
use std::time::Duration;

const RING: &str = "1 start 2; 1 take 0; 1 take 1; 1 give 1; 2 take 1; 2 take 0; 2 give 0";
const OPEN: &str = "1 start 2; 1 take 0; 1 take 1; 1 give 1; 2 take 1; 2 take 5; 2 give 5";

/// A run on a plan with these moves.
fn watched(folder: &Folder, plan: &str, moves: &str) -> Ended {
    fed(&["move", "--watch", &folder.file("the.plan", text(plan))], moves)
}

/// What is printed for these answers and this plan at the end.
fn print(answers: &str, plan: &str) -> String {
    answers.replace(' ', "\t") + "--\n" + std::str::from_utf8(&text(plan)).expect("a plan is text")
}

#[test]
fn each_move_is_answered_and_the_plan_comes_last() {
    let folder = Folder::new();
    let ended = watched(&folder, RING, "6 5\n6 0\n6\t5\n6  5\n").ends(0);
    let answers = "changed 3 accepted 2\nchanged 3 refused 10 0\nchanged 3 accepted 2\nchanged 0 accepted 2\n";
    assert_eq!(ended.text(), print(answers, OPEN));
    let words = "device 0 leads back to itself, in a circle of 2 devices";
    assert_eq!(ended.err, format!("move 2: the edited plan has no order: {words}\n"));
    assert_eq!(folder.names(), ["the.plan"]);
    assert_eq!(fs::read(folder.path.join("the.plan")).expect("it is there"), text(RING));
}

#[test]
fn the_status_goes_by_the_moves_and_by_the_plan_at_the_end() {
    let folder = Folder::new();
    assert_eq!(watched(&folder, OPEN, "").ends(0).text(), print("", OPEN));
    assert_eq!(watched(&folder, "", "").ends(0).text(), "--\n");
    // Without an order at the end, moved or not.
    watched(&folder, RING, "").ends(1);
    watched(&folder, OPEN, "6 0\n").ends(1).prints(&["changed\t3\trefused\t10\t0\n--\n"]);
    watched(&folder, OPEN, "5 0\n").ends(1).prints(&["refused\t9\t0\n--\n"]);
    // A refused move stays in the status, and what was no move is worse.
    watched(&folder, OPEN, "1 5\n6 5\n").ends(1).prints(&["refused\t12\t1\nchanged\t0\taccepted"]);
    watched(&folder, OPEN, "1 5\nx\n6 5\n").ends(2).prints(&["malformed\t2\nchanged"]);
}

#[test]
fn refused_moves_are_told_in_words() {
    let folder = Folder::new();
    let ended = watched(&folder, RING, "4 2\n3 32\n9 1\n4294967296 1\n").ends(1);
    let answers = "refused 12 4\nrefused 13 32\nrefused 12 9\nrefused 12 4294967295\n";
    assert_eq!(ended.text(), print(answers, RING), "nothing is moved");
    ended.says(&[
        "move 1: refused 12 4: line 4 is a give, and only a take can be moved: its take is in line 3\n",
        "  line 4 | 1 ",
        "move 2: refused 13 32: there is no device 32: devices are 0 to 31\n",
        "move 3: refused 12 9: there is no line 9: the plan has 7 lines\n",
        "move 4: refused 12 4294967296: there is no line 4294967296: the plan has 7 lines\n",
    ]);
}

#[test]
fn what_is_no_move_is_told_and_changes_nothing() {
    let folder = Folder::new();
    let long = format!("6 {}", "5".repeat(5_000));
    let cases = [
        ("", "is an empty line: a line and a device are needed"),
        (" \t", "is an empty line: a line and a device are needed"),
        ("6", "has one word: a line and a device are needed, with a tab or spaces between"),
        ("six 5", "'six' is no line's number"),
        ("-6 5", "'-6' is no line's number"),
        ("6 pump", "'pump' is neither a device's number nor one of the names given"),
        ("6 5 5", "'5 5' is neither a device's number nor one of the names given"),
        ("6 5\r", "has a carriage return (a Windows newline): Unix newlines are needed (LF)"),
        ("6 \u{1b}[31m", "'\\u{1b}[31m' is neither a device's number nor one of the names given"),
        (&long, "has more than 1,024 bytes"),
    ];
    for (line, words) in cases {
        let ended = watched(&folder, RING, &format!("3 1\n{line}\n6 5\n")).ends(2);
        let answers = "changed 0 refused 10 0\nmalformed 2\nchanged 3 accepted 2\n";
        assert_eq!(ended.text(), print(answers, OPEN), "{line:?}");
        ended.says(&[&format!("gimmerskip: move 2: {words}\n")]);
    }
    let ended = watched(&folder, RING, "6 5\n6 0").ends(2);
    assert_eq!(ended.text(), print("changed 3 accepted 2\nmalformed 2\n", OPEN));
    ended.says(&["gimmerskip: move 2: has no newline at its end, and may be cut off\n"]);
    fed(&["move", "--watch", &folder.file("p", text(RING))], b"6 \xff\n6 5\n")
        .ends(2)
        .prints(&["malformed\t1\nchanged"]);
}

#[test]
fn devices_by_name_and_what_is_taken_again() {
    let folder = Folder::new();
    let (names, plan) = (folder.file("n", "5\tvalve five\n"), folder.file("p", text(RING)));
    let ended =
        fed(&["move", "--watch", "--names", &names, &plan], "6 valve five\n3  0 \n").ends(0);
    ended
        .prints(&["changed\t3\taccepted\t2\nchanged\t2\taccepted\t2\n--\n"])
        .says(&["move 2: line 3 now takes again what its job holds\n"]);
    // The moves are on standard input, and so cannot be the names as well.
    fed(&["move", "--watch", "--names", "-", &plan], "5\tv\n").ends(2).says(&["only once"]);
    fed(&["move", "--watch", "-"], text(RING)).ends(2).says(&["FILE cannot be `-`", "use: "]);
}

#[test]
fn a_plan_that_is_none_is_refused_before_any_move() {
    let folder = Folder::new();
    let ended = watched(&folder, "1 take 0; 1 give 1", "1 2\n").ends(1);
    assert_eq!(ended.text(), "");
    ended.says(&["the.plan: refused 7 2: line 2 gives device 1"]);
    run(&["move", "--watch", "none.plan"])
        .ends(2)
        .says(&["none.plan: No such file or directory\n"]);
}

#[test]
fn an_answer_comes_before_the_next_move() {
    let folder = Folder::new();
    let path = folder.file("the.plan", text(RING));
    let mut child =
        command(&["move", "--watch", &path]).stdin(Stdio::piped()).spawn().expect("it starts");
    let mut stdin = child.stdin.take().expect("standard input is a pipe");
    let mut stdout = BufReader::new(child.stdout.take().expect("standard output is a pipe"));
    let mut answered = |line: &str| {
        stdin.write_all(line.as_bytes()).expect("the command reads");
        let mut answer = String::new();
        stdout.read_line(&mut answer).expect("the command answers");
        answer
    };
    assert_eq!(answered("6 5\n"), "changed\t3\taccepted\t2\n");
    assert_eq!(answered("7 5\n"), "refused\t12\t7\n");
    assert_eq!(answered("\n"), "malformed\t3\n");
    // A line that does not end is answered too, and its rest passed over.
    assert_eq!(answered(&"9".repeat(3_000)), "malformed\t4\n");
    assert_eq!(answered("9 9\n6 0\n"), "changed\t3\trefused\t10\t0\n");
    drop(stdin);
    let mut rest = String::new();
    while stdout.read_line(&mut rest).expect("the command prints") > 0 {}
    assert_eq!(rest, print("", RING));
    ended(child).ends(2);
}

#[test]
fn random_moves_are_those_of_the_wrapper() {
    let (mut random, folder) = (Random::new(404), Folder::new());
    let mut seen = [0; 4];
    for _ in 0..60 {
        let wish = wish(&mut random, 24, 4, 5);
        let bytes = read::write(&plan(&mut random, wish));
        let mut tabled = Tabled::new(Plan::from_text(&bytes).expect("the plan has no fault"));
        let (mut moves, mut answers) = (String::new(), String::new());
        for _ in 0..12 {
            let asked = some_move(&mut random, tabled.plan().packed());
            moves += &format!("{} {}\n", asked.line, asked.device);
            let refused = |refusal: gimmerskip::Refusal| (refusal.number(), refusal.place());
            let verdict =
                |tabled: &Tabled| tabled.verdict().map(|order| order.held).map_err(refused);
            let (answer, kind) = match tabled.move_claim(asked.line, asked.device).map_err(refused)
            {
                Err((number, place)) => (format!("refused\t{number}\t{place}\n"), 0),
                Ok(count) => match verdict(&tabled) {
                    Ok(held) => (format!("changed\t{count}\taccepted\t{held}\n"), 1),
                    Err((number, place)) => (
                        format!("changed\t{count}\trefused\t{number}\t{place}\n"),
                        number as usize - 7,
                    ),
                },
            };
            answers += &answer;
            seen[kind] += 1;
        }
        let ended = fed(&["move", "--watch", &folder.file("p", &bytes)], &moves);
        assert_eq!(ended.text(), format!("{answers}--\n{}", tabled.plan()), "{moves}");
        let refused = answers.lines().any(|line| line.starts_with("refused"));
        assert_eq!(ended.status, Some((refused || tabled.verdict().is_err()).into()));
    }
    assert!(seen.iter().all(|&times| times > 20), "{seen:?}");
}

#[test]
fn the_file_is_replaced_at_the_end() {
    let folder = Folder::new();
    let path = folder.file("ring.plan", text(RING));
    fs::set_permissions(&path, Permissions::from_mode(0o640)).expect("it is ours");
    let ended = fed(&["move", "--watch", "--in-place", &path], "6 5\n").ends(0);
    assert_eq!((ended.text(), &ended.err[..]), ("changed\t3\taccepted\t2\n", ""));
    assert_eq!(fs::read(&path).expect("it is there"), text(OPEN));
    let before = fs::metadata(&path).expect("it is there");
    assert_eq!(before.mode() & 0o7777, 0o640);
    // There and back, or refused: the file is not touched.
    fed(&["move", "--watch", "--in-place", &path], "6 0\n6 5\n").ends(0);
    fed(&["move", "--watch", "--in-place", &path], "4 5\n").ends(1);
    let after = fs::metadata(&path).expect("it is there");
    assert_eq!((after.ino(), after.mtime_nsec()), (before.ino(), before.mtime_nsec()));
    assert_eq!(folder.names(), ["ring.plan"]);
    run(&["move", "--watch", "--in-place", "/dev/null"]).ends(2).says(&["it is no plain file"]);
}

#[test]
fn a_plan_that_cannot_be_put_into_its_file_is_printed() {
    let folder = Folder::new();
    let path = folder.file("ring.plan", text(RING));
    let script = "ulimit -f 0; printf '6 5\\n' | \"$0\" move --watch --in-place \"$1\" | cat";
    let full = shell(script, &[&path]);
    assert_eq!(full.text(), print("changed 3 accepted 2\n", OPEN));
    full.says(&["ring.plan: File too large; the file is as it was; the plan is printed instead\n"]);
    assert_eq!(fs::read(&path).expect("it is there"), text(RING));
    // Somebody else changes the file while claims are moved.
    let other = text("1 take 7");
    let mut child = command(&["move", "--watch", "--in-place", &path])
        .stdin(Stdio::piped())
        .spawn()
        .expect("it starts");
    let mut stdin = child.stdin.take().expect("standard input is a pipe");
    let mut stdout = BufReader::new(child.stdout.take().expect("standard output is a pipe"));
    stdin.write_all(b"6 5\n").expect("the command reads");
    let mut print_of = String::new();
    stdout.read_line(&mut print_of).expect("the command answers");
    fs::write(&path, &other).expect("it is ours");
    drop(stdin);
    while stdout.read_line(&mut print_of).expect("the command prints") > 0 {}
    assert_eq!(print_of, print("changed 3 accepted 2\n", OPEN));
    let words = "ring.plan: it was changed since it was read, and is left so; the plan is printed instead\n";
    ended(child).ends(2).says(&[words]);
    assert_eq!(fs::read(&path).expect("it is there"), other);
    assert_eq!(folder.names(), ["ring.plan"], "nothing is left behind");
}

#[test]
fn streams_that_fail() {
    let folder = Folder::new();
    let path = folder.file("ring.plan", text(RING));
    shell("exec \"$0\" move --watch \"$1\" <&-", &[&path])
        .ends(2)
        .says(&["standard input: it is closed\n"]);
    shell("exec \"$0\" move --watch \"$1\" 0>/dev/null", &[&path])
        .ends(2)
        .says(&["standard input: Bad file"]);
    let moves = folder.file("moves", "6 5\n");
    let full =
        shell("exec \"$0\" move --watch --in-place \"$1\" <\"$2\" >/dev/full", &[&path, &moves]);
    assert_eq!(full.ends(2).err, "gimmerskip: standard output: No space left on device\n");
    shell("exec \"$0\" move --watch --in-place \"$1\" <\"$2\" >&-", &[&path, &moves])
        .ends(2)
        .says(&["standard output: it is closed\n"]);
    // Nobody has seen the answer, so that nothing is put into the file.
    assert_eq!(fs::read(&path).expect("it is there"), text(RING));
    let mut child =
        command(&["move", "--watch", &path]).stdin(Stdio::piped()).spawn().expect("it starts");
    drop(child.stdout.take());
    let mut stdin = child.stdin.take().expect("standard input is a pipe");
    stdin.write_all(b"6 5\n").expect("the command reads");
    // For a moment a child that another test starts may have the pipe open too, and an answer is taken.
    for _ in 0..100 {
        thread::sleep(Duration::from_millis(10));
        if stdin.write_all(b"6 5\n").is_err() {
            break;
        }
    }
    assert_eq!(ended(child).ends(2).err, "gimmerskip: standard output: Broken pipe\n");
}

#[test]
fn broken_off_the_file_is_as_it_was() {
    let folder = Folder::new();
    let path = folder.file("ring.plan", text(RING));
    let mut child = command(&["move", "--watch", "--in-place", &path])
        .stdin(Stdio::piped())
        .spawn()
        .expect("it starts");
    let mut stdin = child.stdin.take().expect("standard input is a pipe");
    let mut stdout = BufReader::new(child.stdout.take().expect("standard output is a pipe"));
    stdin.write_all(b"6 5\n").expect("the command reads");
    stdout.read_line(&mut String::new()).expect("the command answers");
    let kill = format!("kill -s INT {}", child.id());
    assert!(Command::new("sh").args(["-c", &kill]).status().expect("there is a shell").success());
    assert_eq!(ended(child).status, None, "a signal ends it");
    assert_eq!(fs::read(&path).expect("it is there"), text(RING));
    assert_eq!(folder.names(), ["ring.plan"]);
}

#[test]
fn at_a_terminal_it_says_how_the_plan_stands() {
    let folder = Folder::new();
    let (open, ring) = (folder.file("open.plan", text(OPEN)), folder.file("ring.plan", text(RING)));
    for (plan, stands) in [
        (open, "accepted, 7 lines, 2 devices stay held"),
        (ring, "it has no order: device 0 leads"),
    ] {
        let line = format!("TERM=dumb {GIMMERSKIP} move --watch {plan}");
        let mut terminal = Command::new("script");
        terminal.args(["-qec", &line, "/dev/null"]).stdin(Stdio::piped()).stdout(Stdio::piped());
        let Ok(mut child) = terminal.spawn() else { return };
        let mut stdin = child.stdin.take().expect("standard input is a pipe");
        stdin.write_all(b"6 5\n\x04").expect("the terminal reads");
        let shown = ended(child).ends(0);
        drop(stdin);
        shown.prints(&[
            stands,
            "Ctrl-D prints the plan",
            "\taccepted\t2\r\n",
            "--\r\n1\tstart\t2\r\n",
        ]);
    }
}
