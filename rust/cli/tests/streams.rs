//! Input and output that fail: each is trouble, told in words, with status 2.

mod common;

use common::{command, ended, fed, printed, run, shell, text, without_rights, Folder};
use std::fs::{self, Permissions};
use std::io::Write;
use std::os::unix::fs::{MetadataExt, PermissionsExt};
use std::process::Stdio;
use std::thread;
use std::time::Duration;

const PLAN: &str = "1 start 2; 1 take 0; 2 take 0; 2 give 0";

#[test]
fn a_closed_standard_input() {
    for word in ["order", "explain", "table", "check"] {
        let ended = shell("exec \"$0\" \"$1\" - <&-", &[word]).ends(2);
        assert_eq!(
            (ended.text(), &ended.err[..]),
            ("", "gimmerskip: standard input: it is closed\n")
        );
    }
    // Where it is not read it may be closed.
    let folder = Folder::new();
    shell("exec \"$0\" order \"$1\" <&-", &[&folder.file("p", text(PLAN))]).ends(0);
}

#[test]
fn a_closed_standard_output() {
    let folder = Folder::new();
    let plan = folder.file("p", text(PLAN));
    for arguments in ["order", "order --steps", "explain", "table", "check", "--help", "--version"]
    {
        let script = format!("exec \"$0\" {arguments} \"$1\" >&-");
        let script =
            if arguments.starts_with("--") { script.replace("\"$1\"", "") } else { script };
        let ended = shell(&script, &[&plan]).ends(2);
        assert_eq!(ended.err, "gimmerskip: standard output: it is closed\n", "{arguments}");
    }
    shell("exec \"$0\" move \"$1\" 2 5 >&-", &[&plan])
        .ends(2)
        .says(&["standard output: it is closed"]);
    // All three closed: there is still the status.
    assert_eq!(shell("exec \"$0\" order \"$1\" <&- >&- 2>&-", &[&plan]).status, Some(2));
    // A move in place prints nothing, and needs no standard output.
    shell("exec \"$0\" move --in-place \"$1\" 2 5 >&-", &[&plan]).ends(0);
}

#[test]
fn a_full_disk() {
    let folder = Folder::new();
    let plan = folder.file("p", text(PLAN));
    for arguments in ["order", "order --steps", "explain", "table", "check"] {
        let ended = shell(&format!("exec \"$0\" {arguments} \"$1\" >/dev/full"), &[&plan]).ends(2);
        assert_eq!(ended.err, "gimmerskip: standard output: No space left on device\n");
    }
    shell("exec \"$0\" --help >/dev/full", &[]).ends(2);
    let bad = folder.file("bad", "x");
    // The words of a refusal are lost: that is trouble as well.
    assert_eq!(
        shell("exec \"$0\" order \"$1\" 2>/dev/full", &[&bad]).ends(2).text(),
        "refused\t2\t1\n"
    );
    // Whoever closes standard error does not want to hear.
    assert_eq!(shell("exec \"$0\" order \"$1\" 2>&-", &[&bad]).ends(1).text(), "refused\t2\t1\n");
}

#[test]
fn descriptors_that_are_open_the_wrong_way() {
    let folder = Folder::new();
    let plan = folder.file("p", text(PLAN));
    shell("exec \"$0\" order \"$1\" 1</dev/null", &[&plan])
        .ends(2)
        .says(&["standard output: Bad file descriptor"]);
    shell("exec \"$0\" order - 0>/dev/null", &[])
        .ends(2)
        .says(&["standard input: Bad file descriptor"]);
}

#[test]
fn a_closed_pipe() {
    let mut child =
        command(&["order", "-"]).stdin(Stdio::piped()).spawn().expect("it can be started");
    drop(child.stdout.take());
    let mut stdin = child.stdin.take().expect("standard input is a pipe");
    stdin.write_all(&text(PLAN)).expect("the command reads");
    drop(stdin);
    let ended = ended(child).ends(2);
    assert_eq!(ended.err, "gimmerskip: standard output: Broken pipe\n");
}

#[test]
fn a_limit_on_the_size_of_files() {
    let folder = Folder::new();
    let (plan, out) = (folder.file("p", text(PLAN)), folder.file("out", ""));
    let ended = shell("ulimit -f 0; exec \"$0\" order \"$1\" >\"$2\"", &[&plan, &out]).ends(2);
    assert_eq!(ended.err, "gimmerskip: standard output: File too large\n");
    assert_eq!(fs::read(&out).expect("the file is there"), b"");
}

#[test]
fn input_in_small_pieces() {
    let mut child =
        command(&["order", "-"]).stdin(Stdio::piped()).spawn().expect("it can be started");
    let mut stdin = child.stdin.take().expect("standard input is a pipe");
    let feeder = thread::spawn(move || {
        for byte in text(PLAN) {
            stdin.write_all(&[byte]).expect("the command reads");
            thread::sleep(Duration::from_millis(1));
        }
    });
    let ended = ended(child).ends(0);
    feeder.join().expect("feeding does not fail");
    assert_eq!(ended.out, printed(&text(PLAN)));
}

#[test]
fn endless_input() {
    assert_eq!(run(&["order", "/dev/zero"]).ends(1).text(), "refused\t1\t0\n");
    assert_eq!(shell("yes | \"$0\" order -", &[]).ends(1).text(), "refused\t1\t0\n");
    shell("yes | \"$0\" order --names - /dev/null", &[]).ends(2).says(&["at most 65,536 bytes"]);
    // The longest text that is read whole, and one byte more.
    let most = "1\tdo\t100\n".repeat(1_365) + "1\t1";
    assert_eq!(fed(&["order", "-"], &most).ends(1).text(), "refused\t3\t1025\n");
    assert_eq!(fed(&["order", "-"], most + "1").ends(1).text(), "refused\t1\t0\n");
}

#[test]
fn files_that_cannot_be_read() {
    let folder = Folder::new();
    let path = folder.path.to_str().unwrap().to_string();
    for word in ["order", "explain", "table", "check"] {
        run(&[word, &path]).ends(2).says(&["gimmerskip: ", ": Is a directory\n"]);
        run(&[word, &format!("{path}/none")]).ends(2).says(&["/none: No such file or directory\n"]);
    }
    shell("exec \"$0\" order - <\"$1\"", &[&path])
        .ends(2)
        .says(&["standard input: Is a directory"]);
    run(&["order", ""]).ends(2).says(&["an empty name is no file"]);
    let secret = folder.file("secret", text(PLAN));
    fs::set_permissions(&secret, Permissions::from_mode(0o000)).expect("it is ours");
    let other = Folder::new();
    let mut command = without_rights(&["order", &secret], &other);
    let ended = ended(command.spawn().expect("it can be started"));
    ended.ends(2).says(&["/secret: Permission denied\n"]);
    assert_eq!(fs::metadata(&secret).expect("it is there").mode() & 0o777, 0);
}

#[test]
fn standard_input_is_read_once() {
    let ended = fed(&["order", "-", "-"], text("1 take 0")).ends(2);
    assert_eq!(ended.text(), "order\t1\t1\n1\n");
    assert_eq!(ended.err, "gimmerskip: standard input: it can be read only once\n");
    fed(&["order", "--names", "-", "-"], "0\tpump\n").ends(2).says(&["only once"]);
}
