//! `gimmerskip move`: the edited plan, refusals 12 and 13 in words, and files replaced in place. (Refusal 14 cannot be
//! met here: the table is always made anew.)

mod common;

use common::{ended, fed, run, shell, text, without_rights, Folder};
use gimmerskip::Plan;
use second::random::{plan, some_move, wish, Random};
use second::read;
use std::fs::{self, Permissions};
use std::os::unix::fs::{chown, symlink, MetadataExt, PermissionsExt};
use std::process::Command;

const RING: &str = "1 start 2; 1 take 0; 1 take 1; 1 give 1; 2 take 1; 2 take 0; 2 give 0";
const OPEN: &str = "1 start 2; 1 take 0; 1 take 1; 1 give 1; 2 take 1; 2 take 5; 2 give 5";

#[test]
fn a_claim_is_moved_with_its_give() {
    let ended = fed(&["move", "-", "6", "5"], text(RING)).ends(0);
    assert_eq!(ended.out, text(OPEN));
    assert_eq!(ended.err, "standard input: 3 sets of claims changed\n");
    let same =
        fed(&["move", "-", "6", "0"], text(RING)).ends(0).says(&["0 sets of claims changed"]);
    assert_eq!(same.out, text(RING));
    let words =
        "the edited plan has no order: device 0 leads back to itself, in a circle of 2 devices";
    let ended = fed(&["move", "-", "6", "0"], text(OPEN)).ends(0);
    assert_eq!(ended.says(&[&format!("changed\nstandard input: {words}\n")]).out, text(RING));
    fed(&["move", "-", "1", "5"], text("1 take 4")).ends(0).says(&[": 1 set of claims changed\n"]);
}

#[test]
fn a_device_by_its_name() {
    let folder = Folder::new();
    let names = folder.file("n", "5\tvalve five\n6\t0\n");
    let ended = fed(&["move", "--names", &names, "-", "6", "valve five"], text(RING)).ends(0);
    assert_eq!(ended.out, text(OPEN));
    // A number is a number, also where a device has it for a name.
    let ended = fed(&["move", "--names", &names, "-", "1", "0"], text("1 take 4")).ends(0);
    assert_eq!(ended.out, text("1 take 0"));
}

#[test]
fn what_is_no_device() {
    let folder = Folder::new();
    let names = folder.file("n", "5\tvalve five\n");
    let wrong = ["' is neither a device's number nor one of the names given\n"];
    for device in ["valve", "05", "+5", "", "-5"] {
        fed(&["move", "--names", &names, "--", "-", "6", device], text(RING)).ends(2).says(&wrong);
    }
}

#[test]
fn what_is_no_line() {
    for line in ["x", "06", ""] {
        fed(&["move", "-", line, "5"], text(RING)).ends(2).says(&["' is no line's number\n"]);
    }
}

/// A move that is refused with these words.
fn refused(plan: &str, line: &str, device: &str, words: &[&str]) {
    let ended = fed(&["move", "-", line, device], text(plan)).ends(1).says(words);
    assert_eq!(ended.text(), "", "nothing is printed");
}

#[test]
fn moves_that_are_refused() {
    refused(
        RING,
        "4",
        "2",
        &[
            "refused 12 4: line 4 is a give, and only a take can be moved: its take is in line 3\n",
            "  line 4 | 1 ",
        ],
    );
    refused(RING, "1", "2", &["refused 12 1: line 1 is a start, and only a take can be moved\n"]);
    refused(RING, "0", "2", &["refused 12 0: there is no line 0: the plan has 7 lines\n"]);
    refused(RING, "8", "2", &["refused 12 8: there is no line 8: the plan has 7 lines\n"]);
    refused(RING, "66000", "2", &["refused 12 66000: there is no line 66000"]);
    refused(RING, "3", "32", &["refused 13 32: there is no device 32: devices are 0 to 31\n"]);
    refused(
        "1 take 0; 1 give 1",
        "1",
        "2",
        &["refused 7 2: line 2 gives device 1, which job 1 does not hold there"],
    );
    fed(&["move", "-", "1", "2"], "1 take 3\n").ends(1).says(&["refused 2 1: line 1 has spaces"]);
}

#[test]
fn numbers_that_are_too_high_for_the_library() {
    for high in ["4294967295", "4294967296", "9999999999999999"] {
        let words = format!("refused 12 {high}: there is no line {high}: the plan has 7 lines\n");
        refused(RING, high, "1", &[&words]);
        let words = format!("refused 13 {high}: there is no device {high}: devices are 0 to 31\n");
        refused(RING, "3", high, &[&words]);
    }
    let longer = "9".repeat(5_000);
    refused(RING, &longer, "1", &["refused 12 9999999999999999..: there is no line 9999"]);
}

#[test]
fn random_moves_are_those_of_the_wrapper() {
    let (mut random, mut done) = (Random::new(812), 0);
    for _ in 0..200 {
        let wish = wish(&mut random, 24, 4, 5);
        let lines = plan(&mut random, wish);
        let bytes = read::write(&lines);
        let asked = some_move(&mut random, &second::line::pack(&lines));
        let mut plan = Plan::from_text(&bytes).expect("the plan has no fault");
        let mut table = plan.table();
        let told = plan.move_claim(&mut table, asked.line, asked.device);
        let (line, device) = (asked.line.to_string(), asked.device.to_string());
        let ended = fed(&["move", "-", &line, &device], &bytes);
        match told {
            Ok(count) => {
                assert_eq!(ended.ends(0).says(&[&format!(": {count} set")]).text(), plan.text());
                done += 1;
            }
            Err(refusal) => {
                let words = format!("refused {} {}: ", refusal.number(), refusal.place());
                let ended = ended.ends(1).says(&[&words]);
                // For each case there are words that were found, not the general ones.
                assert!(!ended.err.contains(&refusal.to_string()), "{}", ended.err);
            }
        }
    }
    assert!((50..190).contains(&done), "{done}");
}

#[test]
fn a_file_is_replaced_in_place() {
    let folder = Folder::new();
    let path = folder.file("ring.plan", text(RING));
    for mode in [0o640, 0o600, 0o664, 0o444] {
        fs::write(&path, text(RING)).or_else(|_| fs::remove_file(&path)).expect("it is ours");
        fs::set_permissions(&path, Permissions::from_mode(mode)).expect("it is ours");
        if fs::OpenOptions::new().write(true).open(&path).is_err() {
            continue;
        }
        let ended = run(&["move", "--in-place", &path, "6", "5"]).ends(0).says(&["3 sets"]);
        assert_eq!(ended.text(), "", "the plan is not printed");
        assert_eq!(fs::read(&path).expect("it is there"), text(OPEN));
        assert_eq!(fs::metadata(&path).expect("it is there").mode() & 0o7777, mode);
        assert_eq!(folder.names(), ["ring.plan"], "nothing is left behind");
    }
}

#[test]
fn the_owner_stays() {
    let folder = Folder::new();
    let path = folder.file("ring.plan", text(RING));
    // Only the keeper of the machine can give a file away.
    if chown(&path, Some(65_534), Some(65_534)).is_ok() {
        run(&["move", "--in-place", &path, "6", "5"]).ends(0);
        let about = fs::metadata(&path).expect("it is there");
        assert_eq!((about.uid(), about.gid()), (65_534, 65_534));
    }
}

#[test]
fn of_a_link_the_target_is_replaced() {
    let (folder, other) = (Folder::new(), Folder::new());
    let path = other.file("ring.plan", text(RING));
    let link = folder.path.join("link.plan");
    symlink(&path, &link).expect("a link can be made");
    run(&["move", "--in-place", link.to_str().unwrap(), "6", "5"]).ends(0);
    assert!(fs::symlink_metadata(&link).expect("it is there").file_type().is_symlink());
    assert_eq!(fs::read(&path).expect("it is there"), text(OPEN));
    assert_eq!(
        (folder.names(), other.names()),
        (vec!["link.plan".into()], vec!["ring.plan".into()])
    );
}

#[test]
fn a_folder_that_cannot_be_written_to() {
    let (folder, other) = (Folder::new(), Folder::new());
    let path = folder.file("ring.plan", text(RING));
    fs::set_permissions(&path, Permissions::from_mode(0o666)).expect("it is ours");
    fs::set_permissions(&folder.path, Permissions::from_mode(0o555)).expect("it is ours");
    let mut command = without_rights(&["move", "--in-place", &path, "6", "5"], &other);
    let ended = ended(command.spawn().expect("it can be started")).ends(2);
    fs::set_permissions(&folder.path, Permissions::from_mode(0o755)).expect("it is ours");
    let ended = ended.says(&[
        "ring.plan: its folder cannot be written to: Permission denied; the file is as it was\n",
    ]);
    assert!(!ended.err.contains("changed"));
    assert_eq!(fs::read(&path).expect("it is there"), text(RING));
    assert_eq!(folder.names(), ["ring.plan"]);
}

#[test]
fn what_is_no_plain_file_of_one_name() {
    let folder = Folder::new();
    let path = folder.file("ring.plan", text(RING));
    fs::hard_link(&path, folder.path.join("other.plan")).expect("a link can be made");
    let words =
        "ring.plan: it has 2 names (hard links), and under the others the old plan would stay\n";
    run(&["move", "--in-place", &path, "6", "5"]).ends(2).says(&[words]);
    assert_eq!(fs::read(&path).expect("it is there"), text(RING));
    let pipe = folder.path.join("pipe");
    assert!(Command::new("mkfifo").arg(&pipe).status().expect("there is mkfifo").success());
    for other in [pipe.to_str().expect("text"), "/dev/zero", "/"] {
        let ended = run(&["move", "--in-place", other, "6", "5"]).ends(2);
        ended.says(&[": it is no plain file\n"]);
    }
    run(&["move", "--in-place", "", "6", "5"]).ends(2).says(&[": an empty name is no file\n"]);
}

#[test]
fn an_owner_that_cannot_be_kept() {
    let (folder, other) = (Folder::new(), Folder::new());
    let path = folder.file("ring.plan", text(RING));
    fs::set_permissions(&path, Permissions::from_mode(0o666)).expect("it is ours");
    fs::set_permissions(&folder.path, Permissions::from_mode(0o777)).expect("it is ours");
    // Only the keeper of the machine can have others do it.
    if fs::metadata(&path).expect("it is there").uid() != 0 {
        return;
    }
    let mut command = without_rights(&["move", "--in-place", &path, "6", "5"], &other);
    let words =
        "ring.plan: its owner cannot be kept: Operation not permitted; the file is as it was\n";
    ended(command.spawn().expect("it can be started")).ends(2).says(&[words]);
    assert_eq!(fs::read(&path).expect("it is there"), text(RING));
    assert_eq!(folder.names(), ["ring.plan"]);
}

#[test]
fn a_protected_file_is_not_replaced() {
    let (folder, other) = (Folder::new(), Folder::new());
    let path = folder.file("ring.plan", text(RING));
    fs::set_permissions(&path, Permissions::from_mode(0o444)).expect("it is ours");
    let mut command = without_rights(&["move", "--in-place", &path, "6", "5"], &other);
    fs::set_permissions(&folder.path, Permissions::from_mode(0o777)).expect("it is ours");
    ended(command.spawn().expect("it can be started"))
        .ends(2)
        .says(&["Permission denied; the file is as it was"]);
    assert_eq!(fs::read(&path).expect("it is there"), text(RING));
}

#[test]
fn a_file_that_cannot_be_written_whole_is_left_as_it_was() {
    let folder = Folder::new();
    let path = folder.file("ring.plan", text(RING));
    let script = "ulimit -f 0; exec \"$0\" move --in-place \"$1\" 6 5";
    shell(script, &[&path]).ends(2).says(&["ring.plan: File too large; the file is as it was\n"]);
    assert_eq!(fs::read(&path).expect("it is there"), text(RING));
    assert_eq!(folder.names(), ["ring.plan"], "nothing is left behind");
}

#[test]
fn a_refused_move_touches_no_file() {
    let folder = Folder::new();
    let path = folder.file("ring.plan", text(RING));
    let before = fs::metadata(&path).expect("it is there");
    run(&["move", "--in-place", &path, "4", "0"]).ends(1).says(&["refused 12 4"]);
    run(&["move", "--in-place", &path, "6", "0"]).ends(0).says(&["0 sets of claims changed"]);
    let after = fs::metadata(&path).expect("it is there");
    assert_eq!((after.ino(), after.mtime_nsec()), (before.ino(), before.mtime_nsec()));
    assert_eq!(folder.names(), ["ring.plan"]);
    fed(&["move", "--in-place", "-", "1", "2"], text(RING))
        .ends(2)
        .says(&["standard input cannot be replaced"]);
    run(&["move", "--in-place", "none.plan", "1", "2"])
        .ends(2)
        .says(&["none.plan: No such file or directory\n"]);
}
