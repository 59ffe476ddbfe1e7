//! `gimmerskip check` and `gimmerskip table`.

mod common;

use common::{fed, run, text, Folder};

#[test]
fn a_line_for_each_file() {
    let folder = Folder::new();
    let good = folder
        .file("good", text("1 start 2; 1 take 3; 1 do 7; 1 give 3; 2 take 3; 2 take 5; 2 give 5"));
    let bad = folder.file("bad", text("1 take 0; 1 take 1; 1 give 0"));
    let ring = folder.file("ring", text("1 take 0; 1 start 2; 2 take 0; 2 give 0"));
    let none = folder.path.join("none").to_str().unwrap().to_string();
    let accepted = format!("{good}: accepted, 7 lines, 1 device stays held\n");
    assert_eq!(run(&["check", &good]).ends(0).text(), accepted);
    let ended = run(&["check", &good, &bad, &ring]).ends(1);
    let lines: Vec<&str> = ended.text().lines().collect();
    assert_eq!(lines.len(), 3);
    assert_eq!(lines[0], accepted.trim_end());
    assert!(lines[1].starts_with(&format!("{bad}: refused 7 3: line 3 gives device 0")));
    assert!(lines[2].starts_with(&format!("{ring}: refused 10 0: device 0 is needed")));
    assert_eq!(ended.err, "");
    let ended = run(&["check", &none, &bad, &good]).ends(2).says(&["none: No such file"]);
    assert_eq!(ended.text().lines().count(), 2);
    fed(&["check", "-"], "")
        .ends(0)
        .prints(&["standard input: accepted, 0 lines, no device stays held"]);
    fed(&["check", "-"], text("1 take 0; 1 take 1"))
        .ends(0)
        .prints(&["2 lines, 2 devices stay held"]);
}

#[test]
fn names_of_files_cannot_break_the_line() {
    let folder = Folder::new();
    let odd = folder.file("a\nb\x1b[31m", "x\n");
    let ended = run(&["check", &odd]).ends(1);
    assert_eq!(ended.text().lines().count(), 1);
    assert!(!ended.text().contains('\x1b'));
}

#[test]
fn the_table_has_the_claims() {
    let folder = Folder::new();
    let plan = folder.file("p", text("1 start 2; 1 take 1; 1 do 7; 2 take 0; 2 take 1; 2 give 1"));
    let table = "\
line  job  step       claims
   1    1  start 2    0 1
   2    1  take 1     1
   3    1  do 7       -
   4    2  take 0     0 1
   5    2  take 1     1
   6    2  give 1     -
";
    assert_eq!(run(&["table", &plan]).ends(0).text(), table);
    let names = folder.file("n", "1\tdosing tank\n");
    run(&["table", "--names", &names, &plan]).ends(0).prints(&["start 2    0, 1 (dosing tank)\n"]);
    // A plan without an order has a table too; one with a fault has none.
    fed(&["table", "-"], text("1 start 2; 1 take 0; 2 take 0")).ends(0).prints(&["take 0     0\n"]);
    let refused =
        fed(&["table", "-"], "1\ttake\t0").ends(1).says(&["refused 2 1: line 1 has no newline"]);
    assert_eq!(refused.text(), "");
}
