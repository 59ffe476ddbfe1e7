//! A job takes again what it holds (02, request 2): what each subcommand prints and says of it.

mod common;

use common::{fed, run, text, Folder};

/// A recipe that takes the pump inside a stretch that holds it, while job 2 waits for the pump.
const RECIPE: &str =
    "1 start 2; 1 take 0; 1 take 0; 1 do 7; 1 give 0; 1 give 0; 2 take 0; 2 give 0";
/// The same under a take that lasts, and the tank taken across.
const LASTING: &str =
    "1 start 2; 1 take 0; 1 take 1; 1 take 0; 1 give 0; 1 give 1; 1 take 0; 2 take 0; 2 give 0";

#[test]
fn a_device_is_held_once() {
    let words = "\
standard input: accepted, 8 lines, no device stays held

Job 1, lines 1 to 6, which begins by itself:
  holds device 0 from line 2 to line 6
  takes device 0 again from line 3 to line 5, and holds it on

Job 2, lines 7 and 8, started in line 1:
  holds device 0 from line 7 to line 8

The plan has an order: `gimmerskip order --steps` shows it.
";
    assert_eq!(fed(&["explain", "-"], text(RECIPE)).ends(0).text(), words);
    let words = [
        "accepted, 9 lines, 1 device stays held\n",
        "  holds device 0 from line 2 to the end\n  holds device 1 from line 3 to line 6\n",
        "  takes device 0 again from line 4 to line 5, and holds it on\n",
        "  takes device 0 again in line 7, without a give for it\n",
        "Held to the end: device 0 by job 1.\n",
    ];
    fed(&["explain", "-"], text(LASTING)).ends(0).prints(&words);
    let words = "standard input: accepted, 2 lines, 1 device stays held\n";
    assert_eq!(fed(&["check", "-"], text("1 take 3; 1 take 3")).ends(0).text(), words);
}

#[test]
fn tables_tell_what_is_taken_again() {
    let folder = Folder::new();
    let (plan, names) = (folder.file("p", text(RECIPE)), folder.file("n", "0\tpump\n"));
    let table = "\
line  job  step          claims
   1    1  start 2       0
   2    1  take 0        0
   3    1  take 0 again  -
   4    1  do 7          -
   5    1  give 0 inner  -
   6    1  give 0        -
   7    2  take 0        0
   8    2  give 0        -
";
    assert_eq!(run(&["table", &plan]).ends(0).text(), table);
    let steps = format!(
        "{plan}: an order of 8 lines, no device stays held
turn  line  job  step          name
   1     1    1  start 2
   2     2    1  take 0        pump
   3     3    1  take 0 again  pump
   4     4    1  do 7
   5     5    1  give 0 inner  pump
   6     6    1  give 0        pump
   7     7    2  take 0        pump
   8     8    2  give 0        pump
"
    );
    assert_eq!(run(&["order", "--steps", &plan, "--names", &names]).ends(0).text(), steps);
}

#[test]
fn a_give_goes_by_the_take_made_last() {
    let words = [
        "refused 7 4: line 4 gives device 1, but job 1 took device 0 again after it, in line 3\n",
        "There job 1 holds device 0 from line 1 on and device 1 from line 2 on.\n",
        "give device 0 back first",
    ];
    let short = "1 take 0; 1 take 1; 1 take 0; 1 give 1";
    fed(&["explain", "-"], text(short)).ends(1).prints(&words);
    let words = ["line 5 gives device 0, but job 1 holds nothing there", "back in line 4.\n"];
    let short = "1 take 0; 1 take 0; 1 give 0; 1 give 0; 1 give 0";
    fed(&["explain", "-"], text(short)).ends(1).prints(&words);
}

#[test]
fn a_give_too_few_is_told() {
    let inner = "Line 4 is an inner give: it belongs to line 3, which takes device 0 again.\n";
    let two = "1 start 2; 1 take 0; 1 take 0; 1 give 0; 2 take 0";
    let keeps = "Job 1 takes device 0 in line 2 and never gives it back.\n";
    let words = ["refused 9 0: ", &format!("{keeps}{inner}Job 2 takes")];
    fed(&["explain", "-"], text(two)).ends(1).prints(&words);
    let starter = "1 do 7; 1 take 0; 1 take 0; 1 give 0; 1 start 2; 2 take 0; 2 give 0";
    let keeps = "What a job keeps to the end no other can take any more.\n";
    let words = ["refused 10 0: ", "after that line 6 needs device 0", &format!("{keeps}{inner}")];
    fed(&["explain", "-"], text(starter)).ends(1).prints(&words);
}

#[test]
fn all_that_was_taken_is_given_back() {
    let short = "1 start 2; 1 take 0; 1 take 1; 1 take 0; 2 take 0; 2 take 1";
    let words = "With gives of device 0, device 1 and device 0 by job 1 after line 4, for example, the plan has";
    fed(&["explain", "-"], text(short)).ends(1).prints(&["refused 9 0: ", words]);
}

#[test]
fn an_inner_give_frees_nothing() {
    let folder = Folder::new();
    let plan = folder.file("p", text(RECIPE));
    for order in ["1\n2\n3\n4\n5\n6\n7\n8\n", "1\n7\n8\n2\n3\n4\n5\n6\n"] {
        assert_eq!(fed(&["judge", &plan, "-"], order).ends(0).text(), "legal\n");
    }
    let ended = fed(&["judge", &plan, "-"], "1\n2\n3\n4\n5\n7\n8\n6\n").ends(1);
    let words = "\
standard input: refused 15 6: entry 6 is line 7: it takes device 0, but job 1 holds that from line 2 on

  line 2 | 1       take    0
  line 7 | 2       take    0
         |                 ^

Job 1 gives it back at line 6, which is not done.
Line 5 is an inner give: it belongs to line 3, which takes device 0 again.
The next step could be line 6.
";
    assert_eq!((ended.text(), &ended.err[..]), ("refused\t15\t6\n", words));
    // An inner give that is still to come is not told, and a take of what its job holds can come.
    let ended = fed(&["judge", &plan, "-"], "1\n2\n7\n").ends(1);
    assert!(ended.err.contains("The next step could be line 3.\n"), "{}", ended.err);
    assert!(!ended.err.contains("inner"), "{}", ended.err);
}

#[test]
fn moves_tell_what_is_taken_again_since() {
    let ended = fed(&["move", "-", "3", "5"], text(RECIPE)).ends(0);
    let after = "1 start 2; 1 take 0; 1 take 5; 1 do 7; 1 give 5; 1 give 0; 2 take 0; 2 give 0";
    assert_eq!(ended.out, text(after));
    let words = "standard input: 3 sets of claims changed\n\
                 standard input: line 3 no longer takes again what its job holds\n";
    assert_eq!(ended.err, words);
    let ended = fed(&["move", "-", "3", "0"], text(after)).ends(0);
    assert_eq!(ended.out, text(RECIPE));
    ended.says(&["3 sets", "standard input: line 3 now takes again what its job holds\n"]);
    let words = ["lines 3 and 6 now take again what their job holds\n"];
    let short = "1 take 0; 1 do 7; 1 take 1; 1 give 1; 1 do 8; 1 take 1; 1 give 1";
    fed(&["move", "-", "1", "1"], text(short)).ends(0).says(&words);
}
