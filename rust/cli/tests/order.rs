//! `gimmerskip order`: byte for byte what the wrapper prints, and words beside it.

mod common;

use common::{fed, plans, printed, run, text, Folder};
use second::random::{plan, ring, wish, Cut, Random};
use second::{damage, read};
use std::fs;

#[test]
fn the_plans_of_the_project_are_printed_as_the_wrapper_does() {
    let mut together = Vec::new();
    for path in plans() {
        let print = printed(&fs::read(&path).expect("a plan"));
        let refused = print.starts_with(b"refused");
        let ended = run(&["order", &path]).ends(refused.into());
        assert_eq!(ended.out, print, "{path}");
        assert_eq!(ended.err.is_empty(), !refused);
        together.extend(print);
    }
    let mut arguments = vec!["order".to_string()];
    arguments.extend(plans());
    let arguments: Vec<&str> = arguments.iter().map(String::as_str).collect();
    assert_eq!(run(&arguments).ends(1).out, together);
}

#[test]
fn random_and_damaged_texts_are_printed_as_the_wrapper_does() {
    let mut random = Random::new(1_411);
    let mut refused = 0;
    for round in 0..300 {
        let wish = wish(&mut random, 40, 6, 8);
        let mut bytes = match round % 3 {
            0 => read::write(&ring(&mut random, 1 + round / 3 % 32, Cut::Whole)),
            _ => read::write(&plan(&mut random, wish)),
        };
        if round % 3 == 2 {
            bytes = damage::damaged_text(&mut random, &bytes);
        }
        let print = printed(&bytes);
        let is_refused = print.starts_with(b"refused");
        let ended = fed(&["order", "-"], &bytes).ends(is_refused.into());
        assert_eq!(ended.out, print);
        assert_eq!(ended.err.contains("standard input: refused "), is_refused, "{}", ended.err);
        refused += usize::from(is_refused);
    }
    assert!((50..250).contains(&refused), "{refused}");
}

#[test]
fn a_refusal_has_words_and_the_line() {
    let ended = fed(&["order", "-"], text("1 take 0; 1 take 1; 1 give 0")).ends(1);
    assert_eq!(ended.text(), "refused\t7\t3\n");
    let words = "\
standard input: refused 7 3: line 3 gives device 0, but job 1 took device 1 after it, in line 2
  line 3 | 1       give    0
         |                 ^
";
    assert_eq!(ended.err, words);
}

#[test]
fn several_files_and_the_worst_status() {
    let folder = Folder::new();
    let good = folder.file("good", text("1 take 0"));
    let bad = folder.file("bad", "x");
    let none = folder.path.join("none").to_str().unwrap().to_string();
    assert_eq!(run(&["order", &good, &good]).ends(0).text(), "order\t1\t1\n1\norder\t1\t1\n1\n");
    assert_eq!(run(&["order", &bad, &good]).ends(1).text(), "refused\t2\t1\norder\t1\t1\n1\n");
    let ended =
        run(&["order", &none, &bad, &good]).ends(2).says(&["none: No such file or directory"]);
    assert_eq!(ended.text(), "refused\t2\t1\norder\t1\t1\n1\n");
}

#[test]
fn steps_are_a_table() {
    let folder = Folder::new();
    let plan = folder.file("p", text("1 start 2; 1 take 0; 2 take 0; 2 do 20; 2 give 0"));
    let table = format!(
        "{plan}: an order of 5 lines, 1 device stays held
turn  line  job  step
   1     1    1  start 2
   2     3    2  take 0
   3     4    2  do 20
   4     5    2  give 0
   5     2    1  take 0
Held to the end: device 0 by job 1.
"
    );
    assert_eq!(run(&["order", "--steps", &plan]).ends(0).text(), table);
    let names = folder.file("n", "0\tpump\n");
    let words = [
        "turn  line  job  step       name\n",
        "  take 0     pump\n",
        "start 2\n",
        "Held to the end: device 0 (pump) by job 1.",
    ];
    run(&["order", &plan, "--steps", "--names", &names]).ends(0).prints(&words);
    let refused = fed(&["order", "--steps", "-"], "x\n").ends(1).says(&["refused 2 1"]);
    assert_eq!(refused.text(), "");
    fed(&["order", "--steps", "-"], "")
        .ends(0)
        .prints(&["an order of 0 lines, no device stays held\n"]);
}
