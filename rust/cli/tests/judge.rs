//! `gimmerskip judge`: what it prints, and the words for each rule; of many damaged orders the words are looked up in
//! the second program.

mod common;

use cli::diagnosis::{of_list, Diagnosis};
use cli::input::Text;
use cli::list::List;
use cli::names::Names;
use common::{fed, plans, printed, run, shell, text, Ended, Folder};
use gimmerskip::Plan;
use second::elsewhere::{damaged, mixed, walked};
use second::judge::{astray, broken, Astray, Rule};
use second::line::pack;
use second::random::{plan, wish, Random};
use second::{judge, plain, read, Line};
use std::fs;

const A: &str = second::listed::A;
/// Two jobs that need the same device for a while.
const PAIRS: &str = "1 start 2; 1 take 1; 1 give 1; 2 take 1; 2 do 7; 2 give 1";

/// A run for a plan written the short way, with a list on standard input.
fn judged(short: &str, list: &str) -> Ended {
    let folder = Folder::new();
    fed(&["judge", &folder.file("p", text(short)), "-"], list)
}

/// The list is refused at this position, with these words in one line.
fn refused(short: &str, list: &str, position: usize, words: &str) -> Ended {
    let ended = judged(short, list).ends(1);
    assert_eq!(ended.text(), format!("refused\t15\t{position}\n"), "{list:?}");
    let head = format!("standard input: refused 15 {position}: {words}\n");
    assert!(ended.err.starts_with(&head), "{}", ended.err);
    ended
}

#[test]
fn legal_orders_of_any_maker() {
    for list in ["1\n4\n5\n6\n2\n3\n", "order\t6\t2\n1\n4\n5\n6\n2\n3\n"] {
        let ended = judged(A, list).ends(0);
        assert_eq!((ended.text(), &ended.err[..]), ("legal\n", ""));
    }
    for list in ["1\n2\n3\n4\n5\n6\n", "1\n4\n5\n6\n2\n3\n"] {
        assert_eq!(judged(PAIRS, list).ends(0).text(), "legal\n");
    }
    assert_eq!(judged("", "").ends(0).text(), "legal\n");
    assert_eq!(judged("", "order\t0\t0\n").ends(0).text(), "legal\n");
}

#[test]
fn what_order_prints_is_legal() {
    let folder = Folder::new();
    for path in plans() {
        let print = printed(&fs::read(&path).expect("a plan"));
        let order = folder.file("order", &print);
        let is_refused = print.starts_with(b"refused");
        let ended = run(&["judge", &path, &order]).ends(is_refused.into());
        assert_eq!(ended.text(), if is_refused { "refused\t15\t1\n" } else { "legal\n" });
        if is_refused {
            ended.says(&[
                "which is no number",
                "This is what is printed for a plan that is refused.",
            ]);
        }
    }
}

#[test]
fn entries_that_are_no_lines() {
    refused(A, "1\n9\n", 2, "entry 2 is 9, but the plan has 6 lines");
    refused(A, "0\n", 1, "entry 1 is 0, and lines count from 1");
    refused(A, "1\n65540\n", 2, "entry 2 is 65540, but the plan has 6 lines");
    refused(A, &"1".repeat(20), 1, "entry 1 is 1111111111111111.., but the plan has 6 lines");
    refused("", "1\n", 1, "entry 1 is 1, but the plan has no lines");
    refused("1 do 0", "1\n2\n", 2, "entry 2 is 2, but the plan has 1 line");
}

/// The list is refused for the form of an entry: these words are all that is said.
fn misspelt(list: &str, position: usize, words: &str) {
    let ended = refused(A, list, position, words);
    assert_eq!(ended.err.lines().count(), 1, "{}", ended.err);
}

#[test]
fn entries_that_are_no_numbers() {
    const UNIX: &str = "save the list with Unix newlines (LF)";
    let long = "entry 1 begins with '1111111111111111..' and is too long for the number of a line";
    misspelt(&"1".repeat(100_000), 1, long);
    misspelt("1\n\n", 2, "entry 2 is an empty line");
    misspelt("1\n04\n", 2, "entry 2 is '04', with a leading zero");
    misspelt("1\n-4\n", 2, "entry 2 is '-4', with a sign");
    let windows = format!("entry 1 ends with a carriage return (a Windows newline): {UNIX}");
    misspelt("1\r\n4\r\n", 1, &windows);
    misspelt("order\t6\t2\r\n1\r\n", 1, &windows);
    let two = format!("entry 1 ends with 2 carriage returns: take them out, and {UNIX}");
    misspelt("1\r\r\n", 1, &two);
    misspelt("\r1\n", 1, "entry 1 is '<cr>1', which is no number");
    misspelt("1\u{c}\n", 1, "entry 1 is '1<0c>', which is no number");
    let mark = "entry 1 begins with a byte order mark: save the list as UTF-8 without it";
    misspelt("\u{feff}1\n", 1, mark);
    misspelt("1\n 4\n", 2, "entry 2 is ' 4', with a space or tab");
    misspelt("1 4 5\n", 1, "entry 1 is '1 4 5', several numbers: one a line is needed");
    let plan = "which looks like a line of a plan: PLAN comes first, then ORDER";
    misspelt("1\ttake\t1\n", 1, &format!("entry 1 is '1<tab>take<tab>1', {plan}"));
    misspelt("1\n4", 2, "entry 2 is '4' without its newline");
    misspelt("1\norder\t6\t2\n", 2, "entry 2 is 'order<tab>6<tab>2', which is no number");
}

#[test]
fn each_rule_has_its_words() {
    let ended = refused(A, "1\n4\n1\n", 3, "entry 3 is line 1 again: entry 1 has done it");
    let shown = "\n\n  line 1 | 1       start   2\n\nThe next step could be line 2 or 5.\n";
    ended.says(&[shown]);
    let words = "entry 1 is line 4 of job 2, but line 1, which starts that job, is not done";
    refused(A, "4\n1\n", 1, words).says(&["The next step could be line 1.\n"]);
    let words = "entry 2 is line 6 of job 2, but line 4 of that job is not done";
    refused(A, "1\n6\n", 2, words).says(&["The next step could be line 2 or 4.\n"]);
    let words = "entry 3 is line 2: it takes device 1, but job 2 holds that from line 4 on";
    refused(PAIRS, "1\n4\n2\n", 3, words).says(&[
        "Job 2 gives it back at line 6, which is not done.\n",
        "The next step could be line 5.\n",
    ]);
    refused(A, "", 1, "the list is empty, and lines 1, 2, 3, 4, 5 and 6 are missing");
    refused(A, "1\n4\n5\n6\n2\n", 6, "the list stops after entry 5, and line 3 is missing");
    let long = ["1 do 0"; 20].join("; ");
    refused(
        &long,
        "1\n",
        2,
        "the list stops after entry 1, and lines 2, 3, 4, 5, 6, 7 and 13 more are missing",
    );
    let ended = refused("1 do 0", "1\n1\n", 2, "entry 2 is line 1 again: entry 1 has done it");
    ended.says(&["All lines are done by then.\n"]);
}

#[test]
fn behind_a_line_that_is_passed_over_lines_are_told_too() {
    let listed = |numbers: &str| format!("order\t6\t2\n{numbers}");
    let words = "entry 2 (line 3 of the input) is 9, but the plan has 6 lines";
    refused(A, &listed("1\n9\n"), 2, words);
    let words = "entry 2 (line 3 of the input) is line 1 again: entry 1 has done it";
    refused(A, &listed("1\n1\n"), 2, words);
    let words = "entry 1 (line 2 of the input) is 'x', which is no number";
    refused(A, &listed("x\n"), 1, words);
    let words = "the list stops after entry 1 (line 2 of the input), and lines 2, 3, 4, 5 and 6 are missing";
    refused(A, &listed("1\n"), 2, words);
    refused(A, &listed(""), 1, "the list is empty, and lines 1, 2, 3, 4, 5 and 6 are missing");
    let folder = Folder::new();
    let (plan, order) = (folder.file("p", text(A)), folder.file("o", listed("1\n9\n")));
    run(&["judge", &plan, &order]).ends(1).says(&["entry 2 (line 3 of the file) is 9"]);
}

/// What is said of every list for a plan without a legal order.
const NO_ORDER: &str =
    "The plan has no legal order, so that every list is refused somewhere; `gimmerskip explain PLAN` says why.";

#[test]
fn a_plan_without_an_order_is_told() {
    const G: &str = "1 start 2; 1 take 5; 2 take 5";
    let words = "entry 3 is line 3: it takes device 5, but job 1 holds that from line 2 on";
    let ended = refused(G, "1\n2\n3\n", 3, words);
    let end = format!("Job 1 never gives it back.\nNo line can come any more.\n{NO_ORDER}\n");
    assert!(ended.err.ends_with(&end), "{}", ended.err);
    let ended = refused(G, "x\n", 1, "entry 1 is 'x', which is no number");
    assert!(ended.err.ends_with(&format!("number\n\n{NO_ORDER}\n")), "{}", ended.err);
    let words = "the list stops after entry 1, and lines 2, 3, 4, 5, 6 and 7 are missing";
    refused(second::listed::C, "1\n", 2, words)
        .says(&["The next step could be line 2 or 5.\n", NO_ORDER]);
}

#[test]
fn the_lines_are_shown() {
    let folder = Folder::new();
    let (plan, order) = (folder.file("p", text(A)), folder.file("o", "1\n2\n3\n4\n5\n6\n"));
    let names = folder.file("n", "1\tpump\n");
    let ended = run(&["judge", &plan, &order, "--names", &names]).ends(1);
    let words = format!(
        "{order}: refused 15 5: entry 5 is line 5: it takes device 1 (pump), but job 1 holds that from line 2 on

  line 2 | 1       take    1
  line 5 | 2       take    1
         |                 ^

Job 1 never gives it back.
No line can come any more: the mistake is in an earlier entry.
"
    );
    assert_eq!((ended.text(), &ended.err), ("refused\t15\t5\n", &words));
}

#[test]
fn a_plan_with_a_fault_is_refused_before_its_list() {
    let ended = judged("1 take 0; 1 give 1", "x\n").ends(1);
    assert_eq!(ended.text(), "refused\t7\t2\n");
    assert!(ended.err.contains("p: refused 7 2: line 2 gives device 1"), "{}", ended.err);
    assert!(!ended.err.contains("PLAN comes first"), "{}", ended.err);
    for list in ["1\n4\n", "order\t6\t2\n1\n"] {
        let folder = Folder::new();
        let ended = fed(&["judge", &folder.file("p", list), "-"], text(A)).ends(1);
        assert_eq!(ended.text(), "refused\t2\t1\n");
        ended.says(&["It looks like a list of line numbers: PLAN comes first, then ORDER.\n"]);
    }
}

#[test]
fn files_and_streams() {
    let folder = Folder::new();
    let plan = folder.file("p", text(A));
    let none = folder.path.join("none").to_str().unwrap().to_string();
    run(&["judge", &plan, &none]).ends(2).says(&["none: No such file or directory"]);
    run(&["judge", &none, &plan]).ends(2).says(&["none: No such file or directory"]);
    fed(&["judge", "-", "-"], text(A))
        .ends(2)
        .says(&["only one of PLAN and ORDER can be `-`\nuse: "]);
    fed(&["judge", "-", &folder.file("o", "1\n4\n5\n6\n2\n3\n")], text(A)).ends(0);
    shell("exec \"$0\" judge \"$1\" - <&-", &[&plan])
        .ends(2)
        .says(&["standard input: it is closed"]);
    let full = shell("exec \"$0\" judge \"$1\" \"$1\" >/dev/full", &[&plan]).ends(2);
    assert_eq!(full.err, "gimmerskip: standard output: No space left on device\n");
    shell("\"$0\" order \"$1\" | \"$0\" judge \"$1\" -", &[&plan]).ends(0).prints(&["legal\n"]);
}

/// The number after some words of a sentence.
fn after(sentence: &str, words: &str) -> usize {
    let rest = &sentence[sentence.find(words).expect("the words are there") + words.len()..];
    let end = rest.find(|letter: char| !letter.is_ascii_digit()).unwrap_or(rest.len());
    rest[..end].parse().expect("a number")
}

/// The rule that the words name, with the line that they name.
fn named(head: &str) -> Option<Rule> {
    Some(match head {
        _ if head.contains(" missing") => return None,
        _ if head.contains(" again: ") => Rule::Again,
        _ if head.contains("which starts that job") => Rule::NotStarted(after(head, "but line ")),
        _ if head.contains("of that job is not done") => Rule::Earlier(after(head, "but line ")),
        _ if head.contains(" holds that ") => Rule::Held(after(head, " holds that from line ")),
        _ => Rule::NoLine,
    })
}

/// Fails unless the rule that is named is broken, of those broken the one that is told first.
fn is_true(plan: &[Line], wanted: &Astray, found: &Diagnosis) {
    let named = named(&found.head);
    assert_eq!(named.is_none(), wanted.rules.is_empty(), "{found:?}");
    assert_eq!(named, wanted.rules.first().copied(), "{found:?}");
    if let Some(Rule::Held(take)) = named {
        let job = after(&found.head, "but job ");
        assert_eq!(usize::from(plan[take - 1].job), job, "{found:?}");
        let give = plain::gives(plan)[take - 1].map(|give| give + 1);
        let given = found.said.iter().find(|words| words.contains("gives it back at line "));
        assert_eq!(given.map(|words| after(words, "gives it back at line ")), give, "{found:?}");
    }
}

/// Fails unless what is said to be able to come, or to be missing, is so.
fn is_said(plan: &[Line], done: &[bool], found: &Diagnosis) {
    let numbers = |words: &str| -> (Vec<usize>, usize) {
        let lines = words.split([' ', ',', '.']).filter_map(|word| word.parse().ok());
        let mut lines: Vec<usize> = lines.collect();
        let more = if words.contains(" more") { lines.pop().expect("a count") } else { 0 };
        (lines, more)
    };
    let is = |words: &str, wanted: Vec<usize>| {
        let (lines, more) = numbers(words);
        assert_eq!(lines, wanted[..lines.len()], "{found:?}");
        assert_eq!(lines.len() + more, wanted.len(), "{found:?}");
    };
    let lines = || 1..=plan.len();
    let can_come: Vec<usize> =
        lines().filter(|&line| broken(plan, done, line).is_empty()).collect();
    let said = |words: &str| found.said.iter().find(|sentence| sentence.starts_with(words));
    let has_order = plain::verdict(plan).is_ok();
    assert_eq!(said("The plan has no legal order").is_some(), !has_order, "{found:?}");
    let is_stuck = can_come.is_empty() && done.contains(&false);
    assert_eq!(said("No line can come any more").is_some(), is_stuck, "{found:?}");
    let is_earlier =
        said("No line can come any more: the mistake is in an earlier entry.").is_some();
    assert_eq!(is_earlier, is_stuck && has_order, "{found:?}");
    match said("The next step could be ") {
        Some(words) => is(words, can_come),
        None => assert_eq!(can_come, [], "{found:?}"),
    }
    if let Some((_, missing)) = found.head.split_once(", and ") {
        if missing.ends_with("missing") {
            is(missing, lines().filter(|line| !done[line - 1]).collect());
        }
    }
}

/// Compares the words for one list with the second program; gives the rule that they name, if it is refused.
fn compare(plan: &[Line], list: &[u16]) -> Option<Option<Rule>> {
    let bytes: Vec<u8> = list.iter().flat_map(|line| format!("{line}\n").into_bytes()).collect();
    let list = List::of(Text { name: "l".to_string(), bytes, size: None });
    let entries: Vec<usize> = list.entries.iter().map(|&entry| entry.into()).collect();
    let wanted = astray(plan, &entries);
    let judged = Plan::from_packed(pack(plan)).expect("no fault").judge(&list.entries);
    assert_eq!(judged.is_err(), wanted.is_some());
    let (refusal, wanted) = (judged.err()?, wanted?);
    let found = of_list(&read::write(plan), &list, refusal, &Names::default());
    is_true(plan, &wanted, &found);
    let mut done = vec![false; plan.len()];
    entries[..wanted.position - 1].iter().for_each(|&line| done[line - 1] = true);
    is_said(plan, &done, &found);
    Some(named(&found.head))
}

#[test]
fn the_rule_that_is_named_is_broken() {
    let mut random = Random::new(2_028);
    let mut seen = [0; 6];
    for round in 0..4_500 {
        let wish = wish(&mut random, if round % 40 == 0 { 300 } else { 40 }, 6, 6);
        let plan = plan(&mut random, wish);
        let mut list = match plain::verdict(&plan) {
            // As the lines stand, a job often wants what another one holds.
            _ if round % 3 == 0 => (1..=plan.len() as u16).collect(),
            Ok(order) if round % 2 == 0 => mixed(&mut random, &plan, &order.lines),
            _ => walked(&mut random, &plan),
        };
        for _ in 0..4 {
            let compared = compare(&plan, &list);
            list = damaged(&mut random, plan.len(), &list);
            if let Some(rule) = compared {
                seen[match rule {
                    None => 0,
                    Some(Rule::NoLine) => 1,
                    Some(Rule::Again) => 2,
                    Some(Rule::NotStarted(_)) => 3,
                    Some(Rule::Earlier(_)) => 4,
                    Some(Rule::Held(_)) => 5,
                }] += 1;
            }
        }
    }
    assert!(seen.iter().all(|&times| times > 100), "{seen:?}");
}

#[test]
fn random_lists_are_judged_as_the_second_program_does() {
    let mut random = Random::new(2_029);
    let folder = Folder::new();
    for round in 0..150 {
        let wish = wish(&mut random, 20, 4, 4);
        let plan = plan(&mut random, wish);
        let mut list = walked(&mut random, &plan);
        if round % 2 == 0 {
            list = damaged(&mut random, plan.len(), &list);
        }
        let numbers: String = list.iter().map(|line| format!("{line}\n")).collect();
        let whole = [&read::write(&plan)[..], b"--\n", numbers.as_bytes()].concat();
        let print = judge::printed(&whole);
        let path = folder.file("p", read::write(&plan));
        let ended = fed(&["judge", &path, "-"], &numbers).ends((print != b"legal\n").into());
        assert_eq!(ended.out, print);
    }
}
