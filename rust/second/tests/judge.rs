//! Orders from elsewhere: the sentences of requests 1 and 2 of document 02, case by case.

mod common;

use common::{packed, plan, refusal};
use second::judge::{broken, judge, printed, Rule};
use second::listed::{all, text, A, ACROSS, C, D, E, KEPT};
use second::{elsewhere, orders, plain, random};

/// The plan takes this list for a legal order.
fn legal(short: &str, order: &[u16]) {
    assert_eq!(judge(&packed(short), order), Ok(()), "{short}: {order:?}");
}

/// The list is refused at this position.
fn astray(short: &str, order: &[u16], position: u64) {
    assert_eq!(judge(&packed(short), order), Err(refusal(15, position)), "{short}: {order:?}");
}

#[test]
fn what_is_handed_out_passes() {
    for listed in all() {
        let answer = judge(&second::listed::packed(&listed.plan), &[]);
        match listed.verdict {
            Ok(order) => legal(&listed.plan, &order.lines),
            Err(refusal) if refusal.number < 9 => assert_eq!(answer, Err(refusal)),
            Err(_) => assert_eq!(answer, Err(refusal(15, 1))),
        }
    }
}

#[test]
fn other_legal_orders_pass_too() {
    legal(A, &[1, 4, 5, 6, 2, 3]);
    legal("1 start 2; 1 do 0; 2 do 0", &[1, 2, 3]);
    legal("1 start 2; 1 do 0; 2 do 0", &[1, 3, 2]);
    legal(D, &[1, 6, 7, 8, 9, 2, 3, 4, 5]);
    legal(E, &[1, 2, 3, 4]);
    legal("", &[]);
}

#[test]
fn every_line_comes_once() {
    astray(A, &[1, 4, 5, 6, 2], 6);
    astray(A, &[], 1);
    astray(A, &[1, 4, 4, 5, 6, 2, 3], 3);
    astray(A, &[1, 4, 5, 6, 2, 3, 3], 7);
    astray(A, &[1, 4, 5, 6, 2, 3, 0], 7);
    for none in [0, 7, 1_025, 65_535] {
        astray(A, &[1, 4, none, 5, 6, 2, 3], 3);
    }
    astray("", &[1], 1);
    astray("", &[0], 1);
}

#[test]
fn a_jobs_lines_come_in_line_order_after_its_start() {
    astray(A, &[4, 1, 5, 6, 2, 3], 1);
    astray(A, &[2, 1, 4, 5, 6, 3], 1);
    astray(A, &[1, 5, 4, 6, 2, 3], 2);
    astray(A, &[1, 4, 5, 6, 3, 2], 5);
}

#[test]
fn no_job_holds_what_is_taken() {
    astray(A, &[1, 2, 3, 4, 5, 6], 5);
    astray(D, &[1, 2, 6, 3, 4, 5, 7, 8, 9], 4);
    astray(E, &[1, 2, 4, 3], 3);
    legal("1 take 0; 1 give 0; 1 take 0; 1 give 0", &[1, 2, 3, 4]);
}

#[test]
fn a_plan_without_an_order_has_no_legal_list() {
    let lines = plan(C);
    let order = orders::walk(&lines, &mut |next| next[0]);
    assert_eq!(order, [1, 2, 3, 4, 5], "line 6 takes what line 2 keeps");
    let order: Vec<u16> = order.into_iter().map(|line| line as u16).collect();
    astray(C, &order, 6);
}

#[test]
fn the_plans_faults_come_first() {
    assert_eq!(judge(&[0], &[9]), Err(refusal(2, 1)));
    assert_eq!(judge(&[1_024; 1_025], &[]), Err(refusal(3, 1_025)));
    assert_eq!(judge(&[2_048], &[1]), Err(refusal(4, 1)));
    assert_eq!(judge(&second::listed::packed("1 give 3; 1 do 0"), &[]), Err(refusal(7, 1)));
}

#[test]
fn a_job_takes_again_without_a_free_device() {
    legal("1 take 3; 1 take 3", &[1, 2]);
    astray("1 take 3; 1 take 3", &[2, 1], 1);
    let two = "1 start 2; 1 take 0; 1 take 0; 1 give 0; 1 give 0; 2 take 0; 2 take 0; 2 give 0";
    legal(two, &[1, 2, 3, 4, 5, 6, 7, 8]);
    astray(two, &[1, 6, 7, 2, 8, 3, 4, 5], 4);
}

#[test]
fn a_device_is_free_after_the_outermost_give() {
    let nested = "1 start 2; 1 take 0; 1 take 0; 1 give 0; 1 give 0; 2 take 0; 2 give 0";
    legal(nested, &[1, 2, 3, 4, 5, 6, 7]);
    legal(nested, &[1, 6, 7, 2, 3, 4, 5]);
    astray(nested, &[1, 2, 6, 3, 4, 5, 7], 3);
    astray(nested, &[1, 2, 3, 6, 4, 5, 7], 4);
    astray(nested, &[1, 2, 3, 4, 6, 5, 7], 5);
    astray(KEPT, &[1, 2, 3, 4, 5, 6, 7], 6);
    legal(ACROSS, &[1, 8, 9, 2, 3, 4, 5, 6, 7]);
    for given in 3..=6 {
        let early = [&[1, 2, 3, 4, 5, 6][..given], &[8]].concat();
        astray(ACROSS, &early, given as u64 + 1);
    }
    let three = "1 start 2; 1 take 0; 1 take 0; 1 take 0; 1 give 0; 1 give 0; 1 give 0; 2 take 0";
    astray(three, &[1, 2, 3, 4, 5, 8, 6, 7], 6);
    astray(three, &[1, 2, 3, 4, 5, 6, 8, 7], 7);
    legal(three, &[1, 2, 3, 4, 5, 6, 7, 8]);
}

#[test]
fn all_rules_that_are_broken_are_named() {
    let plan = plan("1 take 0; 1 start 2; 1 give 0; 2 do 0; 2 take 0");
    let broken = |done: &[usize], entry| {
        let done: Vec<bool> = (1..=plan.len()).map(|line| done.contains(&line)).collect();
        broken(&plan, &done, entry)
    };
    assert_eq!(broken(&[], 1), []);
    assert_eq!(broken(&[], 0), [Rule::NoLine]);
    assert_eq!(broken(&[], 6), [Rule::NoLine]);
    assert_eq!(broken(&[1], 5), [Rule::NotStarted(2), Rule::Earlier(4), Rule::Held(1)]);
    assert_eq!(broken(&[1, 2, 4], 5), [Rule::Held(1)]);
    assert_eq!(broken(&[1, 2, 3, 4], 5), []);
    assert_eq!(broken(&[1, 2], 2), [Rule::Again]);
    assert_eq!(broken(&[1], 3), [Rule::Earlier(2)]);
}

#[test]
fn a_device_is_held_up_to_its_own_give() {
    let held = |short: &str, done: usize, entry| {
        let plan = plan(short);
        let done: Vec<bool> = (1..=plan.len()).map(|line| line <= done).collect();
        broken(&plan, &done, entry)
    };
    let nested = "1 start 2; 1 take 0; 1 take 1; 1 give 1; 1 give 0; 2 take 0";
    assert_eq!(held(nested, 3, 6), [Rule::Held(2)]);
    assert_eq!(held(nested, 4, 6), [Rule::Held(2)], "the give done is that of line 3");
    assert_eq!(held(nested, 5, 6), []);
    let twice = "1 start 2; 1 take 0; 1 give 0; 1 take 0; 1 give 0; 2 take 0";
    assert_eq!(held(twice, 3, 6), []);
    assert_eq!(held(twice, 4, 6), [Rule::Held(4)], "the give of line 2 is another");
    assert_eq!(held(twice, 5, 6), []);
    let lasting = "1 start 2; 1 take 0; 1 take 1; 1 give 1; 1 do 7; 2 take 0";
    assert_eq!(held(lasting, 5, 6), [Rule::Held(2)]);
    let again = "1 start 2; 1 take 0; 1 take 0; 1 give 0; 1 give 0; 2 take 0";
    assert_eq!(held(again, 2, 3), [], "the job itself holds it");
    assert_eq!(held(again, 3, 6), [Rule::Held(2), Rule::Held(3)]);
    assert_eq!(held(again, 4, 6), [Rule::Held(2)], "the give done is that of line 3");
    assert_eq!(held(again, 5, 6), []);
}

/// What is printed for A with this behind it.
fn behind_a(rest: &str) -> String {
    let whole = [text(A), rest.as_bytes().to_vec()].concat();
    String::from_utf8(printed(&whole)).expect("what is printed is text")
}

#[test]
fn a_text_has_the_plan_and_then_the_entries() {
    assert_eq!(behind_a("--\n1\n4\n5\n6\n2\n3\n"), "legal\n");
    assert_eq!(printed(b""), b"legal\n");
    assert_eq!(printed(b"--\n"), b"legal\n");
    assert_eq!(printed(b"--\n1\n"), b"refused\t15\t1\n");
    assert_eq!(printed(b"1\ttake\t32\n--\n1\n"), b"refused\t2\t1\n");
    assert_eq!(behind_a("--\n1\n2\n3\n4\n5\n6\n"), "refused\t15\t5\n");
    assert_eq!(behind_a("--\n"), "refused\t15\t1\n");
}

#[test]
fn without_the_two_hyphens_the_list_is_empty() {
    assert_eq!(behind_a(""), "refused\t15\t1\n");
    for rest in ["--", "-- \n1\n", " --\n1\n", "--\r\n1\n", "---\n", "-\n", "1\n4\n"] {
        assert_eq!(behind_a(rest), "refused\t2\t7\n", "{rest:?}");
    }
    assert_eq!(behind_a("x\n--\n1\n"), "refused\t2\t7\n");
}

#[test]
fn a_line_that_is_no_number_is_never_legal() {
    let words = [
        "",
        "0",
        "04",
        "+4",
        "-4",
        "4 ",
        " 4",
        "4\r",
        "4\t",
        "4.",
        "x",
        "--",
        "7",
        "65540",
        "4294967300",
        "18446744073709551620",
        "44444444444444444444444",
    ];
    for word in words {
        assert_eq!(behind_a(&format!("--\n1\n{word}\n5\n6\n2\n3\n")), "refused\t15\t2\n", "{word}");
    }
    assert_eq!(behind_a("--\n1\n4\n5\n6\n2\n3"), "refused\t15\t6\n", "the newline is missing");
    assert_eq!(behind_a("--\n1\n4\n5\n6\n2\n3\n\n"), "refused\t15\t7\n");
    assert_eq!(behind_a("--\n--\n1\n4\n5\n6\n2\n3\n"), "refused\t15\t1\n");
}

#[test]
fn the_plans_part_alone_has_the_limits() {
    let full = "1\tdo\t0\n".repeat(1_024);
    let numbers: String = (1..=1_024).map(|line| format!("{line}\n")).collect();
    assert_eq!(printed(format!("{full}--\n{numbers}").as_bytes()), b"legal\n");
    assert_eq!(printed(format!("{full}--\n{numbers}1\n").as_bytes()), b"refused\t15\t1025\n");
    assert_eq!(printed(format!("{full}1\tdo\t0\n--\n").as_bytes()), b"refused\t3\t1025\n");
    let long = "x".repeat(12_289);
    assert_eq!(printed(format!("{long}\n--\n").as_bytes()), b"refused\t1\t0\n");
    assert_eq!(printed(format!("--\n{long}\n").as_bytes()), b"refused\t15\t1\n");
}

#[test]
fn mixed_orders_stay_legal_and_are_others() {
    let mut random = random::Random::new(7);
    let mut others = 0;
    for _ in 0..300 {
        let wish =
            random::Wish { single: true, rising: true, ..random::wish(&mut random, 40, 6, 6) };
        let plan = random::plan(&mut random, wish);
        let order = plain::verdict(&plan).expect("the wish makes plans that have an order").lines;
        let mixed = elsewhere::mixed(&mut random, &plan, &order);
        assert_eq!(judge(&second::line::pack(&plan), &mixed), Ok(()));
        others += usize::from(mixed != order);
    }
    assert!(others > 100, "{others}");
}
