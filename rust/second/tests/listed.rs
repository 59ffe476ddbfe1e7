//! The plans of document 01 with their verdicts, starred and not, those that take again by request 2
//! of document 02, and what is printed for them.

mod common;

use common::{packed, plan, refusal};
use second::line::pack;
use second::listed::{all, text, ListedMove, A, B, C, D, E, F, G, H, MOVES, TABLES};
use second::plain::{self, move_claim, printed, screen, table, verdict, SCREEN};
use second::read::{check_packed, read};
use second::{orders, Line, Verb};

/// The listed plans of these names have their answers. An order handed out is legal and ends with
/// the devices held that it says; where all orders can be tried, one is legal exactly if the plan
/// is accepted.
fn answered(names: &[&str]) {
    for name in names {
        let listed = all().into_iter().find(|listed| listed.name == *name).expect("it is listed");
        let answer = read(&text(&listed.plan)).and_then(|plan| verdict(&plan));
        assert_eq!(answer, listed.verdict, "{name}");
        let Ok(plan) = read(&text(&listed.plan)) else { continue };
        if let Ok(order) = answer {
            let numbers: Vec<usize> = order.lines.iter().map(|&line| line.into()).collect();
            assert_eq!(orders::held_after(&plan, &numbers), Some(order.held), "{name}");
        }
        if plan.len() <= 128 {
            assert_eq!(orders::some_legal_order(&plan).is_some(), listed.verdict.is_ok(), "{name}");
        }
    }
}

#[test]
fn a_has_its_order() {
    answered(&["A"]);
}

#[test]
fn the_tables_are_those_listed() {
    for (short, sets) in TABLES {
        assert_eq!(table(&plan(short)), sets, "{short}");
    }
}

#[test]
fn b_is_a_moved_and_all_listed_moves_go_there_and_back() {
    for ListedMove { plans: [then, now], line, devices, changed } in MOVES {
        let mut moved = (packed(then.0), then.1.to_vec());
        for (device, (short, sets)) in [(devices[1], now), (devices[0], then)] {
            let count = move_claim(&mut moved.0, &mut moved.1, line, device);
            assert_eq!(count, Ok(changed), "{short}");
            assert_eq!(moved, (packed(short), sets.to_vec()), "{short}");
        }
    }
    answered(&["B"]);
}

#[test]
fn c_to_i_have_their_verdicts() {
    answered(&["C", "D", "E", "F", "G", "H", "I"]);
}

#[test]
fn the_circle_of_h_has_three_steps() {
    assert_eq!(plain::shortest_circle(&plain::rows(&plan(H))), Some(3));
    assert_eq!(plain::shortest_circle(&plain::rows(&plan(C))), Some(2));
    assert_eq!(plain::shortest_circle(&plain::rows(&plan(F))), Some(1));
    assert_eq!(plain::shortest_circle(&plain::rows(&plan(D))), None);
}

#[test]
fn device_31_is_the_last() {
    answered(&["device 31", "device 32"]);
    assert_eq!(read(&text("1 take 31; 1 give 32")), Err(refusal(2, 2)));
    assert_eq!(table(&plan("1 take 31")), [1 << 31]);
}

#[test]
fn line_1024_is_the_last() {
    answered(&["line 1,024", "line 1,025"]);
    let action = Line { job: 1, verb: Verb::Do(0) }.packed();
    assert!(check_packed(&[action; 1_024]).is_ok());
    assert_eq!(check_packed(&[action; 1_025]), Err(refusal(3, 1_025)));
}

#[test]
fn job_64_is_the_last() {
    answered(&["job 64", "job 65", "start of job 65"]);
}

#[test]
fn a_job_may_take_again_what_it_holds() {
    answered(&["take twice", "a pair inside a pair"]);
    answered(&["taken again across another", "taken again under its lasting take"]);
}

#[test]
fn a_device_is_taken_as_deep_as_a_plan_has_lines() {
    answered(&["taken 1,024 times", "taken and given 512 times"]);
    let deepest = plan(&["1 take 3"; 1_024].join("; "));
    assert_eq!(table(&deepest)[..3], [8, 0, 0]);
    assert_eq!(plain::gives(&deepest), [None; 1_024]);
}

#[test]
fn the_program_prints_a() {
    assert_eq!(printed(&text(A)), b"order\t6\t2\n1\n4\n5\n6\n2\n3\n");
    assert_eq!(printed(b""), b"order\t0\t0\n");
    assert_eq!(printed(&text(H)), b"refused\t10\t0\n");
    assert_eq!(printed(&text(G)), b"refused\t9\t5\n");
    assert_eq!(printed(b"x"), b"refused\t2\t1\n");
    assert_eq!(printed(&[b'\n'; 12_289]), b"refused\t1\t0\n");
}

#[test]
fn the_screens_get_the_same_bytes() {
    for short in [A, B, C, D, E, F, G, H, "", "1 take 32", "1 take 3; 1 take 3"] {
        let text = text(short);
        for length in [SCREEN, SCREEN + 1, 9_000] {
            let mut out = vec![0xa5; length];
            let count = screen(&text, &mut out);
            assert_eq!(out[..count], printed(&text), "{short}");
            assert!(out[count..].iter().all(|&byte| byte == 0xa5), "{short}");
        }
        for length in [0, 1, SCREEN - 1] {
            let mut out = vec![0xa5; length];
            assert_eq!(screen(&text, &mut out), 0, "{short}");
            assert!(out.iter().all(|&byte| byte == 0xa5), "{short}");
        }
    }
}

#[test]
fn the_longest_print_fills_the_least_room() {
    let takes = (0..32).map(|device| format!("1\ttake\t{device}\n"));
    let text = takes.collect::<String>() + &"1\tdo\t0\n".repeat(992);
    let mut out = vec![0xa5; SCREEN];
    assert_eq!(screen(text.as_bytes(), &mut out), SCREEN);
    assert!(out.starts_with(b"order\t1024\t32\n1\n2\n"));
    assert!(out.ends_with(b"\n1023\n1024\n"));
}

#[test]
fn packing_is_as_written_down() {
    assert_eq!(pack(&plan(A)), [1_794, 1_281, 1_031, 2_304, 2_305, 2_561]);
}
