//! Each entry through slices: what it writes, what it counts, and what it leaves.

#![cfg(feature = "std")]

mod common;

use common::text;
use gimmerskip::{entries, Refusal, SCREEN_ROOM};
use second::listed::{packed, A, B, D, E, G, H};

#[test]
fn reading_and_writing_give_back_what_they_got() {
    for short in [A, B, G, H, "", "1 take 31; 1 do 255; 1 give 31"] {
        let (whole, numbers) = (text(short).into_bytes(), packed(short));
        let mut plan = vec![9; numbers.len() + 2];
        assert_eq!(entries::read(&whole, &mut plan), Ok(numbers.len()));
        assert_eq!(plan, [&numbers[..], &[9, 9]].concat(), "what lies past the lines stays");
        let mut bytes = vec![9; whole.len() + 2];
        assert_eq!(entries::write(&numbers, &mut bytes), Ok(whole.len()));
        assert_eq!(bytes, [&whole[..], &[9, 9]].concat(), "what lies past the text stays");
    }
}

#[test]
fn a_plan_of_all_the_lines_and_jobs_is_written_whole() {
    let chain: String = (1..64).map(|job| format!("{job}\tstart\t{}\n", job + 1)).collect();
    let whole = chain + &"64\ttake\t31\n64\tgive\t31\n".repeat(480) + "64\ttake\t31\n";
    let mut plan = [9; 1_024];
    assert_eq!(entries::read(whole.as_bytes(), &mut plan), Ok(1_024));
    let mut bytes = vec![9; whole.len()];
    assert_eq!(entries::write(&plan, &mut bytes), Ok(whole.len()));
    assert_eq!(bytes, whole.as_bytes());
}

#[test]
fn the_table_has_the_sets_of_all_that_follows() {
    let mut sets = [9; 7];
    assert_eq!(entries::table(&packed(A), &mut sets), Ok(6));
    assert_eq!(sets, [3, 2, 0, 3, 2, 0, 9]);
    assert_eq!(entries::table(&packed("1 take 31"), &mut sets), Ok(1));
    assert_eq!(sets, [1 << 31, 2, 0, 3, 2, 0, 9]);
    assert_eq!(entries::table(&[], &mut []), Ok(0));
}

#[test]
fn the_verdict_has_the_order_and_what_is_held() {
    let cases: [(&str, &[u16], usize); 5] = [
        (A, &[1, 4, 5, 6, 2, 3], 2),
        (B, &[1, 4, 5, 6, 2, 3], 2),
        (D, &[1, 2, 3, 4, 5, 6, 7, 8, 9], 0),
        (E, &[1, 2, 3, 4], 1),
        ("", &[], 0),
    ];
    for (short, lines, held) in cases {
        let mut order = vec![9; lines.len() + 1];
        assert_eq!(entries::verdict(&packed(short), &mut order), Ok(held), "{short}");
        assert_eq!(order, [lines, &[9]].concat(), "{short}");
    }
}

#[test]
fn the_judge_takes_legal_orders_and_no_others() {
    let astray = |position| Err(Refusal::IllegalStep(position));
    let cases: [(&str, &[u16], Result<(), Refusal>); 12] = [
        (A, &[1, 4, 5, 6, 2, 3], Ok(())),
        (D, &[1, 2, 3, 4, 5, 6, 7, 8, 9], Ok(())),
        (D, &[1, 6, 7, 8, 9, 2, 3, 4, 5], Ok(())),
        ("", &[], Ok(())),
        ("", &[1], astray(1)),
        (A, &[1, 4, 5, 6, 2], astray(6)),
        (A, &[1, 4, 5, 6, 2, 3, 3], astray(7)),
        (A, &[1, 2, 3, 4, 5, 6], astray(5)),
        (A, &[4, 1, 5, 6, 2, 3], astray(1)),
        (A, &[1, 4, 0, 6, 2, 3], astray(3)),
        (A, &[1, 4, u16::MAX, 6, 2, 3], astray(3)),
        (A, &[7; 2_000], astray(1)),
    ];
    for (short, order, answer) in cases {
        assert_eq!(entries::judge(&packed(short), order), answer, "{short}: {order:?}");
    }
}

#[test]
fn a_move_mends_the_way_and_counts() {
    let (mut plan, mut sets) = (packed(A), vec![3, 2, 0, 3, 2, 0, 9]);
    assert_eq!(entries::move_claim(&mut plan, &mut sets, 5, 2), Ok(3));
    assert_eq!(plan, packed(B));
    assert_eq!(sets, [7, 2, 0, 5, 4, 0, 9]);
    assert_eq!(entries::move_claim(&mut plan, &mut sets, 5, 2), Ok(0), "it is there already");
    assert_eq!(entries::move_claim(&mut plan, &mut sets, 5, 1), Ok(3));
    assert_eq!((plan, sets), (packed(A), vec![3, 2, 0, 3, 2, 0, 9]));
    let (mut plan, mut sets) = (packed(G), vec![32, 32, 32]);
    assert_eq!(entries::move_claim(&mut plan, &mut sets, 3, 6), Ok(2), "9 is no bar");
    assert_eq!(sets, [96, 32, 64]);
}

#[test]
fn the_screens_get_what_the_program_prints() {
    let cases = [
        (text(A), "order\t6\t2\n1\n4\n5\n6\n2\n3\n"),
        (text(""), "order\t0\t0\n"),
        (text(H), "refused\t10\t0\n"),
        (text(G), "refused\t9\t5\n"),
        ("x".to_string(), "refused\t2\t1\n"),
        ("\n".repeat(12_289), "refused\t1\t0\n"),
    ];
    for (whole, print) in cases {
        let mut out = [0xa5; SCREEN_ROOM + 1];
        assert_eq!(entries::order(whole.as_bytes(), &mut out), Ok(print.len()), "{print}");
        assert_eq!(out[..print.len()], *print.as_bytes());
        assert!(out[print.len()..].iter().all(|&byte| byte == 0xa5), "the rest stays");
    }
}

#[test]
fn the_longest_print_fills_the_least_room() {
    let takes: String = (0..32).map(|device| format!("1\ttake\t{device}\n")).collect();
    let whole = takes + &"1\tdo\t0\n".repeat(992);
    let mut out = [0xa5; SCREEN_ROOM];
    assert_eq!(entries::order(whole.as_bytes(), &mut out), Ok(SCREEN_ROOM));
    assert!(out.starts_with(b"order\t1024\t32\n1\n2\n"));
    assert!(out.ends_with(b"\n1023\n1024\n"));
}

#[test]
fn too_little_room_on_the_screen_writes_nothing() {
    for room in [0, 1, SCREEN_ROOM - 1] {
        let mut out = vec![0xa5; room];
        assert!(entries::order(text(A).as_bytes(), &mut out).is_err());
        assert!(out.iter().all(|&byte| byte == 0xa5));
    }
}
