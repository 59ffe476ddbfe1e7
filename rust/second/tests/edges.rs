//! Refusals 1 to 11 without 8 at their edges, each with its place, and which of two comes first.

mod common;

use common::{packed, plan, refusal};
use second::listed::{text, A, G};
use second::plain::{read_into, table_into, verdict, verdict_into, write_into};
use second::read::{check_packed, read, write};
use second::{Line, Refusal, Verb};

/// The text in the short form is refused so.
fn refused(short: &str, number: u32, place: u64) {
    assert_eq!(read(&text(short)), Err(refusal(number, place)), "{short}");
}

/// These bytes are refused so.
fn bytes_refused(bytes: &[u8], number: u32, place: u64) {
    let shown = String::from_utf8_lossy(bytes);
    assert_eq!(read(bytes), Err(refusal(number, place)), "{shown:?}");
}

#[test]
fn one_is_the_length_before_all_else() {
    let longest: String = (0..1_024).map(|_| "64\tstart\t64\n").collect();
    assert_eq!(longest.len(), 12_288);
    bytes_refused(longest.as_bytes(), 4, 1);
    bytes_refused(format!("{longest}x").as_bytes(), 1, 0);
    bytes_refused(&[0; 12_288], 2, 1);
    bytes_refused(&[0; 12_289], 1, 0);
    bytes_refused(&[0; 40_000], 1, 0);
}

/// Lines that are malformed.
const NOT_LINES: [&str; 32] = [
    "\n",
    "\t\n",
    "\t\t\n",
    "1\n",
    "1\tdo\n",
    "1\tdo\t\n",
    "\tdo\t1\n",
    "1\t\t1\n",
    "1\tdo\t1\t\n",
    "\t1\tdo\t1\n",
    "1\tdo\t1\t1\n",
    "1\t\tdo\t1\n",
    "1 do 1\n",
    "1\tdo 1\n",
    " 1\tdo\t1\n",
    "1\tdo\t1 \n",
    "1\tdo\t1\r\n",
    "\r\n",
    "1\tDo\t1\n",
    "1\tDO\t1\n",
    "1\tdoo\t1\n",
    "1\td\t1\n",
    "1\ttakes\t1\n",
    "1\tTake\t1\n",
    "1\tdo\0\t1\n",
    "\x001\tdo\t1\n",
    "1\tdo\t1\0\n",
    "\0\n",
    "1\tdo\t1\x0b\n",
    "1\tdo\t\u{661}\n",
    "#\n",
    "1\tdo\t1#\n",
];

#[test]
fn two_is_any_line_that_is_not_three_fields_with_two_tabs() {
    for line in NOT_LINES {
        bytes_refused(line.as_bytes(), 2, 1);
        bytes_refused(format!("1\tdo\t1\n{line}").as_bytes(), 2, 2);
    }
    bytes_refused(b"1\tdo\t\xff\n", 2, 1);
}

/// Numbers that no field takes.
const NOT_NUMBERS: [&str; 19] = [
    "00",
    "01",
    "007",
    "-1",
    "+1",
    "-0",
    "1.0",
    "1e1",
    "0x1",
    "256",
    "300",
    "999",
    "1000",
    "4294967296",
    "4294967297",
    "18446744073709551616",
    "18446744073709551617",
    "340282366920938463463374607431768211457",
    "00000000000000000000000000000000000000001",
];

#[test]
fn two_is_any_number_that_its_field_cannot_hold() {
    for number in NOT_NUMBERS {
        bytes_refused(format!("1\tdo\t{number}\n").as_bytes(), 2, 1);
        bytes_refused(format!("1\ttake\t{number}\n").as_bytes(), 2, 1);
        bytes_refused(format!("1\tstart\t{number}\n").as_bytes(), 2, 1);
        bytes_refused(format!("{number}\tdo\t1\n").as_bytes(), 2, 1);
    }
    bytes_refused(format!("1\tdo\t1{}\n", "0".repeat(12_000)).as_bytes(), 2, 1);
}

#[test]
fn two_keeps_to_the_ranges_of_the_fields() {
    assert!(read(&text("1 do 0; 1 do 255; 1 take 0; 1 give 0")).is_ok());
    refused("1 do 256", 2, 1);
    refused("1 take 32", 2, 1);
    refused("1 give 32", 2, 1);
    refused("1 start 0", 2, 1);
    refused("1 start 1", 2, 1);
    refused("1 start 65", 2, 1);
    refused("0 do 1", 2, 1);
    refused("65 do 1", 2, 1);
}

#[test]
fn two_is_a_last_newline_missing() {
    bytes_refused(b"1", 2, 1);
    bytes_refused(b"1\tdo\t1", 2, 1);
    bytes_refused(b"1\tdo\t1\n1\tdo\t1", 2, 2);
    bytes_refused(b"2\tdo\t1", 2, 1);
    assert_eq!(read(b""), Ok(vec![]));
    bytes_refused(b"\n", 2, 1);
    bytes_refused(b"1\tdo\t1\n\n", 2, 2);
}

#[test]
fn three_is_anything_after_line_1024() {
    let full = "1\tdo\t0\n".repeat(1_024);
    assert!(read(full.as_bytes()).is_ok());
    for more in ["\n", "x", "\0", "1", "1\tdo\t0", "1\tdo\t0\n", "1\tstart\t2\n", "9\tdo\t0\n\n"] {
        bytes_refused((full.clone() + more).as_bytes(), 3, 1_025);
    }
    bytes_refused(full.trim_end().as_bytes(), 2, 1_024);
    let start = "1\tdo\t0\n".repeat(1_023) + "1\tstart\t2\n";
    bytes_refused(start.as_bytes(), 5, 1_024);
    bytes_refused((start + "2\tdo\t0\n").as_bytes(), 3, 1_025);
    let fault_above = "1\tdo\t0\n".repeat(1_023) + "3\tdo\t0\nx";
    bytes_refused(fault_above.as_bytes(), 4, 1_024);
}

#[test]
fn four_is_a_job_out_of_sequence() {
    refused("2 do 1", 4, 1);
    refused("64 do 1", 4, 1);
    refused("1 do 1; 3 do 1", 4, 2);
    refused("1 start 2; 2 do 1; 1 do 1", 4, 3);
    refused("1 start 2; 1 start 3; 2 do 1; 4 do 1", 4, 4);
    refused("2 do 1; rubbish", 4, 1);
    refused("2 give 1", 4, 1);
    refused("2 start 2", 4, 1);
}

#[test]
fn five_is_a_start_that_cannot_be() {
    refused("1 start 2; 2 start 2", 5, 2);
    refused("1 start 2; 1 start 3; 2 do 0; 3 start 2", 5, 4);
    refused("1 start 2; 1 start 2; 2 do 0", 5, 2);
    refused("1 start 2; 1 start 3; 2 start 3; 3 do 0", 5, 3);
    refused("1 start 2", 5, 1);
    refused("1 start 2; rubbish", 2, 2);
    refused("1 start 3; rubbish", 2, 2);
    refused("1 start 3; 2 do 0", 5, 1);
    refused("1 do 0; 1 start 4; 1 start 3; 2 do 0", 5, 2);
    refused("1 start 64; 1 start 64", 5, 2);
}

#[test]
fn six_comes_last_and_names_the_first_line_of_the_lowest_job() {
    refused("1 do 0; 2 do 0", 6, 2);
    refused("1 do 0; 2 do 0; 3 do 0", 6, 2);
    refused("1 start 2; 1 do 0; 2 do 0; 2 do 0; 3 do 0; 3 do 0", 6, 5);
    refused("1 start 3; 2 do 0; 3 do 0", 6, 2);
    refused("1 do 0; 2 start 4; 2 do 0", 5, 2);
    refused("1 do 0; 2 start 3; 3 give 0", 7, 3);
}

#[test]
fn seven_is_a_give_of_what_was_not_taken_last() {
    refused("1 give 0", 7, 1);
    refused("1 take 0; 1 give 1", 7, 2);
    refused("1 take 0; 1 take 1; 1 give 0", 7, 3);
    refused("1 take 0; 1 give 0; 1 give 0", 7, 3);
    refused("1 take 0; 1 start 2; 2 give 0", 7, 3);
    refused("1 take 0; 1 take 1; 1 give 1; 1 give 1", 7, 4);
    assert!(read(&text("1 take 0; 1 take 1; 1 give 1; 1 give 0")).is_ok());
}

#[test]
fn seven_goes_by_the_take_made_last_also_where_it_takes_again() {
    refused("1 take 0; 1 take 1; 1 take 0; 1 give 1", 7, 4);
    refused("1 take 0; 1 take 0; 1 give 0; 1 give 0; 1 give 0", 7, 5);
    refused("1 take 0; 1 take 1; 1 take 0; 1 give 0; 1 give 0", 7, 5);
    refused("1 take 3; 1 take 3; 1 start 2; 2 give 3", 7, 4);
    assert!(read(&text("1 take 0; 1 take 1; 1 take 0; 1 give 0; 1 give 1")).is_ok());
}

#[test]
fn eight_is_not_given() {
    for short in [
        "1 take 3; 1 take 3",
        "1 take 3; 1 take 4; 1 give 4; 1 take 3",
        "1 take 3; 1 give 3; 1 take 3; 1 take 3; 1 take 3",
        "1 take 3; 1 start 2; 1 take 3; 2 take 3",
    ] {
        assert!(read(&text(short)).is_ok(), "{short}");
    }
    refused("1 take 3; 1 take 3; rubbish", 2, 3);
    refused("1 take 3; 1 take 3; 3 do 0", 4, 3);
}

#[test]
fn packed_numbers_of_no_line_are_two() {
    let line = |job: u32, kind: u32, operand: u32| job * 1_024 + kind * 256 + operand;
    let bad = [
        0,
        1,
        255,
        1_023,
        line(0, 1, 3),
        line(65, 0, 0),
        line(1, 1, 32),
        line(1, 2, 32),
        line(1, 1, 255),
        line(1, 3, 0),
        line(1, 3, 1),
        line(1, 3, 65),
        line(1, 3, 255),
        u32::MAX,
        line(64, 3, 65),
        line(257, 0, 0),
        1 << 31,
    ];
    for number in bad {
        assert_eq!(Line::unpacked(number), None, "{number}");
        assert_eq!(check_packed(&[number]), Err(refusal(2, 1)), "{number}");
        assert_eq!(check_packed(&[1_024, number]), Err(refusal(2, 2)), "{number}");
    }
}

#[test]
fn packing_goes_there_and_back() {
    let mut lines = 0;
    for number in 0..70_000 {
        if let Some(line) = Line::unpacked(number) {
            lines += 1;
            assert_eq!(line.packed(), number);
        }
    }
    assert_eq!(lines, 64 * (256 + 32 + 32 + 63));
}

#[test]
fn packed_lists_are_refused_like_texts() {
    let action = Line { job: 1, verb: Verb::Do(0) }.packed();
    let mut long = vec![action; 1_030];
    assert_eq!(check_packed(&long), Err(refusal(3, 1_025)));
    long[1_024] = 0;
    assert_eq!(check_packed(&long), Err(refusal(3, 1_025)));
    long[1_023] = 0;
    assert_eq!(check_packed(&long), Err(refusal(2, 1_024)));
    long[5] = 2_048 + 1_024;
    assert_eq!(check_packed(&long), Err(refusal(4, 6)));
    let start = Line { job: 1, verb: Verb::Start(3) }.packed();
    assert_eq!(check_packed(&[start, u32::MAX]), Err(refusal(2, 2)));
    assert_eq!(check_packed(&[2_048, u32::MAX]), Err(refusal(4, 1)));
    assert_eq!(check_packed(&[]), Ok(vec![]));
}

#[test]
fn nine_comes_before_ten_and_names_the_lowest_device() {
    let verdict_of = |short: &str| verdict(&plan(short)).err();
    let nine = "1 start 2; 1 take 7; 1 take 6; 2 take 6; 2 take 7";
    assert_eq!(verdict_of(nine), Some(refusal(9, 6)));
    let both = "1 take 0; 1 start 2; 1 start 3; 2 take 9; 2 take 0; 2 give 0; 3 take 9";
    assert_eq!(verdict_of(both), Some(refusal(9, 9)));
    let one_job = "1 take 4; 1 start 2; 2 take 4";
    assert_eq!(verdict_of(one_job), Some(refusal(9, 4)));
    let pair_and_lasting = "1 start 2; 1 take 4; 1 give 4; 1 take 4; 2 do 0";
    assert_eq!(verdict_of(pair_and_lasting), None);
}

#[test]
fn ten_names_a_device_of_the_circle_not_one_that_leads_there() {
    // Device 0 leads to the circle of 3 and 5 and is not on it.
    let short = "1 start 2; 1 start 3; 1 take 5; 1 take 3; 1 give 3; \
                 2 take 3; 2 take 5; 2 give 5; 3 take 0; 3 take 5; 3 give 5";
    assert_eq!(verdict(&plan(short)), Err(refusal(10, 3)));
}

#[test]
fn eleven_is_the_length_alone_and_comes_before_the_verdict() {
    let a = packed(A);
    let length = write(&plan(A)).len();
    assert_eq!(read_into(&text(A), &mut [9; 5]), Err(refusal(11, 6)));
    assert_eq!(table_into(&a, &mut [9; 5]), Err(refusal(11, 6)));
    assert_eq!(verdict_into(&a, &mut [9; 5]), Err(refusal(11, 6)));
    let mut short = vec![9; length - 1];
    assert_eq!(write_into(&a, &mut short), Err(refusal(11, length as u64)));
    assert!(short.iter().all(|&byte| byte == 9));
    let nine = packed(G);
    assert_eq!(verdict_into(&nine, &mut [9; 2]), Err(refusal(11, 3)));
    assert_eq!(verdict_into(&nine, &mut [9; 3]), Err(refusal(9, 5)));
    assert_eq!(verdict_into(&[0], &mut []), Err(refusal(2, 1)));
    assert_eq!(verdict_into(&[], &mut []), Ok(0));
}

#[test]
fn what_lies_past_the_entries_stays() {
    let a = packed(A);
    let mut order = [9; 8];
    assert_eq!(verdict_into(&a, &mut order), Ok(2));
    assert_eq!(order, [1, 4, 5, 6, 2, 3, 9, 9]);
    let mut sets = [9; 7];
    assert_eq!(table_into(&a, &mut sets), Ok(6));
    assert_eq!(sets, [3, 2, 0, 3, 2, 0, 9]);
    let mut read = [9; 7];
    assert_eq!(read_into(&text(A), &mut read), Ok(6));
    assert_eq!(read[..6], a);
    assert_eq!(read[6], 9);
    let mut bytes = [9; 100];
    let written = write_into(&a, &mut bytes).expect("there is room");
    assert_eq!(bytes[..written], text(A));
    assert!(bytes[written..].iter().all(|&byte| byte == 9));
}

#[test]
fn a_refused_call_leaves_its_list() {
    let bad: [(&[u32], Refusal); 3] =
        [(&[0], refusal(2, 1)), (&[2_048], refusal(4, 1)), (&[1_024 + 512], refusal(7, 1))];
    for (list, refused) in bad {
        let (mut sets, mut order, mut bytes) = ([9; 4], [9; 4], [9; 99]);
        assert_eq!(table_into(list, &mut sets), Err(refused));
        assert_eq!(verdict_into(list, &mut order), Err(refused));
        assert_eq!(write_into(list, &mut bytes), Err(refused));
        assert_eq!((sets, order, bytes), ([9; 4], [9; 4], [9; 99]));
    }
}
