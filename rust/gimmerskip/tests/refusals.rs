//! Each refusal: its number, its place and its words, and an entry that gives it.

#![cfg(feature = "std")]

mod common;

use common::{fault, plan, text};
use gimmerskip::{entries, outcome, Plan, Refusal};
use second::listed::{packed, A, F, G, H};

/// Every refusal with its number, its place and its words.
const WORDS: [(Refusal, u32, u32, &str); 15] = [
    (Refusal::TextTooLong, 1, 0, "the text has more than 12288 bytes"),
    (Refusal::Malformed(3), 2, 3, "line 3 is no line that a plan can have"),
    (
        Refusal::TooManyLines,
        3,
        1_025,
        "something stands after line 1024, the last that a plan can have",
    ),
    (Refusal::JobOutOfSequence(1), 4, 1, "line 1 is not of job 1, with which a plan begins"),
    (
        Refusal::JobOutOfSequence(4),
        4,
        4,
        "line 4 is of a job that is neither the one before nor the next",
    ),
    (
        Refusal::BadStart(2),
        5,
        2,
        "line 2 starts a job that is not higher than its own, is started already, or has no lines",
    ),
    (Refusal::NeverStarted(7), 6, 7, "line 7 begins a job that no line starts"),
    (
        Refusal::GiveWithoutTake(5),
        7,
        5,
        "line 5 gives a device that is not the latest its job still holds",
    ),
    (
        Refusal::TwoLasting(31),
        9,
        31,
        "device 31 has two lasting takes: two jobs would hold it to the end",
    ),
    (
        Refusal::LeadsBack(0),
        10,
        0,
        "device 0 leads back to itself: what follows its lasting take comes back to it",
    ),
    (Refusal::ListTooShort(6), 11, 6, "a lent list is too short: it needs a length of 6"),
    (Refusal::NotATake(9), 12, 9, "line 9 is no take of the plan, so it has no claim to move"),
    (Refusal::NoSuchDevice(32), 13, 32, "there is no device 32: the highest is 31"),
    (
        Refusal::StaleTable(4),
        14,
        4,
        "line 4 has a stale set: it does not follow from the plan and the sets after it",
    ),
    (
        Refusal::IllegalStep(3),
        15,
        3,
        "entry 3 of the order is no legal next step, or the order stops before it",
    ),
];

#[test]
fn each_has_its_number_its_place_and_its_words() {
    for (refusal, number, place, words) in WORDS {
        assert_eq!((refusal.number(), refusal.place()), (number, place), "{refusal:?}");
        assert_eq!(refusal.to_string(), words);
        assert_eq!(Refusal::new(number, place), refusal);
        let answer = u64::from(number) << 32 | u64::from(place);
        assert_eq!(outcome(answer), Err(refusal));
    }
    for number in 1..=15 {
        let is_free = number == 8;
        assert_eq!(WORDS.iter().any(|row| row.1 == number), !is_free, "{number}");
    }
}

#[test]
fn of_a_text_only_a_malformed_line_has_other_words() {
    for (refusal, number, place, words) in WORDS {
        let in_text = refusal.in_text().to_string();
        if number == 2 {
            assert_eq!(in_text, format!("line {place} is malformed, or its newline is missing"));
        } else {
            assert_eq!(in_text, words);
        }
        assert!(!words.contains("newline") && !in_text.contains("packed"), "{refusal:?}");
    }
}

#[test]
fn an_answer_below_the_refusals_is_a_count() {
    for count in [0, 1, 1_024, 12_288, u32::MAX] {
        assert_eq!(outcome(count.into()), Ok(count as usize));
    }
    assert!(outcome(1 << 32).is_err());
}

#[test]
fn an_answer_of_no_known_number_is_kept_as_it_came() {
    for (number, place) in [(16, 7), (8, 2), (u32::MAX, u32::MAX), (1, 1), (3, 1_024), (0, 4)] {
        let refusal = Refusal::new(number, place);
        assert_eq!(refusal, Refusal::Unlisted { number, place });
        assert_eq!((refusal.number(), refusal.place()), (number, place));
        let words = format!("refused with number {number} and place {place}");
        assert_eq!(refusal.to_string(), words);
    }
}

#[test]
fn a_refusal_is_an_error_like_others() {
    fn ordered(text: &str) -> Result<usize, Box<dyn std::error::Error>> {
        Ok(text.parse::<Plan>()?.verdict()?.held)
    }
    assert_eq!(ordered(&text(A)).expect("it has an order"), 2);
    let error = ordered(&text(G)).expect_err("two lasting takes");
    assert_eq!(error.downcast_ref(), Some(&Refusal::TwoLasting(5)));
}

#[test]
fn one_two_and_three_in_texts() {
    let read = |text: &str| Plan::from_text(text).expect_err("this is no plan");
    assert_eq!(read(&"x".repeat(12_289)), Refusal::TextTooLong);
    assert_eq!(read(&"x".repeat(12_288)), Refusal::Malformed(1));
    for bad in ["x\n", "\n", "1\tdo\t0\r\n", "1\tdo\t0", "1\tdo\t00\n", "1 do 0\n", "1\tDo\t0\n"] {
        assert_eq!(read(&("1\tdo\t0\n".to_string() + bad)), Refusal::Malformed(2), "{bad:?}");
    }
    for bad in
        ["1 take 32", "1 give 32", "1 do 256", "1 start 1", "1 start 65", "0 do 0", "65 do 0"]
    {
        assert_eq!(read(&text(bad)), Refusal::Malformed(1), "{bad}");
    }
    let full = "1\tdo\t0\n".repeat(1_024);
    assert!(Plan::from_text(&full).is_ok());
    assert_eq!(read(&(full + "x")), Refusal::TooManyLines);
}

#[test]
fn two_and_three_in_packed_lists() {
    for none in
        [0, 1_023, 1_024 + 256 + 32, 1_024 + 512 + 32, 1_024 + 768 + 1, 65 * 1_024, u32::MAX]
    {
        assert_eq!(fault(&[1_024, none]), Some(Refusal::Malformed(2)), "{none}");
    }
    assert_eq!(fault(&[1_024; 1_024]), None);
    assert_eq!(fault(&[1_024; 1_025]), Some(Refusal::TooManyLines));
    assert_eq!(fault(&[1_024; 5_000]), Some(Refusal::TooManyLines));
}

#[test]
fn four_to_seven_in_texts_and_packed_lists() {
    let cases = [
        ("2 do 0", Refusal::JobOutOfSequence(1)),
        ("1 start 2; 1 start 3; 3 do 0", Refusal::JobOutOfSequence(3)),
        ("1 start 2; 2 do 0; 1 do 0", Refusal::JobOutOfSequence(3)),
        ("1 start 2; 2 start 2", Refusal::BadStart(2)),
        ("1 start 2; 1 start 2; 2 do 0", Refusal::BadStart(2)),
        ("1 do 0; 1 start 2", Refusal::BadStart(2)),
        ("1 do 0; 1 do 0; 2 do 0", Refusal::NeverStarted(3)),
        ("1 give 0", Refusal::GiveWithoutTake(1)),
        ("1 take 0; 1 take 1; 1 give 0", Refusal::GiveWithoutTake(3)),
        ("1 start 2; 1 take 0; 2 give 0", Refusal::GiveWithoutTake(3)),
        // The topmost fault is told; what only the end shows comes last, 5 before 6.
        ("1 start 9; 1 give 0; 7 do 0", Refusal::GiveWithoutTake(2)),
        ("1 do 0; 2 start 9; 2 do 0", Refusal::BadStart(2)),
    ];
    for (short, refusal) in cases {
        assert_eq!(Plan::from_text(text(short)), Err(refusal), "{short}");
        assert_eq!(fault(&packed(short)), Some(refusal), "{short}");
    }
}

#[test]
fn nine_and_ten() {
    assert_eq!(plan(G).verdict(), Err(Refusal::TwoLasting(5)));
    assert_eq!(plan(H).verdict(), Err(Refusal::LeadsBack(0)));
    assert_eq!(plan(F).verdict(), Err(Refusal::LeadsBack(0)));
    let both = "1 take 0; 1 start 2; 1 take 7; 2 take 0; 2 give 0; 2 take 7";
    assert_eq!(plan(both).verdict(), Err(Refusal::TwoLasting(7)), "9 comes before 10");
}

#[test]
fn eleven_needs_the_length_and_comes_before_the_verdict() {
    let a = packed(A);
    let whole = text(A).into_bytes();
    let needed = Err(Refusal::ListTooShort(6));
    assert_eq!(entries::read(&whole, &mut [9; 5]), needed);
    assert_eq!(entries::table(&a, &mut [9; 5]), needed);
    assert_eq!(entries::verdict(&a, &mut [9; 5]), needed);
    assert_eq!(entries::move_claim(&mut a.clone(), &mut [9; 5], 99, 99), needed);
    let mut short = vec![9; whole.len() - 1];
    let needed = Err(Refusal::ListTooShort(whole.len() as u32));
    assert_eq!(entries::write(&a, &mut short), needed);
    assert!(short.iter().all(|&byte| byte == 9));
    assert_eq!(entries::verdict(&packed(G), &mut []), Err(Refusal::ListTooShort(3)));
    assert_eq!(entries::order(&whole, &mut [9; 4_026]), Err(Refusal::ListTooShort(4_027)));
}

#[test]
fn fifteen_comes_after_the_plans_faults() {
    let twice = packed("1 take 3; 1 give 3; 1 give 3");
    assert_eq!(entries::judge(&twice, &[]), Err(Refusal::GiveWithoutTake(3)));
    assert_eq!(plan(A).judge(&[]), Err(Refusal::IllegalStep(1)));
    assert_eq!(plan(G).judge(&[1, 2, 3]), Err(Refusal::IllegalStep(3)), "9 is no bar");
    assert_eq!(plan(G).judge(&[1, 3]), Err(Refusal::IllegalStep(3)));
}

#[test]
fn twelve_to_fourteen_in_a_move() {
    let (before, sets) = (plan(A), plan(A).table());
    let refused = |sets: &[u32], line, device, refusal| {
        let (mut plan, mut table) = (before.clone(), sets.to_vec());
        assert_eq!(plan.move_claim(&mut table, line, device), Err(refusal));
        assert_eq!((&plan, &table[..]), (&before, sets), "a refused move changes nothing");
    };
    for line in [0, 1, 3, 6, 7, u32::MAX] {
        refused(&sets, line, 99, Refusal::NotATake(line));
    }
    for device in [32, 256, u32::MAX] {
        refused(&[9; 6], 5, device, Refusal::NoSuchDevice(device));
    }
    refused(&[3, 2, 0, 3, 3, 0], 5, 0, Refusal::StaleTable(5));
    refused(&[3, 2, 0, 2, 2, 0], 5, 2, Refusal::StaleTable(4));
    refused(&[2, 2, 0, 3, 2, 0], 5, 2, Refusal::StaleTable(1));
    refused(&[3, 3, 0, 3, 2, 0], 2, 2, Refusal::StaleTable(2));
}
