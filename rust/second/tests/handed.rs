//! The lines of a text handed out one after another, and the same answer again at the end.

mod common;

use common::{packed, refusal};
use second::listed::{text, A};
use second::read::{Handed, Lines};

/// Takes the lines until something else comes, which then has to come again and again.
fn all(text: &[u8]) -> (Vec<u32>, Handed) {
    let mut lines = Lines::new(text);
    let mut handed = Vec::new();
    loop {
        match lines.next_line() {
            Handed::Line(packed) => handed.push(packed),
            last => {
                for _ in 0..3 {
                    assert_eq!(lines.next_line(), last);
                }
                return (handed, last);
            }
        }
    }
}

#[test]
fn a_plan_comes_line_by_line_and_then_the_end() {
    assert_eq!(all(&text(A)), (packed(A), Handed::End));
    assert_eq!(all(b""), (vec![], Handed::End));
}

#[test]
fn a_malformed_line_comes_again() {
    let two = |line| Handed::Refused(refusal(2, line));
    assert_eq!(all(b"\n"), (vec![], two(1)));
    assert_eq!(all(b"1\tdo\t0\n\n1\tdo\t0\n"), (vec![1_024], two(2)));
    assert_eq!(all(b"1\tdo\t0\n1\tdo\t0"), (vec![1_024], two(2)));
    assert_eq!(all(b"1\tdo\t0\r\n"), (vec![], two(1)));
}

#[test]
fn the_rules_are_not_asked() {
    let odd = "9 give 3; 3 start 2; 64 start 64; 1 take 5; 1 take 5; 1 start 7";
    let (handed, last) = all(&text(odd));
    assert_eq!(handed.len(), 6);
    assert_eq!(last, Handed::End);
    assert_eq!(handed[0], 9 * 1_024 + 2 * 256 + 3);
}

#[test]
fn the_limits_are_asked() {
    assert_eq!(all(&[0; 12_289]), (vec![], Handed::Refused(refusal(1, 0))));
    assert_eq!(all(&[0; 12_288]), (vec![], Handed::Refused(refusal(2, 1))));
    let full = "1\tdo\t0\n".repeat(1_024);
    assert_eq!(all(full.as_bytes()), (vec![1_024; 1_024], Handed::End));
    for more in ["\n", "x", "1\tdo\t0\n"] {
        let (handed, last) = all((full.clone() + more).as_bytes());
        assert_eq!((handed.len(), last), (1_024, Handed::Refused(refusal(3, 1_025))));
    }
}
