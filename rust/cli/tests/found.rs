//! Many damaged plans: for every refusal there are words that were found, and they are true. Number and place are the
//! library's; that the words of a line speak of another one is looked up in the plan.

mod common;

use cli::diagnosis::{of_text, Diagnosis};
use cli::input::Text;
use cli::judged;
use cli::names::Names;
use cli::style::Style;
use gimmerskip::{Refusal, Step, Verb};
use second::random::{plan, ring, wish, Cut, Random};
use second::{damage, read};

/// A plan of some kind, mostly damaged.
fn some_text(random: &mut Random) -> Vec<u8> {
    let wish = wish(random, 30, 6, 5);
    let lines = match random.below(8) {
        0 => {
            let length = 1 + random.below(32);
            ring(random, length, Cut::Whole)
        }
        _ => plan(random, wish),
    };
    match random.below(3) {
        0 => damage::damaged_text(random, &read::write(&lines)),
        1 => damage::spelt(&damage::damaged_packed(random, &second::line::pack(&lines))),
        _ => read::write(&lines),
    }
}

/// The number after some words of a sentence.
fn after(sentence: &str, words: &str) -> Option<usize> {
    let rest = &sentence[sentence.find(words)? + words.len()..];
    let end = rest.find(|letter: char| !letter.is_ascii_digit()).unwrap_or(rest.len());
    rest[..end].parse().ok()
}

/// Whether what is said of another line is so.
fn is_true(steps: &[Step], refusal: Refusal, head: &str) -> bool {
    let here = steps.get(refusal.place().wrapping_sub(1) as usize);
    let line = |words: &str| after(head, words).and_then(|line| steps.get(line - 1));
    match (refusal, here) {
        (Refusal::BadStart(_), Some(here)) if head.contains("starts already") => {
            line("which line ")
                .is_some_and(|other| (other.verb, other.operand) == (Verb::Start, here.operand))
        }
        (Refusal::BadStart(_), Some(here)) if head.contains("no lines") => {
            steps.iter().all(|step| step.job != here.operand)
        }
        (Refusal::BadStart(_), Some(here)) => here.operand <= here.job,
        (Refusal::GiveWithoutTake(_), Some(here)) if head.contains(" took device ") => {
            let took = line(" after it, in line ");
            took.is_some_and(|took| {
                (took.job, took.verb) == (here.job, Verb::Take) && took.operand != here.operand
            })
        }
        (Refusal::NeverStarted(_), Some(here)) => {
            steps.iter().all(|step| (step.verb, step.operand) != (Verb::Start, here.job))
        }
        (Refusal::JobOutOfSequence(line), Some(_)) if line > 1 => {
            let before = steps[line as usize - 2].job;
            after(head, "the line before is of job ") == Some(before.into())
        }
        _ => true,
    }
}

/// The devices that a job is told to give, one after another.
fn given(example: &str) -> Vec<usize> {
    let (gives, _) = example.split_once(" by job ").expect("a job gives");
    let words = gives.split([' ', ',']);
    words.filter_map(|word| word.parse().ok()).collect()
}

/// The text with an edit made that is told as an example: lines put before another or after it, or gives put in.
fn edited(bytes: &[u8], example: &str) -> Vec<u8> {
    let mut lines: Vec<Vec<u8>> =
        bytes.split_inclusive(|&byte| byte == b'\n').map(<[u8]>::to_vec).collect();
    let number = |words: &str| after(example, words);
    if let Some(before) = number(" put before line ") {
        let first = number("With line ").or(number("With lines ")).expect("a line");
        let last = number(" and ").or(number(" to ")).unwrap_or(first);
        let block: Vec<Vec<u8>> = lines.drain(first - 1..last).collect();
        lines.splice(before - 1..before - 1, block);
    } else if let Some(after) = number(" put after line ") {
        let first = number("With line ").expect("a line");
        lines[first - 1..after].rotate_left(1);
    } else {
        let job = number(" by job ").expect("a job");
        let gives = given(example).into_iter();
        let gives = gives.map(|device| format!("{job}\tgive\t{device}\n").into_bytes());
        let last = number(" after line ").expect("a line");
        lines.splice(last..last, gives);
    }
    lines.concat()
}

#[test]
fn examples_of_mending_are_true() {
    let (mut random, mut told, mut refused) = (Random::new(2_027), 0, 0);
    for _ in 0..3_000 {
        let wish = wish(&mut random, 30, 6, 5);
        let length = 1 + random.below(32);
        let lines = if random.once_in(2) {
            plan(&mut random, wish)
        } else {
            ring(&mut random, length, Cut::Whole)
        };
        let bytes = read::write(&lines);
        let Some(found) = words(bytes.clone()) else { continue };
        refused += 1;
        if let Some(example) = found.example {
            assert!(judged(&edited(&bytes, &example)).is_ok(), "{example}");
            told += 1;
        }
    }
    assert!(told > 200 && told * 2 > refused, "{told} of {refused}");
}

/// The words for a text, or nothing if it is accepted.
fn words(bytes: Vec<u8>) -> Option<Diagnosis> {
    let refusal = judged(&bytes).err()?;
    let text = Text { name: "p".to_string(), bytes, size: None };
    let found = of_text(&text, refusal, &Names::default());
    let steps: Vec<Step> = gimmerskip::lines(&text.bytes).map_while(Result::ok).collect();
    assert!(!found.mend.is_empty(), "these are the general words: {}", found.head);
    assert!(is_true(&steps, refusal, &found.head), "{:?}", found);
    Some(found)
}

#[test]
fn words_are_found_for_every_refusal() {
    let mut random = Random::new(2_026);
    let mut seen = [0; 11];
    for _ in 0..20_000 {
        let Some(found) = words(some_text(&mut random)) else { continue };
        seen[found.refusal.number() as usize] += 1;
        let (short, long) = (found.short("p", Style::default()), found.long("p", Style::default()));
        assert!(short.is_ascii() && long.is_ascii());
        assert!(short.contains('^') || found.refusal == Refusal::TextTooLong, "{short}");
        assert!(long.starts_with(short.lines().next().expect("a line")));
        assert!(long.lines().all(|line| line.len() <= 200), "{long}");
    }
    let is_seen = |number: usize| seen[number] > 30;
    assert!([2, 4, 5, 6, 7, 9, 10].into_iter().all(is_seen), "{seen:?}");
}
