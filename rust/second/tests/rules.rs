//! The rules of a well-formed plan, of the morning and resumed, read once more as sentences about whole
//! lists, and held against the reader for every short list over a few verbs, well-formed or not.

use second::line::{pack, Settings, MIDDAY, MORNING};
use second::read::{check_packed_by, read_by, write};
use second::small::{how_many, how_many_resumed};
use second::{Line, Refusal, Verb};

/// The lines of the same job above this one.
fn above(list: &[Line], at: usize) -> impl Iterator<Item = Verb> + '_ {
    list[..at].iter().filter(move |line| line.job == list[at].job).map(|line| line.verb)
}

/// The devices the line's job holds before the line: each give takes away what was put on last.
fn held(list: &[Line], at: usize) -> Vec<u8> {
    above(list, at).fold(Vec::new(), |mut held, verb| {
        match verb {
            Verb::Take(device) | Verb::Held(device) => held.push(device),
            Verb::Give(_) => drop(held.pop()),
            _ => {}
        }
        held
    })
}

/// The fault of one line in a list whose lines above have none.
fn fault(list: &[Line], at: usize) -> Option<u32> {
    let job = list[at].job;
    let in_sequence = match at {
        0 => job == 1,
        _ => job == list[at - 1].job || job == list[at - 1].job + 1,
    };
    let own = match list[at].verb {
        Verb::Do(_) | Verb::Take(_) => None,
        Verb::Start(other) => {
            let again = list[..at].iter().any(|line| line.verb == Verb::Start(other));
            (other <= job || again).then_some(5)
        }
        Verb::Give(device) => (held(list, at).last() != Some(&device)).then_some(7),
        Verb::Held(_) => held_fault(list, at),
    };
    if in_sequence {
        own
    } else {
        Some(4)
    }
}

/// The fault of a held line: the device is held further up, or its job has begun or is to be started. A
/// start further down is of a lower job only where a line is out of sequence, and that line is refused.
fn held_fault(list: &[Line], at: usize) -> Option<u32> {
    let Line { job, verb } = list[at];
    let twice = list[..at].iter().any(|line| line.verb == verb);
    let begun = above(list, at).any(|verb| !matches!(verb, Verb::Held(_)));
    let started = list[..at].iter().any(|line| line.verb == Verb::Start(job));
    let late = (begun || started).then_some(17);
    if twice {
        Some(16)
    } else {
        late
    }
}

/// The first refusal of a list, by the sentences.
fn first_refusal(settings: Settings, list: &[Line]) -> Option<Refusal> {
    let has_lines = |job: u8| list.iter().any(|line| line.job == job);
    let started = |job: u8| list.iter().any(|line| line.verb == Verb::Start(job));
    let by_line = (0..list.len()).find_map(|at| Some(Refusal::at(fault(list, at)?, at + 1)));
    let without_lines = || {
        let start = |line: &Line| matches!(line.verb, Verb::Start(job) if !has_lines(job));
        list.iter().position(start).map(|at| Refusal::at(5, at + 1))
    };
    let never_started = || {
        let job = (2..=64).find(|&job| has_lines(job) && !started(job))?;
        let first = list.iter().position(|line| line.job == job)?;
        Some(Refusal::at(6, first + 1))
    };
    let at_the_end = || if settings.resumed { None } else { never_started() };
    by_line.or_else(without_lines).or_else(at_the_end)
}

/// Compares every list that begins so, up to a length, and counts those that are well-formed.
fn compare(settings: Settings, list: &mut Vec<Line>, alphabet: &[Line], length: usize) -> u64 {
    let wanted = match first_refusal(settings, list) {
        Some(refusal) => Err(refusal),
        None => Ok(list.clone()),
    };
    assert_eq!(check_packed_by(settings, &pack(list)), wanted, "{list:?}");
    assert_eq!(read_by(settings, &write(list)), wanted, "{list:?}");
    let mut count = u64::from(wanted.is_ok());
    if list.len() < length {
        for &line in alphabet {
            list.push(line);
            count += compare(settings, list, alphabet, length);
            list.pop();
        }
    }
    count
}

#[test]
fn every_list_of_up_to_four_lines_is_judged_alike() {
    let mut verbs = vec![Verb::Do(0)];
    verbs.extend((0..2).flat_map(|device| [Verb::Take(device), Verb::Give(device)]));
    verbs.extend((2..=4).map(Verb::Start));
    let of_job = |job: u8| verbs.iter().map(move |&verb| Line { job, verb });
    let alphabet: Vec<Line> = (1..=4).flat_map(of_job).collect();
    assert_eq!(compare(MORNING, &mut Vec::new(), &alphabet, 4), 522);
    assert_eq!(how_many(4), 522);
}

#[test]
fn every_list_of_six_lines_over_one_device_is_judged_alike() {
    let verbs = [Verb::Take(0), Verb::Give(0), Verb::Start(2), Verb::Start(3)];
    let of_job = |job: u8| verbs.iter().map(move |&verb| Line { job, verb });
    let alphabet: Vec<Line> = (1..=2).flat_map(of_job).collect();
    assert!(compare(MORNING, &mut Vec::new(), &alphabet, 6) > 0);
}

#[test]
fn every_resumed_list_of_up_to_four_lines_is_judged_alike() {
    let of_two = |device| [Verb::Take(device), Verb::Give(device), Verb::Held(device)];
    let mut verbs = vec![Verb::Do(0)];
    verbs.extend((0..2).flat_map(of_two));
    verbs.extend((2..=4).map(Verb::Start));
    let of_job = |job: u8| verbs.iter().map(move |&verb| Line { job, verb });
    let alphabet: Vec<Line> = (1..=4).flat_map(of_job).collect();
    assert_eq!(compare(MIDDAY, &mut Vec::new(), &alphabet, 4), how_many_resumed(4));
}

#[test]
fn every_list_of_five_lines_over_what_is_held_is_judged_alike() {
    let verbs = [Verb::Give(0), Verb::Held(0), Verb::Held(1), Verb::Start(2)];
    let of_job = |job: u8| verbs.iter().map(move |&verb| Line { job, verb });
    let alphabet: Vec<Line> = (1..=3).flat_map(of_job).collect();
    assert!(compare(MIDDAY, &mut Vec::new(), &alphabet, 5) > 0);
}
