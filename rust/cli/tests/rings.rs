//! Planted rings of 1 to 32 devices: the circle that `explain` prints is a real one, and no shorter one is there. The
//! rows are those of the second program.

mod common;

use common::fed;
use gimmerskip::{Plan, Refusal};
use second::plain;
use second::random::{ring, Cut, Random};
use second::{read, Line};

/// An arc as it is printed: job, device, line, the line behind, the device that is needed.
type Arc = [usize; 5];

/// The arc in a line that is printed, if it has one.
fn arc(line: &str) -> Option<Arc> {
    let rest = line.strip_prefix("  job ")?;
    let (job, rest) = rest.split_once(" keeps device ")?;
    let (device, rest) = rest.split_once(" from line ")?;
    let (line, rest) = rest.split_once(" on; after that line ")?;
    let (then, rest) =
        rest.split_once(" needs device ").or_else(|| rest.split_once(" keeps device "))?;
    let needs = rest.split_once(" (in job ").map_or(rest, |(needs, _)| needs);
    let number = |word: &str| word.parse().ok();
    Some([number(job)?, number(device)?, number(line)?, number(then)?, number(needs)?])
}

/// The circles that are printed, one or two, by their arcs.
fn circles(printed: &str) -> Vec<Vec<Arc>> {
    let parts = printed.split("A shorter circle is there too: ");
    parts.map(|part| part.lines().filter_map(arc).collect()).collect()
}

/// Fails unless the circle that is told last is the shortest of all, through the lowest device that has one.
fn has_the_shortest(lines: &[Line], told: &[Vec<Arc>]) {
    let rows = plain::rows(lines);
    let lengths = (0..32).filter_map(|device| Some((plain::circle(&rows, device)?, device)));
    let (length, device) = lengths.min().expect("there is a circle");
    let last = &told[told.len() - 1];
    assert_eq!(last.len(), length as usize);
    if told.len() == 2 {
        assert!(last.len() < told[0].len());
        is_circle(lines, last, device as usize);
    }
}

/// Fails unless a line that is told to keep a device does, and one that is told to need it does not.
fn lasting_takes_are_told(lines: &[Line], printed: &str) {
    let lasting = plain::lasting(lines);
    for line in printed.lines() {
        let Some([_, _, _, then, _]) = arc(line) else { continue };
        assert_eq!(lasting[then - 1].is_some(), !line.contains(" needs "), "{line}");
    }
}

/// Fails unless the arcs make a circle of the plan that begins with the device.
fn is_circle(lines: &[Line], arcs: &[Arc], place: usize) {
    let (rows, lasting) = (plain::rows(lines), plain::lasting(lines));
    assert_eq!(arcs[0][1], place, "it begins with the device that is told");
    for (at, [job, device, line, then, needs]) in arcs.iter().copied().enumerate() {
        assert_eq!(usize::from(lines[line - 1].job), job);
        assert_eq!(lasting[line - 1].map(usize::from), Some(device), "the take lasts");
        assert_eq!(lines[then - 1].takes().map(usize::from), Some(needs));
        assert!(then > line && rows[device] >> needs & 1 == 1, "the row has it");
        assert_eq!(arcs[(at + 1) % arcs.len()][1], needs, "the next one keeps it");
    }
    assert_eq!(
        plain::circle(&rows, place as u32),
        Some(arcs.len() as u32),
        "no shorter one is there"
    );
}

/// A plan with a planted ring that is refused with 10, its text, and the place.
fn some_ring(random: &mut Random, length: usize) -> (Vec<Line>, Vec<u8>, u32) {
    loop {
        let lines = ring(random, length, Cut::Whole);
        let bytes = read::write(&lines);
        let verdict = Plan::from_text(&bytes).and_then(|plan| plan.verdict());
        if let Err(Refusal::LeadsBack(place)) = verdict {
            return (lines, bytes, place);
        }
    }
}

#[test]
fn circles_are_real() {
    let mut random = Random::new(3_200);
    for round in 0..192 {
        let (lines, bytes, place) = some_ring(&mut random, 1 + round % 32);
        let ended = fed(&["explain", "-"], &bytes).ends(1);
        let ended = ended.prints(&[&format!("refused 10 {place}: device {place} ")]);
        let arcs = circles(ended.text());
        assert!(matches!(arcs.len(), 1 | 2), "{}", ended.text());
        is_circle(&lines, &arcs[0], place as usize);
        has_the_shortest(&lines, &arcs);
        lasting_takes_are_told(&lines, ended.text());
    }
}

#[test]
fn long_circles_are_met() {
    // Of each length there is one that cannot be cut short: each job keeps a device and needs the next.
    for length in 2..=32 {
        let starts = (2..=length).map(|job| format!("1\tstart\t{job}\n"));
        let jobs = (1..=length).map(|job| {
            let (keeps, needs) = (job - 1, job % length);
            format!("{job}\ttake\t{keeps}\n{job}\ttake\t{needs}\n{job}\tgive\t{needs}\n")
        });
        let text: String = starts.chain(jobs).collect();
        let words = format!(
            "refused 10 0: device 0 leads back to itself, in a circle of {length} devices\n"
        );
        let ended = fed(&["explain", "-"], &text).ends(1).prints(&[&words]);
        let arcs = circles(ended.text());
        assert_eq!((arcs.len(), arcs[0].len()), (1, length));
        is_circle(&read::read(text.as_bytes()).expect("the plan has no fault"), &arcs[0], 0);
    }
}
