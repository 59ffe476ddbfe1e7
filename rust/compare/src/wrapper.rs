//! The wrapper's own workings, which no proof covers: the steps of a plan, the lines of a text one by one, who holds
//! what, the circles, a plan that keeps its table, and the printed order. They are held against the second program and
//! against the proved entries. The paragraphs of document 01 are "Claims and rows", "The line reader" and "Packed"; by
//! request 2 of document 02 the first of them speaks of outermost takes.

use crate::asked::Asked;
use crate::plans::{any_plan, any_ring, forms, long_plan, short_plan};
use crate::run::Run;
use gimmerskip::{Arc, Holds, Plan, Step, Tabled};
use second::line::{pack, DEVICES};
use second::plain::{self, circle, gives, lasting, outermost, successors, Rows};
use second::random::{some_move, Move, Random};
use second::read::{Handed, Lines};
use second::tally::LEAST;
use second::{Line, Refusal, Verb};

/// The longest ring that can be planted: it has every device.
const LONGEST: usize = DEVICES as usize;
/// So many rings of each length are planted.
const RINGS: u64 = 20;
/// The class of the planted rings.
const PLANTED: &str = "wrapper: planted rings, of each length from 1 to 32";
/// Every circle is looked at in full in plans of up to so many lines; in longer ones, which take their time, one is.
const SHORT: usize = 80;

/// The classes besides.
const CLASSES: [&str; 11] = [
    "wrapper: a shortest circle of 1 device",
    "wrapper: a shortest circle of 2 devices",
    "wrapper: a shortest circle of 3 devices",
    "wrapper: a shortest circle of 4 devices or more",
    "wrapper: no circle",
    "wrapper: a circle beside two lasting takes of a device",
    "wrapper: no circle beside two lasting takes of a device",
    "wrapper: a text with a line refused",
    "wrapper: moved, accepted",
    "wrapper: moved, refusal 12",
    "wrapper: moved, refusal 13",
];

/// All classes, with the least number that has to be met.
pub fn classes() -> Vec<(String, u64)> {
    let mut classes = CLASSES.map(|class| (class.to_string(), LEAST)).to_vec();
    classes.push((PLANTED.to_string(), RINGS * LONGEST as u64));
    classes
}

/// A refusal as the second program has it.
pub fn as_second(refusal: gimmerskip::Refusal) -> Refusal {
    Refusal { number: refusal.number(), place: refusal.place().into() }
}

/// A line's number, counted from 1.
fn number(at: usize) -> u16 {
    at as u16 + 1
}

/// A plan without a fault, for the wrapper.
fn owned(lines: &[Line]) -> Plan {
    Plan::from_packed(pack(lines)).expect("the plan has no fault")
}

/// Mates, lasting takes and rows.
fn held(run: &mut Run, lines: &[Line], holds: &Holds) {
    let all = 0..=number(lines.len());
    let of_plan = |mut list: Vec<Option<u16>>| {
        // What stands before the first line and after the last holds nothing.
        list.insert(0, None);
        list.push(None);
        list
    };
    let gives = gives(lines);
    let take_of = |give: usize| gives.iter().position(|&other| other == Some(give)).map(number);
    let takes = of_plan((0..lines.len()).map(take_of).collect());
    let mates = of_plan(gives.iter().map(|give| give.map(number)).collect());
    let tally = &mut run.tally;
    let said = all.clone().map(|line| holds.mate(line)).collect();
    tally.compare("holds: the mate of each take", lines, mates, said);
    let said = all.clone().map(|line| holds.take_of(line)).collect();
    tally.compare("holds: the take of each give", lines, takes, said);
    let lasting = lasting(lines);
    let lasts: Vec<u16> =
        (0..lines.len()).filter(|&at| lasting[at].is_some()).map(number).collect();
    let said = all.filter(|&line| holds.lasts(line)).collect();
    tally.compare("holds: the takes that last", lines, lasts, said);
    let keepers = |device: u8| keepers(&lasting, device).map(number).collect::<Vec<u16>>();
    let wanted: Vec<Vec<u16>> = (0..40).map(keepers).collect();
    let said = (0..40).map(|device| holds.lasting_takes(device)).collect();
    tally.compare("holds: the lasting takes of each device", lines, wanted, said);
    tally.compare("holds: the rows", lines, plain::rows(lines), *holds.rows());
}

/// Where the lasting takes of a device stand.
fn keepers(lasting: &[Option<u8>], device: u8) -> impl Iterator<Item = usize> + '_ {
    (0..lasting.len()).filter(move |&at| lasting[at] == Some(device))
}

/// The lines that successors lead to, in no order.
fn behind(lines: &[Line], at: usize) -> Vec<usize> {
    let mut found = successors(lines, at);
    let mut looked_at = 0;
    while let Some(&line) = found.get(looked_at) {
        found.extend(successors(lines, line));
        looked_at += 1;
    }
    found
}

/// The arc from one device to another, by the successors: of the lasting takes the first that has an outermost take of
/// the other device behind it, and of those takes the first.
fn arc(lines: &[Line], device: u8, needs: u8) -> Option<Arc> {
    let (lasting, outermost) = (lasting(lines), outermost(lines));
    let mut arcs = keepers(&lasting, device).filter_map(|at| {
        let takes = behind(lines, at).into_iter().filter(|&line| outermost[line] == Some(needs));
        let then = takes.min().map(number)?;
        Some(Arc { device, job: lines[at].job, line: number(at), then, needs })
    });
    arcs.next()
}

/// Whether a circle begins with the device, goes on from each to what it needs, and closes.
fn closes(arcs: &[Arc], device: u8) -> bool {
    let next = arcs.iter().cycle().skip(1);
    arcs[0].device == device && arcs.iter().zip(next).all(|(arc, next)| arc.needs == next.device)
}

/// The first way of just so many steps, by trying all of them, lower devices first.
fn first_way(rows: &Rows, from: u8, to: u8, steps: u32) -> Option<Vec<u8>> {
    if steps == 0 {
        return (from == to).then(Vec::new);
    }
    let mut next = (0..DEVICES as u8).filter(|&next| rows[usize::from(from)] >> next & 1 == 1);
    next.find_map(|next| Some([vec![next], first_way(rows, next, to, steps - 1)?].concat()))
}

/// No way of fewer steps leads back to the device, and of those with as many the circle is the first. Every way is
/// tried, for which there have to be few devices.
fn is_first(run: &mut Run, lines: &[Line], rows: &Rows, arcs: &[Arc], device: u8) {
    let mut lengths = 1..=DEVICES;
    let first = lengths.find_map(|steps| first_way(rows, device, device, steps));
    let said = arcs.iter().map(|arc| arc.needs).collect();
    run.tally.compare("circle: the first of the shortest ways", lines, first, Some(said));
}

/// One circle: it closes and each of its arcs is there.
fn is_there(run: &mut Run, lines: &[Line], rows: &Rows, arcs: &[Arc], device: u8) {
    run.tally.compare("circle: it closes", lines, true, closes(arcs, device));
    let in_row = |arc: &Arc| rows[usize::from(arc.device)] >> arc.needs & 1 == 1;
    run.tally.compare("circle: each arc is in the rows", lines, true, arcs.iter().all(in_row));
    let wanted: Vec<Option<Arc>> = arcs.iter().map(|a| arc(lines, a.device, a.needs)).collect();
    let said = arcs.iter().copied().map(Some).collect();
    run.tally.compare("circle: each arc is told by its first lines", lines, wanted, said);
}

/// The circles through each device are of the least length there is.
fn circles(run: &mut Run, lines: &[Line], holds: &Holds) {
    let rows = plain::rows(lines);
    for device in 0..DEVICES as u8 {
        let said = holds.circle_through(device);
        let length = said.as_ref().map(|arcs| arcs.len() as u32);
        let wanted = circle(&rows, device.into());
        run.tally.compare("circle: the least length through each device", lines, wanted, length);
        if let Some(arcs) = said.filter(|_| lines.len() <= SHORT) {
            is_there(run, lines, &rows, &arcs, device);
            is_first(run, lines, &rows, &arcs, device);
        }
    }
    let none = (DEVICES as u8..=u8::MAX).find(|&device| holds.circle_through(device).is_some());
    run.tally.compare("circle: none through what is no device", lines, None, none);
}

/// The circle that is told for a plan, beside the proved verdict.
fn told_circle(run: &mut Run, lines: &[Line], plan: &Plan, holds: &Holds) {
    let said = holds.circle();
    let named = said.as_ref().map(|arcs| u64::from(arcs[0].device));
    let rows = plain::rows(lines);
    match plan.verdict().map_err(as_second) {
        Err(Refusal { number: 9, .. }) => {
            let mut devices = 0..DEVICES;
            let lowest = devices.find(|&device| circle(&rows, device).is_some()).map(u64::from);
            let name = "circle: beside refusal 9, through the lowest device that has one";
            run.tally.compare(name, lines, lowest, named);
        }
        verdict => {
            let name = "circle: exactly where the verdict is 10, through the device it names";
            let wanted = verdict.err().map(|refusal| refusal.place);
            run.tally.compare(name, lines, wanted, named);
        }
    }
    if let Some(arcs) = said {
        let device = arcs[0].device;
        let name = "circle: the one told is the one through its device";
        run.tally.compare(name, lines, holds.circle_through(device), Some(arcs.clone()));
        is_there(run, lines, &rows, &arcs, device);
    }
}

/// Counts a plan in its class.
fn sort(run: &mut Run, lines: &[Line], holds: &Holds) {
    let twice = (0..DEVICES as u8).any(|device| holds.lasting_takes(device).len() > 1);
    run.tally.meet(match (plain::shortest_circle(&plain::rows(lines)), twice) {
        (Some(_), true) => "wrapper: a circle beside two lasting takes of a device",
        (None, true) => "wrapper: no circle beside two lasting takes of a device",
        (Some(1), _) => "wrapper: a shortest circle of 1 device",
        (Some(2), _) => "wrapper: a shortest circle of 2 devices",
        (Some(3), _) => "wrapper: a shortest circle of 3 devices",
        (Some(_), _) => "wrapper: a shortest circle of 4 devices or more",
        (None, _) => "wrapper: no circle",
    });
}

/// All that is held in a plan.
fn holds(run: &mut Run, lines: &[Line]) {
    let plan = owned(lines);
    let holds = plan.holds();
    sort(run, lines, &holds);
    held(run, lines, &holds);
    circles(run, lines, &holds);
    told_circle(run, lines, &plan, &holds);
}

/// The steps of a plan, and its order as it is printed.
fn steps(run: &mut Run, lines: &[Line]) {
    let plan = owned(lines);
    let text = second::read::write(lines);
    let steps: Vec<Step> = plan.steps().collect();
    let packed = steps.iter().map(|step| step.packed()).collect();
    run.tally.compare("steps: the packed numbers", lines, pack(lines), packed);
    let written: String = steps.iter().map(|step| format!("{step}\n")).collect();
    run.tally.compare("steps: the text", lines, &text[..], written.as_bytes());
    let by_line = (0..=number(lines.len())).filter_map(|line| plan.step(line)).collect();
    run.tally.compare("steps: one by one", lines, steps, by_line);
    let devices = lines.iter().map(|line| match line.verb {
        Verb::Take(device) | Verb::Give(device) => Some(device),
        Verb::Do(_) | Verb::Start(_) | Verb::Held(_) => None,
    });
    let said = plan.steps().map(Step::device).collect();
    run.tally.compare("steps: the device of each", lines, devices.collect::<Vec<_>>(), said);
    if let Ok(order) = plan.verdict() {
        let wanted = String::from_utf8(plain::printed(&text)).expect("the print is text");
        run.tally.compare("order: as it is printed", lines, wanted, order.to_string());
    }
}

/// The lines of a text that the second program hands out, up to the end or the first refusal.
fn handed_out(text: &[u8]) -> Vec<Result<u32, Refusal>> {
    let mut lines = Lines::new(text);
    let mut handed = Vec::new();
    loop {
        match lines.next_line() {
            Handed::Line(packed) => handed.push(Ok(packed)),
            Handed::Refused(refusal) => {
                handed.push(Err(refusal));
                return handed;
            }
            Handed::End => return handed,
        }
    }
}

/// A text, right or damaged, line by line, and a packed list number by number.
fn lines_of(run: &mut Run, text: &[u8], packed: &[u32]) {
    let wanted = handed_out(text);
    if wanted.last().is_some_and(Result::is_err) {
        run.tally.meet("wrapper: a text with a line refused");
    }
    let lines = gimmerskip::lines(text);
    let said = lines.map(|line| line.map(Step::packed).map_err(as_second)).collect();
    let asked = Asked::Text { text, room: 0 };
    run.tally.compare("lines: those of a text, one after another", &asked, wanted, said);
    let asked = Asked::Packed { plan: packed, room: 0 };
    let parts = |line: Line| (line.job, line.verb.kind(), line.verb.operand());
    let wanted = packed.iter().map(|&number| Line::unpacked(number).map(parts));
    let parts = |step: Step| (step.job, step.verb as u32, step.operand);
    let said = packed.iter().map(|&number| Step::from_packed(number).map(parts));
    let (wanted, said) = (wanted.collect::<Vec<_>>(), said.collect());
    run.tally.compare("steps: those of packed numbers", &asked, wanted, said);
}

/// So many moves of a plan with its own table, beside a plan whose table is kept here, and the second program.
fn moves(run: &mut Run, lines: &[Line], count: usize) {
    let mut plan = owned(lines);
    let mut table = plan.table();
    let mut tabled = Tabled::new(plan.clone());
    for _ in 0..count {
        let Move { line, device } = some_move(&mut run.random, plan.packed());
        let before = (plan.packed().to_vec(), table.clone());
        let asked = Asked::Move { plan: &before.0, sets: &before.1, line, device };
        let (mut second_plan, mut second_table) = before.clone();
        let second = plain::move_claim(&mut second_plan, &mut second_table, line, device);
        let wanted = plan.move_claim(&mut table, line, device);
        let said = tabled.move_claim(line, device);
        let tally = &mut run.tally;
        tally.meet(&match second {
            Ok(_) => "wrapper: moved, accepted".to_string(),
            Err(refusal) => format!("wrapper: moved, refusal {}", refusal.number),
        });
        let by_number = said.map(|count| count as u32).map_err(as_second);
        tally.compare("tabled: the second program's answer to a move", &asked, second, by_number);
        tally.compare("tabled: the answer to a move", &asked, wanted, said);
        tally.compare("tabled: the plan", &asked, &plan, tabled.plan());
        tally.compare("tabled: the table", &asked, &table[..], tabled.table());
        tally.compare("tabled: the table is the plan's", &asked, plan.table(), table.clone());
        tally.compare("tabled: the verdict", &asked, plan.verdict(), tabled.verdict());
    }
    let asked = Asked::Packed { plan: plan.packed(), room: 0 };
    run.tally.compare("tabled: the plan at the end", &asked, plan.clone(), tabled.into_plan());
}

/// A planted ring: the devices as each leads to the next, and the plan. Each is kept by a job that needs the next one
/// afterwards, itself or by a job started for it; a ring of one needs that, for what a job takes again it does not wait
/// for. Nothing else is kept, so that there is no other circle.
fn planted(random: &mut Random, length: usize) -> (Vec<u8>, Vec<Line>) {
    let mut ring: Vec<u8> = (0..DEVICES as u8).collect();
    random.shuffle(&mut ring);
    ring.truncate(length);
    let keeper = |at: usize| at as u8 + 2;
    let start = |at: usize| Line { job: 1, verb: Verb::Start(keeper(at)) };
    let mut lines: Vec<Line> = (0..length).map(start).collect();
    let (mut sent, mut errands) = (keeper(length), Vec::new());
    for at in 0..length {
        let (job, needs) = (keeper(at), ring[(at + 1) % length]);
        let pair = |job| [Verb::Take(needs), Verb::Give(needs)].map(|verb| Line { job, verb });
        lines.push(Line { job, verb: Verb::Take(ring[at]) });
        // The last of a long ring goes by itself, for else the jobs could run out.
        if length == 1 || (at + 1 < length && random.once_in(2)) {
            lines.push(Line { job, verb: Verb::Start(sent) });
            errands.extend(pair(sent));
            sent += 1;
        } else {
            lines.extend(pair(job));
        }
    }
    lines.extend(errands);
    (ring, lines)
}

/// Rings of each length, from one device to all of them.
fn rings(run: &mut Run) {
    for length in (1..=LONGEST).flat_map(|length| [length; RINGS as usize]) {
        let (mut ring, lines) = planted(&mut run.random, length);
        run.tally.meet(PLANTED);
        let lowest = (0..length).min_by_key(|&at| ring[at]).expect("a ring has a device");
        ring.rotate_left(lowest);
        let arcs = owned(&lines).holds().circle().unwrap_or_default();
        let said = arcs.iter().map(|arc| arc.device).collect();
        run.tally.compare("planted ring: the circle is the ring", &lines, ring, said);
        holds(run, &lines);
    }
}

/// All of the wrapper.
pub fn wrapper(run: &mut Run) {
    rings(run);
    for _ in 0..20_000 {
        let plan = if run.random.once_in(4) {
            any_ring(&mut run.random)
        } else {
            short_plan(&mut run.random)
        };
        holds(run, &plan);
        steps(run, &plan);
        moves(run, &plan, 4);
    }
    for _ in 0..300 {
        let plan = long_plan(&mut run.random);
        holds(run, &plan);
        steps(run, &plan);
        moves(run, &plan, 20);
    }
    for _ in 0..4_000 {
        let plan = any_plan(&mut run.random);
        let (packed, text) = forms(&mut run.random, &plan);
        lines_of(run, &text, &packed);
    }
}
