//! Comparisons of moves: each is worked out another way, and where the table was right before, it
//! has to be that of the edited plan afterwards. The paragraphs are "Moving a claim" of document 01
//! and requests 2 and 5 of document 02.

use crate::by_hand::{bound_after, give_of, outermost_takes, stretch};
use second::damage::stale_table;
use second::line::{pack, Settings, DEVICES, MORNING};
use second::plain::{move_claim_by, table};
use second::random::{plan, some_move, wish, Move, Random};
use second::read::check_packed_by;
use second::small::small_plans;
use second::tally::Tally;
use second::{shapes, Line, Refusal, Verb};

/// All moves are tried for plans of up to so many lines.
const SMALL: usize = 5;

/// A move as the caller sees it: what is lent, and what is asked.
#[derive(Clone)]
pub struct Asked {
    pub settings: Settings,
    pub plan: Vec<u32>,
    pub sets: Vec<u32>,
    pub to: Move,
}

impl Asked {
    /// The plan, which is well-formed.
    fn lines(&self) -> Vec<Line> {
        check_packed_by(self.settings, &self.plan).expect("the plan is well-formed")
    }
}

/// The outcome of a move: the lists afterwards, and the answer.
type Outcome = (Vec<u32>, Vec<u32>, Result<u32, Refusal>);

/// What the line takes, joined with what is stored for the lines that follow it. Followers are found from
/// their own side: the line below in the same job, and the first line of a job started here.
fn stored_join(plan: &[Line], takes: &[Option<u8>], sets: &[u32], at: usize) -> u32 {
    let own = takes[at].map_or(0, |device| 1 << device);
    let follows = |next: usize| {
        let same_job = next == at + 1 && plan[next].job == plan[at].job;
        let first = plan[next - 1].job != plan[next].job;
        same_job || (first && plan[at].verb == Verb::Start(plan[next].job))
    };
    let next = (at + 1..plan.len()).filter(|&next| follows(next));
    next.fold(own, |set, next| set | sets[next])
}

/// The plan with the take at this place, and its give, moved.
fn edit_by_hand(plan: &[Line], at: usize, device: u8) -> Vec<Line> {
    let mut edited = plan.to_vec();
    edited[at].verb = Verb::Take(device);
    if let Some(give) = give_of(plan, at) {
        edited[give].verb = Verb::Give(device);
    }
    edited
}

/// The table in which the sets of these lines agree with those of their followers, and all others
/// stay. There is one alone, and it is reached in whatever order the lines are gone through.
fn agreeing(plan: &[Line], sets: &[u32], lines: &[usize]) -> Vec<u32> {
    let takes = outermost_takes(plan);
    let mut agreeing = sets.to_vec();
    loop {
        let before = agreeing.clone();
        for &on in lines {
            agreeing[on] = stored_join(plan, &takes, &agreeing, on);
        }
        if agreeing == before {
            return agreeing;
        }
    }
}

/// What a move of a well-formed plan has to bring, worked out another way: the way is made of the
/// lines that the moved one is bound to come after, and the table is found by what it has to be.
fn move_by_hand(asked: &Asked) -> Outcome {
    let refused = |number: u32, place: usize| {
        let answer = Err(Refusal::at(number, place));
        (asked.plan.clone(), asked.sets.clone(), answer)
    };
    let plan = asked.lines();
    if asked.sets.len() < plan.len() {
        return refused(11, plan.len());
    }
    let at = (asked.to.line as usize).wrapping_sub(1);
    if !plan.get(at).is_some_and(|line| matches!(line.verb, Verb::Take(_))) {
        return refused(12, asked.to.line as usize);
    }
    if asked.to.device >= DEVICES {
        return refused(13, asked.to.device as usize);
    }
    let way = (0..=at).rev().filter(|&on| bound_after(&plan, on)[at]);
    let may_change: Vec<usize> = way.chain(stretch(&plan, at)).collect();
    let takes = outermost_takes(&plan);
    let stale = |on: &&usize| asked.sets[**on] != stored_join(&plan, &takes, &asked.sets, **on);
    if let Some(&on) = may_change.iter().find(stale) {
        return refused(14, on + 1);
    }
    let edited = edit_by_hand(&plan, at, asked.to.device as u8);
    let sets = agreeing(&edited, &asked.sets, &may_change);
    let changed = sets.iter().zip(&asked.sets).filter(|(new, old)| new != old).count();
    (pack(&edited), sets, Ok(changed as u32))
}

/// Counts the move in its classes.
fn sort_move(tally: &mut Tally, plan: &[Line], asked: &Asked, answer: Result<u32, Refusal>) {
    if let Err(refusal) = answer {
        tally.meet(&format!("move: refusal {}", refusal.number));
    }
    for shape in shapes::of_move(plan, &asked.sets, asked.to, answer.map(u64::from)) {
        tally.meet(&format!("move: {shape}"));
    }
}

/// Compares one move. Where the table was that of the plan, it has to be that of the edited plan
/// afterwards, worked out afresh. Carries the lists on to the next move.
pub fn compare_move(tally: &mut Tally, asked: &mut Asked) -> Result<u32, Refusal> {
    let plan = asked.lines();
    let (before, wanted) = (asked.clone(), move_by_hand(asked));
    let Asked { settings, plan: packed, sets, to } = asked;
    let answer = move_claim_by(*settings, packed, sets, to.line, to.device);
    if *settings == MORNING {
        sort_move(tally, &plan, &before, answer);
    }
    let outcome = (asked.plan.clone(), asked.sets.clone(), answer);
    let name = "moves: answer, plan and table as worked out by hand";
    tally.compare(name, &plan, wanted, outcome);
    let after = check_packed_by(asked.settings, &asked.plan);
    tally.compare("moves: the plan stays well-formed", &plan, true, after.is_ok());
    if let (Ok(after), true) = (after, before.sets.starts_with(&table(&plan))) {
        let name = "moves: the table afterwards is that of the plan, worked out afresh";
        let sets = asked.sets[..after.len()].to_vec();
        tally.compare(name, &plan, table(&after), sets);
    }
    answer
}

/// A table of any sort: right, longer than the plan, too short, and with sets that are not what they
/// should be, about the take that is to be moved or anywhere.
pub fn some_table(random: &mut Random, plan: &[Line], to: Move) -> Vec<u32> {
    let mut sets = table(plan);
    if random.once_in(3) {
        sets = stale_table(random, plan, to, &sets);
    }
    sets.extend((0..random.below(3)).map(|_| random.bits() as u32));
    if random.once_in(12) {
        sets.truncate(random.below(plan.len() + 1));
    }
    if !sets.is_empty() && random.once_in(4) {
        let place = random.below(sets.len());
        sets[place] ^= 1 << random.below(32);
    }
    sets
}

/// Moves, several in a row on one plan, with tables of all sorts.
pub fn moves(tally: &mut Tally, random: &mut Random) {
    for _ in 0..8_000 {
        let wish = wish(random, 40, 7, 5);
        let plan = plan(random, wish);
        let to = some_move(random, &pack(&plan));
        let sets = some_table(random, &plan, to);
        let mut asked = Asked { settings: MORNING, plan: pack(&plan), sets, to };
        for _ in 0..4 {
            let _ = compare_move(tally, &mut asked);
            asked.to = some_move(random, &asked.plan);
        }
    }
}

/// The table, and each in which one of three devices stands wrongly in one set.
fn own_and_spoilt(own: Vec<u32>) -> Vec<Vec<u32>> {
    let mut tables = vec![own.clone()];
    for (place, device) in (0..own.len()).flat_map(|place| [(place, 0), (place, 1), (place, 2)]) {
        let mut sets = own.clone();
        sets[place] ^= 1 << device;
        tables.push(sets);
    }
    tables
}

/// Every line of every small plan moved to each of its two devices and to a third, with its own
/// table and with each that is wrong in one set.
pub fn all_moves(tally: &mut Tally) {
    small_plans(SMALL, &mut |plan| {
        for sets in own_and_spoilt(table(plan)) {
            for at in 0..3 * plan.len() as u32 {
                let to = Move { line: at / 3 + 1, device: at % 3 };
                let (settings, plan, sets) = (MORNING, pack(plan), sets.clone());
                let _ = compare_move(tally, &mut Asked { settings, plan, sets, to });
            }
        }
    });
}
