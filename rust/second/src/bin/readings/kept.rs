//! Comparisons of what is kept beside the table: rows and held set after a move are worked out another
//! way, from the stretches that takes hold and the lines bound to come later, and where they were the
//! plan's own before, they have to be so afterwards. The paragraph is request 4 of document 02.

use crate::by_hand::{bound_after, give_of, outermost_takes, stretch, ByHand};
use second::line::{pack, DEVICES};
use second::plain::{build, move_claim, move_kept, quick, verdict, Beside};
use second::random::{plan, some_move, wish, Move, Random};
use second::read::check_packed;
use second::small::small_plans;
use second::tally::Tally;
use second::Line;

/// All moves are tried for plans of up to so many lines.
const SMALL: usize = 4;

/// What a move that is accepted finds.
pub const CLASSES: [&str; 2] = [
    "move that keeps: lists of the plan's own",
    "move that keeps: other rows, or another held set",
];

/// For each line the device it takes to the end, if it is an outermost take without a give.
fn lasting(plan: &[Line]) -> Vec<Option<u8>> {
    let takes = outermost_takes(plan).into_iter().enumerate();
    takes.map(|(at, device)| device.filter(|_| give_of(plan, at).is_none())).collect()
}

/// The row that a table gives a device: what it stores for the lines right behind its lasting takes.
fn row(plan: &[Line], sets: &[u32], device: usize) -> u32 {
    let lasting = lasting(plan);
    let of = |at: &usize| lasting[*at] == Some(device as u8);
    let behind = (0..plan.len()).filter(of).map(|at| at + 1);
    let in_job = behind.filter(|&at| plan.get(at).is_some_and(|next| next.job == plan[at - 1].job));
    in_job.fold(0, |row, at| row | sets[at])
}

/// Rows and held set after an accepted move of the take at this place, with plan and table as it left
/// them. A device is concerned by its lasting takes before the edit alone.
fn kept_by_hand(plan: &[Line], lent: &Beside, to: Move, edited: &[Line], sets: &[u32]) -> Beside {
    let at = to.line as usize - 1;
    let two = [u32::from(plan[at].verb.operand()), to.device];
    let way = (0..=at).filter(|&on| bound_after(plan, on)[at]);
    let (mut concerned, lasts) = (two.to_vec(), lasting(plan));
    for on in way.chain(stretch(plan, at)) {
        concerned.extend(lasts[on].map(u32::from));
    }
    let mut kept = Beside { sets: sets.to_vec(), ..lent.clone() };
    for device in concerned {
        kept.rows[device as usize] = row(edited, sets, device as usize);
    }
    for device in two {
        let held = lasting(edited).contains(&Some(device as u8));
        kept.held[0] = kept.held[0] & !(1 << device) | u32::from(held) << device;
    }
    kept
}

/// Compares one move that keeps the rows with the plain one, and what it keeps with what is kept by hand.
fn compare_move(tally: &mut Tally, packed: &mut [u32], beside: &mut Beside, to: Move) {
    let plan = check_packed(packed).expect("the plan is well-formed");
    let (lent, own) = (beside.clone(), *beside == Beside::of(&plan));
    let (mut then, mut sets) = (packed.to_vec(), beside.sets.clone());
    let answer = move_claim(&mut then, &mut sets, to.line, to.device);
    let edited = check_packed(&then).expect("the plan stays well-formed");
    let wanted = match answer {
        Ok(_) => kept_by_hand(&plan, &lent, to, &edited, &sets),
        Err(_) => lent,
    };
    let Beside { sets, rows, held } = beside;
    let said = move_kept(packed, sets, rows, held, to.line, to.device);
    let name = "moves that keep: answer and plan as by the plain move, the lists as by hand";
    let lists = (said, packed.to_vec(), beside.clone());
    tally.compare(name, &plan, (answer, then, wanted), lists);
    if answer.is_ok() {
        tally.meet(CLASSES[usize::from(!own)]);
    }
    if own {
        let name = "moves that keep: what was the plan's own is the edited plan's own";
        tally.compare(name, &plan, Beside::of(&edited), beside.clone());
    }
}

/// Holds what building makes, and the quick verdict by it, against what is worked out by hand.
fn compare_build(tally: &mut Tally, plan: &[Line]) {
    let packed = pack(plan);
    let (mut sets, mut rows, mut held) = (vec![0; plan.len()], [7; DEVICES as usize], [7]);
    let answer = build(&packed, &mut sets, &mut rows, &mut held);
    let claims = ByHand::new(plan).claims();
    let by_hand: Vec<u32> = (0..rows.len()).map(|device| row(plan, &claims, device)).collect();
    let lasting = lasting(plan).into_iter().flatten();
    let wanted = lasting.fold(0, |set: u32, device| set | 1 << device);
    let name = "building: table, rows and held set as by hand";
    let lists = (answer, sets, rows.to_vec(), held);
    tally.compare(name, plan, (Ok(plan.len()), claims, by_hand, [wanted]), lists);
    let name = "building: by its rows the quick verdict is the verdict";
    let wanted = verdict(plan).map(|order| order.held);
    tally.compare(name, plan, wanted, quick(&packed, &rows));
}

/// Moves, several in a row on one plan, that begin with its own lists or with others.
pub fn kept(tally: &mut Tally, random: &mut Random) {
    for round in 0..4_000 {
        let wish = wish(random, 30, 7, 5);
        let plan = plan(random, wish);
        compare_build(tally, &plan);
        let (mut packed, mut beside) = (pack(&plan), Beside::of(&plan));
        if round % 2 == 1 {
            beside.rows.fill_with(|| random.bits() as u32);
            beside.held[0] = random.bits() as u32;
        }
        for _ in 0..4 {
            let to = some_move(random, &packed);
            compare_move(tally, &mut packed, &mut beside, to);
        }
    }
}

/// Every line of every small plan moved to each of its two devices and to a third, with its own lists.
pub fn all_kept(tally: &mut Tally) {
    small_plans(SMALL, &mut |plan| {
        compare_build(tally, plan);
        for at in 0..3 * plan.len() as u32 {
            let to = Move { line: at / 3 + 1, device: at % 3 };
            compare_move(tally, &mut pack(plan), &mut Beside::of(plan), to);
        }
    });
}
