//! Who holds what in a plan, and where it leads: mates, what is taken again, lasting takes, rows, and circles told line
//! by line. A job holds a device from an outermost take on; what it takes again within changes nothing for others.
//!
//! The entries say whether a plan has an order; what is worked out here says why. It rests on the plan's table of
//! claims, which is proved code's, and is else plain Rust, which the comparisons hold against the second program.

use crate::{Plan, Step, Verb};
use core::array;
use std::vec;
use std::vec::Vec;

/// How many devices there are.
const DEVICES: usize = 32;

/// What is held in a plan, and by which lines: [`Plan::holds`] works it out. Lines count from 1; a line or a device
/// that does not exist holds nothing.
///
/// ```
/// use gimmerskip::Plan;
///
/// let plan = Plan::from_text("1\ttake\t3\n1\tgive\t3\n1\ttake\t5\n1\ttake\t3\n")?;
/// let holds = plan.holds();
/// assert_eq!((holds.mate(1), holds.take_of(2)), (Some(2), Some(1)));
/// assert!(holds.lasts(3) && holds.lasts(4));
/// assert_eq!(holds.lasting_takes(3), [4]);
/// assert_eq!(holds.rows()[5], 1 << 3, "device 3 is claimed behind the lasting take of device 5");
/// # Ok::<(), gimmerskip::Refusal>(())
/// ```
#[derive(Clone, Debug, PartialEq, Eq)]
pub struct Holds {
    steps: Vec<Step>,
    pairs: Pairs,
    rows: [u32; DEVICES],
}

/// One step of a circle: `job` keeps `device` from `line` on, which is a lasting take of it; after that, at the line
/// `then`, it or a job started behind that take needs the device `needs`. What is kept cannot be taken any more: so
/// `device` has to be kept before `needs` is, and around a circle that cannot be.
#[derive(Clone, Copy, Debug, PartialEq, Eq, Hash)]
pub struct Arc {
    /// The device that is kept.
    pub device: u8,
    /// The job that keeps it.
    pub job: u8,
    /// The lasting take.
    pub line: u16,
    /// A line behind it that takes `needs`: of all such lines the first in the plan. It stands in the same job, or in
    /// one that is started behind the lasting take.
    pub then: u16,
    /// The device that is needed there.
    pub needs: u8,
}

impl Holds {
    /// Works out what a plan holds.
    pub(crate) fn of_plan(plan: &Plan) -> Holds {
        let steps: Vec<Step> = plan.steps().collect();
        let pairs = Pairs::of(&steps);
        let mut holds = Holds { steps, pairs, rows: [0; DEVICES] };
        let sets = plan.table();
        // A take is no start, so the line that follows in the job is all that comes next.
        let claimed_behind = |line: u16| match holds.steps.get(usize::from(line)) {
            Some(next) if next.job == holds.job(line) => sets[usize::from(line)],
            _ => 0,
        };
        let row = |device: usize| holds.keepers(device as u8).map(claimed_behind);
        holds.rows = array::from_fn(|device| row(device).fold(0, |row, set| row | set));
        holds
    }

    /// The step of a line.
    fn step(&self, line: u16) -> Option<Step> {
        self.steps.get(usize::from(line).checked_sub(1)?).copied()
    }

    /// The job of a line that exists.
    fn job(&self, line: u16) -> u8 {
        self.steps[usize::from(line) - 1].job
    }

    /// Whether a line has this verb.
    fn is(&self, line: u16, verb: Verb) -> bool {
        self.step(line).is_some_and(|step| step.verb == verb)
    }

    /// The other line of a pair, if the line has this verb.
    fn other(&self, line: u16, verb: Verb) -> Option<u16> {
        if !self.is(line, verb) {
            return None;
        }
        self.pairs.other[usize::from(line) - 1]
    }

    /// The give that belongs to the take at this line: `None` if the take has none, or the line is no take. Gives match
    /// the take made last, be it one that takes again or not.
    pub fn mate(&self, line: u16) -> Option<u16> {
        self.other(line, Verb::Take)
    }

    /// The take to which the give at this line belongs: `None` if the line is no give.
    pub fn take_of(&self, line: u16) -> Option<u16> {
        self.other(line, Verb::Give)
    }

    /// The outermost take by which the job of this line holds the device that the line takes or gives: of an outermost
    /// take the line itself, and `None` of a line that neither takes nor gives.
    pub fn outermost(&self, line: u16) -> Option<u16> {
        self.pairs.outermost.get(usize::from(line).checked_sub(1)?).copied()?
    }

    /// Whether this line takes again what its job holds there. Such a take waits for nobody, claims nothing and never
    /// lasts.
    ///
    /// ```
    /// let plan = gimmerskip::Plan::from_text("1\ttake\t3\n1\ttake\t3\n1\tgive\t3\n1\tgive\t3\n")?;
    /// let holds = plan.holds();
    /// assert!(!holds.takes_again(1) && holds.takes_again(2));
    /// assert_eq!((holds.mate(1), holds.mate(2)), (Some(4), Some(3)));
    /// assert!(!holds.frees(3) && holds.frees(4), "the outermost give is the one that frees");
    /// # Ok::<(), gimmerskip::Refusal>(())
    /// ```
    pub fn takes_again(&self, line: u16) -> bool {
        self.is(line, Verb::Take) && self.outermost(line) != Some(line)
    }

    /// Whether this line is an outermost give, with which the device is free: after any other its job still holds it.
    pub fn frees(&self, line: u16) -> bool {
        self.take_of(line).is_some_and(|take| !self.takes_again(take))
    }

    /// Whether this line is a lasting take, an outermost one without a give: its device stays held to the end.
    pub fn lasts(&self, line: u16) -> bool {
        self.outermost(line) == Some(line) && self.mate(line).is_none()
    }

    /// The lasting takes of a device, going down the plan.
    fn keepers(&self, device: u8) -> impl Iterator<Item = u16> + '_ {
        let lines = (1..).zip(&self.steps);
        let of_device = lines.filter(move |(_, step)| step.device() == Some(device));
        of_device.map(|(line, _)| line).filter(|&line| self.lasts(line))
    }

    /// The lines with the lasting takes of a device, ascending. There is more than one where the verdict is refusal 9.
    pub fn lasting_takes(&self, device: u8) -> Vec<u16> {
        self.keepers(device).collect()
    }

    /// The rows: for each device the set of the devices that are claimed behind its lasting takes, device d being bit
    /// d. A device that is not held to the end has an empty row.
    pub fn rows(&self) -> &[u32; DEVICES] {
        &self.rows
    }

    /// A shortest circle through the lowest device that leads back to itself, or `None` where none does. That is the
    /// device that refusal 10 names. It is looked for whether or not refusal 9, which comes first, has something to
    /// say.
    ///
    /// ```
    /// use gimmerskip::{Arc, Plan};
    ///
    /// let jobs = ["1 start 2", "1 take 0", "1 take 1", "1 give 1", "2 take 1", "2 take 0", "2 give 0"];
    /// let text: String = jobs.iter().map(|line| line.replace(' ', "\t") + "\n").collect();
    /// let plan = Plan::from_text(&text)?;
    /// let circle = plan.holds().circle().expect("the verdict is refusal 10");
    /// assert_eq!(circle, [
    ///     Arc { device: 0, job: 1, line: 2, then: 3, needs: 1 },
    ///     Arc { device: 1, job: 2, line: 5, then: 6, needs: 0 },
    /// ]);
    /// # Ok::<(), gimmerskip::Refusal>(())
    /// ```
    pub fn circle(&self) -> Option<Vec<Arc>> {
        (0..DEVICES as u8).find_map(|device| self.circle_through(device))
    }

    /// A shortest circle through this device, or `None` where it does not lead back to itself. The first arc is that of
    /// the device; each needs the device of the next, and the last one needs the device of the first. Of several
    /// shortest circles it is the one that goes on to the lowest device each time.
    pub fn circle_through(&self, device: u8) -> Option<Vec<Arc>> {
        let steps_away = self.ways_back(device)?;
        let mut kept = device;
        let arcs = steps_away.iter().rev().map(|&nearer| {
            let needs = lowest(self.rows[usize::from(kept)] & nearer);
            self.arc(core::mem::replace(&mut kept, needs), needs)
        });
        arcs.collect()
    }

    /// For each number of steps that is less than a shortest circle through the device has, from nought, the devices
    /// that lead to it in just so many steps.
    fn ways_back(&self, device: u8) -> Option<Vec<u32>> {
        let mut ways = vec![1_u32.checked_shl(device.into())?];
        // A shortest circle meets no device twice, so it has no more steps than there are devices.
        while ways.len() <= DEVICES {
            let further = self.leading_to(ways[ways.len() - 1]);
            if further >> device & 1 == 1 {
                return Some(ways);
            }
            ways.push(further);
        }
        None
    }

    /// The devices that have one of the set in their rows.
    fn leading_to(&self, set: u32) -> u32 {
        let leads = |device: &usize| self.rows[*device] & set != 0;
        (0..DEVICES).filter(leads).fold(0, |near, device| near | 1 << device)
    }

    /// The arc from a device to one in its row: of its lasting takes, the first that has such a line behind it.
    fn arc(&self, device: u8, needs: u8) -> Option<Arc> {
        self.keepers(device).find_map(|line| {
            let then = self.take_behind(line, needs)?;
            Some(Arc { device, job: self.job(line), line, then, needs })
        })
    }

    /// The first line behind this one that takes the device, and not again: further down in the job, or in a job
    /// started there, and so on. Jobs start later ones only, so that one way down the plan meets all of them.
    fn take_behind(&self, line: u16, device: u8) -> Option<u16> {
        let bit = |job: u8| 1_u64 << (job - 1);
        let mut behind = bit(self.job(line));
        for (at, step) in (1..).zip(&self.steps).skip(line.into()) {
            match step.verb {
                _ if behind & bit(step.job) == 0 => {}
                Verb::Take if step.operand == device && !self.takes_again(at) => return Some(at),
                Verb::Start => behind |= bit(step.operand),
                _ => {}
            }
        }
        None
    }
}

/// What is known of the takes and gives, line by line.
#[derive(Clone, Debug, PartialEq, Eq)]
struct Pairs {
    /// The other line of the pair: of a take its give, of a give its take.
    other: Vec<Option<u16>>,
    /// The outermost take by which the job holds the device.
    outermost: Vec<Option<u16>>,
}

impl Pairs {
    /// Goes through the jobs one after another: what a job leaves in hand at its end, no later one gives.
    fn of(steps: &[Step]) -> Pairs {
        let (other, outermost) = (vec![None; steps.len()], vec![None; steps.len()]);
        let mut pairs = Pairs { other, outermost };
        let mut line = 0;
        for job in steps.chunk_by(|one, next| one.job == next.job) {
            let mut in_hand = InHand { takes: Vec::new(), held: [None; DEVICES] };
            for step in job {
                line += 1;
                match step.verb {
                    Verb::Take => pairs.take(&mut in_hand, line, step.operand),
                    Verb::Give => pairs.give(&mut in_hand, line, step.operand),
                    Verb::Do | Verb::Start => {}
                }
            }
        }
        pairs
    }

    /// The job takes a device. Where it holds it already, the take that it holds it by stays the outermost.
    fn take(&mut self, in_hand: &mut InHand, line: u16, device: u8) {
        in_hand.takes.push(line);
        let held = &mut in_hand.held[usize::from(device)];
        self.outermost[usize::from(line) - 1] = Some(*held.get_or_insert(line));
    }

    /// The job gives what it took last.
    fn give(&mut self, in_hand: &mut InHand, line: u16, device: u8) {
        let take = in_hand.takes.pop().expect("a give of a plan has its take");
        self.other[usize::from(take) - 1] = Some(line);
        self.other[usize::from(line) - 1] = Some(take);
        let held = &mut in_hand.held[usize::from(device)];
        self.outermost[usize::from(line) - 1] = *held;
        *held = held.filter(|&outermost| outermost != take);
    }
}

/// What a job has in hand while its lines are gone through.
struct InHand {
    /// The takes whose gives have not come, the last one at the end.
    takes: Vec<u16>,
    /// For each device the outermost take by which the job holds it.
    held: [Option<u16>; DEVICES],
}

/// The lowest device of a set that has one.
fn lowest(set: u32) -> u8 {
    set.trailing_zeros() as u8
}
