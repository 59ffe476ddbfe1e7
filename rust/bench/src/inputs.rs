//! What both sides are given: accepted plans, the same as text and as packed numbers, orders to judge, and lists of
//! moves.

use crate::again::lengthen;
use bench::fast;
use second::elsewhere::mixed;
use second::line::{pack, Line, Verb};
use second::random::{plan, Random, Wish};
use second::read::write;

/// Lines a size, spread over its plans: small plans are the more, so that the processor comes back to a plan after the
/// same number of lines at every size, and learns the plans of none by heart.
const LINES: usize = 16_384;
/// Moves a size, spread over its plans.
pub const MOVES: usize = 10_000;

const JOBS: usize = 64;
const DEVICES: usize = 32;

/// One plan with what is asked about it.
pub struct Input {
    pub text: Vec<u8>,
    pub plan: Vec<u32>,
    pub table: Vec<u32>,
    pub rows: Vec<u32>,
    pub held: Vec<u32>,
    pub orders: Orders,
}

/// Which order is judged.
#[derive(Clone, Copy, PartialEq, Eq, Debug)]
pub enum Which {
    /// It is the one that the verdict hands out.
    Handed,
    /// It is another legal one, its entries mixed at random.
    Mixed,
    /// It is such a one, in which near the end an entry comes twice.
    Late,
}

impl Which {
    pub fn words(self) -> &'static str {
        match self {
            Which::Handed => "handed out",
            Which::Mixed => "mixed",
            Which::Late => "late fault",
        }
    }
}

/// Orders of one plan.
#[derive(Default)]
pub struct Orders {
    handed: Vec<u16>,
    mixed: Vec<u16>,
    late: Vec<u16>,
}

impl Orders {
    /// Orders besides the one that is handed out. The generator is one for orders alone, so that plans and moves do not
    /// hang on them.
    fn new(random: &mut Random, lines: &[Line], handed: Vec<u16>) -> Orders {
        let mixed = mixed(random, lines, &handed);
        let mut late = mixed.clone();
        let at = late.len() - 1 - random.below(late.len() / 16);
        late[at] = late[at - 1];
        Orders { handed, mixed, late }
    }

    pub fn list(&self, which: Which) -> &[u16] {
        match which {
            Which::Handed => &self.handed,
            Which::Mixed => &self.mixed,
            Which::Late => &self.late,
        }
    }
}

/// A claim to move: of which plan, which line, to which device.
#[derive(Clone, Copy)]
pub struct Move {
    pub plan: usize,
    pub line: u32,
    pub device: u32,
}

/// The inputs of one size.
pub struct Inputs {
    pub lines: usize,
    /// Whether jobs take again what they hold.
    pub again: bool,
    pub plans: Vec<Input>,
    pub moves: Vec<Move>,
}

/// What the plans of a size have in them, taken together.
#[derive(Default)]
pub struct Make {
    pub plans: usize,
    pub takes: usize,
    pub again: usize,
    pub lasting: usize,
    pub deepest_take: usize,
    pub deepest_start: usize,
}

/// A plan of so many lines, which has an order. Where takes of what the job holds are put in, the others are so many
/// fewer that about a fifth of all takes are such.
fn made(random: &mut Random, lines: usize, again: bool) -> Vec<Line> {
    let wish = Wish {
        lines: if again { lines * 7 / 8 } else { lines },
        jobs: JOBS,
        devices: DEVICES,
        single: true,
        rising: true,
        lasting: 6,
        again: 0,
    };
    let mut plan = plan(random, wish);
    lengthen(random, &mut plan, lines);
    plan
}

impl Inputs {
    pub fn new(random: &mut Random, lines: usize, again: bool) -> (Inputs, Make) {
        let mut make = Make::default();
        let mut plans = Vec::new();
        let mut for_orders = random.clone();
        while plans.len() < LINES / lines {
            let made = made(random, lines, again);
            // One that had no order would be no input for these times.
            if let Some(input) = Input::new(&mut for_orders, &made) {
                make.add(&made);
                plans.push(input);
            }
        }
        make.plans = plans.len();
        let mut drawn = |plan: usize| Move::new(random, plan, &plans[plan].plan);
        let moves = (0..MOVES).map(|at| drawn(at % plans.len())).collect();
        (Inputs { lines, again, plans, moves }, make)
    }
}

impl Input {
    /// The plan with all that is asked about it, if it has an order.
    fn new(for_orders: &mut Random, lines: &[Line]) -> Option<Input> {
        let plan = pack(lines);
        let (mut table, mut handed) = (vec![0; plan.len()], vec![0; plan.len()]);
        let (mut rows, mut held) = (vec![0; DEVICES], vec![0]);
        fast::build(&plan, &mut table, &mut rows, &mut held);
        let accepted = fast::verdict(&plan, &mut handed) >> 32 == 0;
        accepted.then(|| {
            let orders = Orders::new(for_orders, lines, handed);
            Input { text: write(lines), plan, table, rows, held, orders }
        })
    }
}

impl Move {
    /// A take of the plan with this place and these lines to any device; at times a line that may be no take, or a
    /// device that may not be on the board.
    pub fn new(random: &mut Random, plan: usize, lines: &[u32]) -> Move {
        let mut at = random.below(lines.len());
        while lines[at] / 256 % 4 != 1 && !random.once_in(100) {
            at = random.below(lines.len());
        }
        let devices = if random.once_in(100) { 2 * DEVICES } else { DEVICES };
        Move { plan, line: at as u32 + 1, device: random.below(devices) as u32 }
    }
}

impl Make {
    fn add(&mut self, lines: &[Line]) {
        let mut depth_of_job = [0; JOBS + 1];
        for job in lines.chunk_by(|one, next| one.job == next.job) {
            self.add_job(job);
            let depth = depth_of_job[usize::from(job[0].job)];
            for line in job {
                if let Verb::Start(started) = line.verb {
                    depth_of_job[usize::from(started)] = depth + 1;
                }
            }
        }
        self.deepest_start = self.deepest_start.max(depth_of_job.into_iter().max().unwrap_or(0));
    }

    /// What one job takes: the devices of its takes that wait for their gives are kept, and which of them it took
    /// again.
    fn add_job(&mut self, lines: &[Line]) {
        let mut in_hand: Vec<(u8, bool)> = Vec::new();
        for line in lines {
            match line.verb {
                Verb::Take(device) => {
                    let again = in_hand.iter().any(|&(held, _)| held == device);
                    in_hand.push((device, again));
                    self.takes += 1;
                    self.again += usize::from(again);
                }
                Verb::Give(_) => drop(in_hand.pop()),
                _ => {}
            }
            self.deepest_take = self.deepest_take.max(in_hand.len());
        }
        self.lasting += in_hand.iter().filter(|(_, again)| !again).count();
    }
}
