//! Resumed plans for the comparisons: random ones, in which some jobs are running and hold devices, and
//! rings of jobs that each hold what the next one wants.
//!
//! Reads, of document 02: request 5, so that everything made here keeps its rules, and of document 01:
//! "Rules of a well-formed plan". What a ring is for is told by the segments of request 5: it takes eight
//! lines at least until the stretches under way cannot be closed.

use crate::line::{Line, Verb};
use crate::random::{large_wish, make_noise, wish, Cut, Holds, Maker, Random, Sketch, Step, Wish};

/// What a random resumed plan is to be like.
#[derive(Clone, Copy, Debug)]
pub struct Midday {
    /// What its jobs are to be like. The lines are with held ones.
    pub wish: Wish,
    /// So many of a hundred jobs but the first are running.
    pub running: usize,
    /// How many devices are held from the beginning, where there are lines and running jobs for it, and
    /// as many devices.
    pub held: usize,
    /// So many of a hundred of these are kept to the end.
    pub kept: usize,
    /// Whether jobs are to keep clear of what is kept to the end, and of what jobs behind them hold: then
    /// the stretches under way can be closed.
    pub clear: bool,
}

/// A random resumed plan.
pub fn plan(random: &mut Random, midday: Midday) -> Vec<Line> {
    let wish = midday.wish;
    if wish.jobs == 0 {
        return Vec::new();
    }
    let devices = random.devices(wish.devices);
    let mut outline = Outline::new(random, midday);
    outline.hold(random, midday, &devices);
    if midday.clear {
        outline.keep_clear();
    }
    let lengths = outline.lengths(random, wish);
    let Outline { starts, holds } = outline;
    let mut maker = Maker::new(random, wish, devices);
    maker.lasted = holds.iter().flat_map(|holds| holds.kept.clone()).collect();
    let job = |job: usize| maker.job(job, lengths[job], &starts[job], &holds[job]);
    let sketch = Sketch { jobs: (0..wish.jobs).map(job).collect() };
    sketch.numbered(random)
}

/// What each job starts, and what it holds from the beginning.
struct Outline {
    starts: Vec<Vec<usize>>,
    holds: Vec<Holds>,
}

impl Outline {
    /// Some jobs start others. Where the lines wished for are too few for that, all are running.
    fn new(random: &mut Random, midday: Midday) -> Outline {
        let jobs = midday.wish.jobs;
        let mut starts: Vec<Vec<usize>> = vec![Vec::new(); jobs];
        for job in 1..jobs {
            if random.below(100) >= midday.running {
                starts[random.below(job)].push(job);
            }
        }
        let mut outline = Outline { starts, holds: vec![Holds::default(); jobs] };
        if outline.least() > midday.wish.lines {
            outline.starts.fill(Vec::new());
        }
        outline
    }

    /// The fewest lines that a job can have: its starts, and what it holds with the gives.
    fn least_of(&self, job: usize) -> usize {
        let Holds { kept, open, .. } = &self.holds[job];
        (self.starts[job].len() + kept.len() + 2 * open.len()).max(1)
    }

    /// The fewest lines of all.
    fn least(&self) -> usize {
        (0..self.starts.len()).map(|job| self.least_of(job)).sum()
    }

    /// Has running jobs hold devices, as long as there are lines for it.
    fn hold(&mut self, random: &mut Random, midday: Midday, devices: &[u8]) {
        let is_running = |job: &usize| !self.starts.iter().flatten().any(|started| started == job);
        let running: Vec<usize> = (0..self.starts.len()).filter(is_running).collect();
        let mut held = devices.to_vec();
        random.shuffle(&mut held);
        for &device in held.iter().take(midday.held) {
            let job = random.one_of(&running);
            let mut holds = self.holds[job].clone();
            let is_kept = random.below(100) < midday.kept;
            if is_kept { &mut holds.kept } else { &mut holds.open }.push(device);
            let before = std::mem::replace(&mut self.holds[job], holds);
            if self.least() > midday.wish.lines {
                self.holds[job] = before;
            }
        }
    }

    /// Bars each job from what others keep to the end and, if it is under way itself, from what jobs
    /// behind it hold, so that the stretches can be closed in the order of the jobs.
    fn keep_clear(&mut self) {
        let holds = self.holds.clone();
        for (job, own) in self.holds.iter_mut().enumerate() {
            for (other, holds) in holds.iter().enumerate().filter(|(other, _)| *other != job) {
                own.barred.extend(&holds.kept);
                if other > job && !own.open.is_empty() {
                    own.barred.extend(&holds.open);
                }
            }
        }
    }

    /// The lengths of the jobs: the fewest lines they can have, the rest spread at random.
    fn lengths(&self, random: &mut Random, wish: Wish) -> Vec<usize> {
        let mut lengths: Vec<usize> = (0..wish.jobs).map(|job| self.least_of(job)).collect();
        for _ in self.least()..wish.lines {
            lengths[random.below(wish.jobs)] += 1;
        }
        lengths
    }
}

/// A wish for a resumed plan of up to so many lines, in most of which something is held.
pub fn midday(random: &mut Random, lines: usize, jobs: usize, devices: usize) -> Midday {
    // Of two the longer: what is held and given back needs two lines.
    let wishes = [(); 2].map(|()| wish(random, lines, jobs, devices));
    let wish = if wishes[0].lines > wishes[1].lines { wishes[0] } else { wishes[1] };
    Midday {
        wish,
        running: random.one_of(&[0, 50, 80, 100]),
        held: if random.once_in(8) { 0 } else { 1 + random.below(wish.devices) },
        kept: random.one_of(&[0, 25, 50]),
        clear: random.once_in(3),
    }
}

/// A wish for a plan up to the limits, which mostly has an order.
pub fn large_midday(random: &mut Random) -> Midday {
    let wish = large_wish(random);
    Midday {
        wish,
        running: random.one_of(&[0, 30, 80, 100]),
        held: if random.once_in(8) { 0 } else { 1 + random.below(wish.devices) },
        kept: random.one_of(&[0, 20, 50]),
        clear: !random.once_in(8),
    }
}

/// The plan with one more job, which is running, and which holds a device and gives it back or keeps it.
/// The device is one of the plan's, mostly, or any.
pub fn beside(random: &mut Random, plan: &[Line]) -> Vec<Line> {
    let job = plan.last().map_or(0, |line| line.job) + 1;
    let is_held = |device: u8| plan.iter().any(|line| line.verb == Verb::Held(device));
    let mut devices: Vec<u8> = plan.iter().filter_map(|line| line.takes()).collect();
    devices.extend(random.devices(2));
    devices.retain(|&device| !is_held(device));
    let mut lines = plan.to_vec();
    if !devices.is_empty() {
        let device = random.one_of(&devices);
        let verbs = [Verb::Held(device), Verb::Do(1), Verb::Give(device)];
        let kept = random.once_in(4) as usize;
        lines.extend(verbs[..3 - kept].iter().map(|&verb| Line { job, verb }));
    }
    lines
}

/// A plan of so many running jobs in a ring, each of which holds a device and, before it gives it back,
/// wants that of the next. Cut, one of them wants nothing or gives back first. Devices and jobs have
/// random names, and lines of no weight stand between.
pub fn held_ring(random: &mut Random, length: usize, cut: Cut) -> Vec<Line> {
    let mut names = random.devices(length + 3);
    let noise = names.split_off(length);
    let cut_at = random.below(length);
    let mut jobs: Vec<Vec<Step>> = Vec::new();
    for at in 0..length {
        let (hold, want) = (names[at], names[(at + 1) % length]);
        let (want, give) = ([Step::Take(want), Step::Give(want)], [Step::Give(hold)]);
        jobs.push(match cut {
            Cut::LeftOut if at == cut_at => give.to_vec(),
            Cut::GivenBack if at == cut_at => [&give[..], &want].concat(),
            _ => [&want[..], &give].concat(),
        });
    }
    make_noise(random, &mut jobs, &noise);
    for (steps, &hold) in jobs.iter_mut().zip(&names) {
        steps.insert(0, Step::Held(hold));
    }
    Sketch { jobs }.numbered(random)
}
