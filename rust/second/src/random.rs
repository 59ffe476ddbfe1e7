//! Plans for the comparisons: a small seeded generator, random well-formed plans, planted rings,
//! whole and cut, takes put into plans where the device is held, and moves.
//!
//! Reads, of document 01: "Rules of a well-formed plan", so that everything made here keeps them,
//! and of document 02: request 2, for what may be taken again. What a ring is for is told by "Claims
//! and rows": random plans alone hardly ever hold a circle of three devices or more.

use crate::line::{Line, Verb, DEVICES, LINES};

/// The generator known as splitmix64: the same seed gives the same plans on every machine.
#[derive(Clone, Debug)]
pub struct Random {
    state: u64,
}

impl Random {
    /// A generator from its seed.
    pub fn new(seed: u64) -> Random {
        Random { state: seed }
    }

    /// The next 64 bits.
    pub fn bits(&mut self) -> u64 {
        self.state = self.state.wrapping_add(0x9e37_79b9_7f4a_7c15);
        let mut mixed = self.state;
        mixed = (mixed ^ (mixed >> 30)).wrapping_mul(0xbf58_476d_1ce4_e5b9);
        mixed = (mixed ^ (mixed >> 27)).wrapping_mul(0x94d0_49bb_1331_11eb);
        mixed ^ (mixed >> 31)
    }

    /// A number below the bound, which is not nought.
    pub fn below(&mut self, bound: usize) -> usize {
        (self.bits() % bound as u64) as usize
    }

    /// True about once in so many times.
    pub fn once_in(&mut self, times: usize) -> bool {
        self.below(times) == 0
    }

    /// One of the entries of a list that is not empty.
    pub fn one_of<T: Copy>(&mut self, list: &[T]) -> T {
        list[self.below(list.len())]
    }

    /// Shuffles a list.
    pub fn shuffle<T>(&mut self, list: &mut [T]) {
        for last in (1..list.len()).rev() {
            list.swap(last, self.below(last + 1));
        }
    }

    /// So many different devices, in no order.
    pub fn devices(&mut self, count: usize) -> Vec<u8> {
        let mut devices: Vec<u8> = (0..DEVICES as u8).collect();
        self.shuffle(&mut devices);
        devices.truncate(count);
        devices
    }
}

/// A step of a job that has no number yet.
#[derive(Clone, Copy, Debug)]
pub(crate) enum Step {
    Do(u8),
    Take(u8),
    Give(u8),
    /// Starts the job with this place in the sketch.
    Start(usize),
    /// Stands before all other steps of its job.
    Held(u8),
}

/// Jobs without numbers. Each is started once or, in a resumed plan, running; in one of the morning
/// the job at place 0 alone is not started.
#[derive(Clone, Debug)]
pub(crate) struct Sketch {
    pub(crate) jobs: Vec<Vec<Step>>,
}

impl Sketch {
    /// Numbers the jobs at random, each after the one that starts it, and writes the plan.
    pub(crate) fn numbered(&self, random: &mut Random) -> Vec<Line> {
        let mut number = vec![0; self.jobs.len()];
        let mut sequence = Vec::new();
        let mut open = self.running();
        while !open.is_empty() {
            let job = open.swap_remove(random.below(open.len()));
            sequence.push(job);
            number[job] = sequence.len() as u8;
            for step in &self.jobs[job] {
                open.extend(match step {
                    Step::Start(started) => Some(*started),
                    _ => None,
                });
            }
        }
        let line = |job: usize, step: &Step| Line {
            job: number[job],
            verb: match *step {
                Step::Do(code) => Verb::Do(code),
                Step::Take(device) => Verb::Take(device),
                Step::Give(device) => Verb::Give(device),
                Step::Start(started) => Verb::Start(number[started]),
                Step::Held(device) => Verb::Held(device),
            },
        };
        let lines = |&job: &usize| self.jobs[job].iter().map(move |step| line(job, step));
        sequence.iter().flat_map(lines).collect()
    }

    /// The jobs that none starts.
    fn running(&self) -> Vec<usize> {
        let mut running = vec![true; self.jobs.len()];
        for step in self.jobs.iter().flatten() {
            if let Step::Start(started) = step {
                running[*started] = false;
            }
        }
        (0..self.jobs.len()).filter(|&job| running[job]).collect()
    }
}

/// What a random plan is to be like.
#[derive(Clone, Copy, Debug)]
pub struct Wish {
    /// The number of lines.
    pub lines: usize,
    /// The number of jobs, at most that of lines and at most 64.
    pub jobs: usize,
    /// From how many devices it may choose, at most 32.
    pub devices: usize,
    /// Whether each device is to have one lasting take at most.
    pub single: bool,
    /// Whether what comes after a lasting take is to keep clear of the devices of lasting takes
    /// before it, which rules out circles. With `single` it makes plans that are accepted.
    pub rising: bool,
    /// A step is a take without a give about once in so many times, where it can be.
    pub lasting: usize,
    /// So many of a hundred takes, where the job holds something, are of what it holds; with 0
    /// nothing is taken again.
    pub again: usize,
}

/// A random well-formed plan.
pub fn plan(random: &mut Random, wish: Wish) -> Vec<Line> {
    if wish.jobs == 0 {
        return Vec::new();
    }
    let starts = starts(random, wish);
    let lengths = lengths(random, wish, &starts);
    let devices = random.devices(wish.devices);
    let mut maker = Maker::new(random, wish, devices);
    let holds = Holds::default();
    let jobs = (0..wish.jobs).map(|job| maker.job(job, lengths[job], &starts[job], &holds));
    let sketch = Sketch { jobs: jobs.collect() };
    sketch.numbered(random)
}

/// What a running job holds from the beginning, and what it is not to take.
#[derive(Clone, Debug, Default)]
pub(crate) struct Holds {
    /// The devices that it keeps to the end. Gives go backwards, so that these are the oldest.
    pub(crate) kept: Vec<u8>,
    /// The devices that it gives back, the oldest first.
    pub(crate) open: Vec<u8>,
    /// The devices that it is to keep clear of.
    pub(crate) barred: Vec<u8>,
}

/// For each job those it starts. Where the lines wished for are too few, the jobs start one
/// another in a chain, which needs no more lines than there are jobs.
fn starts(random: &mut Random, wish: Wish) -> Vec<Vec<usize>> {
    let mut starts: Vec<Vec<usize>> = vec![Vec::new(); wish.jobs];
    for job in 1..wish.jobs {
        starts[random.below(job)].push(job);
    }
    let least: usize = starts.iter().map(|starts| starts.len().max(1)).sum();
    if least > wish.lines {
        let next = |job| (job + 1..wish.jobs).take(1).collect();
        starts = (0..wish.jobs).map(next).collect();
    }
    starts
}

/// The lengths of the jobs: room for the starts, one line at least, the rest spread at random.
fn lengths(random: &mut Random, wish: Wish, starts: &[Vec<usize>]) -> Vec<usize> {
    let mut lengths: Vec<usize> = starts.iter().map(|starts| starts.len().max(1)).collect();
    let least: usize = lengths.iter().sum();
    for _ in least..wish.lines {
        lengths[random.below(wish.jobs)] += 1;
    }
    lengths
}

/// Makes the jobs of one plan, one after another.
pub(crate) struct Maker<'a> {
    pub(crate) random: &'a mut Random,
    wish: Wish,
    devices: Vec<u8>,
    /// The devices of lasting takes so far, and of what running jobs keep to the end.
    pub(crate) lasted: Vec<u8>,
    /// For each job the first device (as a place in `devices`) that it may take, in a rising plan.
    floor: Vec<usize>,
}

/// A job while it is being made.
struct Making {
    steps: Vec<Step>,
    /// Devices of takes whose gives are still to come, last one at the end.
    open: Vec<u8>,
    /// Devices of this job's lasting takes.
    kept: Vec<u8>,
    /// Devices that this job is to keep clear of.
    barred: Vec<u8>,
    /// Jobs still to be started.
    starts: Vec<usize>,
    floor: usize,
}

impl<'a> Maker<'a> {
    /// Begins a plan over these devices.
    pub(crate) fn new(random: &'a mut Random, wish: Wish, devices: Vec<u8>) -> Maker<'a> {
        Maker { random, wish, devices, lasted: Vec::new(), floor: vec![0; wish.jobs] }
    }

    /// Makes a job of so many lines, those for what it holds among them.
    pub(crate) fn job(
        &mut self,
        job: usize,
        length: usize,
        starts: &[usize],
        holds: &Holds,
    ) -> Vec<Step> {
        let mut making = Making {
            steps: holds.kept.iter().chain(&holds.open).map(|&device| Step::Held(device)).collect(),
            open: holds.open.clone(),
            kept: holds.kept.clone(),
            barred: holds.barred.clone(),
            starts: starts.to_vec(),
            floor: self.floor[job],
        };
        self.random.shuffle(&mut making.starts);
        while making.steps.len() < length {
            let owed = making.open.len() + making.starts.len();
            let spare = length - making.steps.len() - owed;
            let step = self.step(&mut making, spare);
            making.steps.push(step);
        }
        making.steps
    }

    /// The next step. So many lines are spare beside the gives and starts that are owed. A take
    /// without a give can stand only where none is owed, whether it takes again or not.
    fn step(&mut self, making: &mut Making, spare: usize) -> Step {
        let lasts = making.open.is_empty() && self.random.once_in(self.wish.lasting);
        if spare >= 1 && lasts {
            if let Some(device) = self.device(making, true) {
                return Step::Take(device);
            }
        }
        if spare >= 2 && self.random.below(3) > 0 {
            if let Some(device) = self.device(making, false) {
                making.open.push(device);
                return Step::Take(device);
            }
        }
        if spare == 0 || self.random.once_in(2) {
            if let Some(step) = self.owed(making) {
                return step;
            }
        }
        Step::Do(self.random.below(256) as u8)
    }

    /// A give or a start that is owed, if any.
    fn owed(&mut self, making: &mut Making) -> Option<Step> {
        let start_first = making.open.is_empty() || self.random.once_in(2);
        if start_first {
            if let Some(job) = making.starts.pop() {
                self.floor[job] = making.floor;
                return Some(Step::Start(job));
            }
        }
        making.open.pop().map(Step::Give)
    }

    /// A device the job may take now, for a pair or for a take without a give.
    fn device(&mut self, making: &mut Making, lasting: bool) -> Option<u8> {
        let held = [&making.open[..], &making.kept].concat();
        if !held.is_empty() && self.random.below(100) < self.wish.again {
            return Some(self.random.one_of(&held));
        }
        self.other_device(making, lasting)
    }

    /// A device the job does not hold, for a pair or for a lasting take.
    fn other_device(&mut self, making: &mut Making, lasting: bool) -> Option<u8> {
        let count = self.devices.len();
        if making.floor >= count {
            return None;
        }
        let place = making.floor + self.random.below(count - making.floor);
        let device = self.devices[place];
        let held = making.open.contains(&device) || making.kept.contains(&device);
        if held
            || making.barred.contains(&device)
            || (lasting && self.wish.single && self.lasted.contains(&device))
        {
            return None;
        }
        if lasting {
            making.kept.push(device);
            self.lasted.push(device);
            if self.wish.rising {
                making.floor = place + 1;
            }
        }
        Some(device)
    }
}

/// A wish for a random plan of up to so many lines, mostly without a device lasting twice.
pub fn wish(random: &mut Random, most_lines: usize, most_jobs: usize, devices: usize) -> Wish {
    let lines = random.below(most_lines + 1);
    Wish {
        lines,
        jobs: lines.min(1 + random.below(most_jobs)),
        devices: 1 + random.below(devices),
        single: !random.once_in(8),
        rising: false,
        lasting: 1 + random.below(4),
        again: share(random),
    }
}

/// A wish for a plan up to the limits, which mostly has an order.
pub fn large_wish(random: &mut Random) -> Wish {
    Wish {
        lines: 500 + random.below(LINES - 499),
        jobs: 1 + random.below(64),
        devices: 1 + random.below(32),
        single: !random.once_in(8),
        rising: !random.once_in(8),
        lasting: 2 + random.below(8),
        again: share(random),
    }
}

/// How many of a hundred takes, where the job holds something, are to be of what it holds: none in a
/// quarter of all plans, and so that of all takes it comes to about a fifth.
pub fn share(random: &mut Random) -> usize {
    random.one_of(&[0, 20, 40, 60])
}

/// A wish for a plan of a job or two in which a device is taken more often than a byte can count.
pub fn deep_wish(random: &mut Random) -> Wish {
    Wish {
        lines: LINES - random.below(64),
        jobs: 1 + usize::from(random.once_in(8)),
        devices: 1 + random.below(3),
        single: true,
        rising: true,
        lasting: 2 + random.below(8),
        again: 97,
    }
}

/// What keeps a ring from closing.
#[derive(Clone, Copy, Debug, PartialEq, Eq)]
pub enum Cut {
    /// Nothing: the ring is whole.
    Whole,
    /// One job wants nothing.
    LeftOut,
    /// One job gives back what it holds, before it wants or after.
    GivenBack,
}

/// A plan with a planted ring of so many jobs, each with a lasting take of its own device and a
/// wish for that of the next. Devices and jobs have random names, and lines of no weight stand
/// between. A wish may be that of a job started for it; for a ring of one it has to be, for what a
/// job takes again it does not wish for.
pub fn ring(random: &mut Random, length: usize, cut: Cut) -> Vec<Line> {
    let mut names = random.devices(length + 3);
    let noise = names.split_off(length);
    let cut_at = random.below(length);
    let apart = random.once_in(2) as usize;
    let mut jobs: Vec<Vec<Step>> = vec![Vec::new(); apart + length];
    let mut errand_left = true;
    for at in 0..length {
        let (hold, want) = (names[at], names[(at + 1) % length]);
        let on_errand = length == 1 || (errand_left && random.once_in(4));
        errand_left &= !on_errand || length < 4;
        let link = Link {
            hold,
            want,
            errand: on_errand.then_some(jobs.len()),
            cut: if at == cut_at { cut } else { Cut::Whole },
        };
        let (steps, errand) = link.steps(random);
        jobs[apart + at] = steps;
        jobs.extend(errand);
    }
    for job in 1..apart + length {
        plant_start(random, &mut jobs, job);
    }
    make_noise(random, &mut jobs, &noise);
    Sketch { jobs }.numbered(random)
}

/// One job of a ring.
struct Link {
    hold: u8,
    want: u8,
    /// The place of the job that is started for the wish, if there is one.
    errand: Option<usize>,
    cut: Cut,
}

impl Link {
    /// The steps of the job, and those of the job started for its wish.
    fn steps(&self, random: &mut Random) -> (Vec<Step>, Option<Vec<Step>>) {
        let mut want = vec![Step::Take(self.want), Step::Give(self.want)];
        if self.cut == Cut::Whole && random.once_in(16) {
            want.pop();
        }
        if self.cut == Cut::LeftOut {
            want = vec![Step::Do(1)];
        }
        let (inner, errand) = match self.errand {
            Some(place) => (vec![Step::Start(place)], Some(want)),
            None => (want, None),
        };
        let mut steps = vec![Step::Take(self.hold)];
        steps.extend(inner);
        if self.cut == Cut::GivenBack {
            let give = if random.once_in(2) { 1 } else { steps.len() };
            steps.insert(give, Step::Give(self.hold));
        }
        (steps, errand)
    }
}

/// Puts the start of a ring's job into one that stands before it in the sketch: mostly above all
/// that is held there, so that its wishes count for nobody else, and at times anywhere.
fn plant_start(random: &mut Random, jobs: &mut [Vec<Step>], job: usize) {
    let parent = &mut jobs[random.below(job)];
    let is_start = |step: &&Step| matches!(step, Step::Start(_));
    let above = parent.iter().take_while(is_start).count();
    let place =
        if random.once_in(10) { random.below(parent.len() + 1) } else { random.below(above + 1) };
    parent.insert(place, Step::Start(job));
}

/// Scatters actions, and pairs of devices that nobody else takes. A device is used for one pair
/// only, so that no pair comes to stand inside another of the same device.
pub(crate) fn make_noise(random: &mut Random, jobs: &mut [Vec<Step>], devices: &[u8]) {
    for &device in devices {
        let job = random.below(jobs.len());
        let place = random.below(jobs[job].len() + 1);
        match random.below(4) {
            0 => jobs[job].insert(place, Step::Do(device)),
            1 => {
                jobs[job].insert(place, Step::Give(device));
                jobs[job].insert(place, Step::Take(device));
            }
            _ => {}
        }
    }
}

/// Puts a take into a plan, at some place where its job holds the device, and mostly its give, with
/// any lines between that can be. The plan goes as it came where no job holds anything.
pub fn take_again(random: &mut Random, plan: &[Line]) -> Vec<Line> {
    let open = open_takes(plan);
    // Among held lines no take can stand.
    let is_held =
        |at: usize, job: u8| plan.get(at).is_some_and(|line| line.is_held() && line.job == job);
    let may_follow = |at: &usize| !open[*at].is_empty() && !is_held(at + 1, plan[*at].job);
    let places: Vec<usize> = (0..plan.len()).filter(may_follow).collect();
    let mut lines = plan.to_vec();
    if places.is_empty() {
        return lines;
    }
    let above = random.one_of(&places);
    let Line { job, verb } = plan[random.one_of(&open[above])];
    // Up to here nothing that is held above is given back; a pair may close where nothing more is.
    let below = (above..plan.len()).take_while(|&at| open[at].starts_with(&open[above]));
    let below: Vec<usize> = below.collect();
    let ends: Vec<usize> = below.iter().copied().filter(|&at| open[at] == open[above]).collect();
    let given_back = plan.get(above + below.len()).is_some_and(|next| next.job == job);
    if given_back || !random.once_in(4) {
        let give = Line { job, verb: Verb::Give(verb.operand()) };
        lines.insert(random.one_of(&ends) + 1, give);
    }
    lines.insert(above + 1, Line { job, verb: Verb::Take(verb.operand()) });
    lines
}

/// After each line the takes and held lines of its job that are not given back, the last at the end.
fn open_takes(plan: &[Line]) -> Vec<Vec<usize>> {
    let mut open: Vec<usize> = Vec::new();
    let after = |(at, line): (usize, &Line)| {
        open.retain(|&take| plan[take].job == line.job);
        match line.verb {
            Verb::Take(_) | Verb::Held(_) => open.push(at),
            Verb::Give(_) => drop(open.pop()),
            Verb::Do(_) | Verb::Start(_) => {}
        }
        open.clone()
    };
    plan.iter().enumerate().map(after).collect()
}

/// A move: what is asked of a plan.
#[derive(Clone, Copy, Debug)]
pub struct Move {
    /// The number of the line, from 1.
    pub line: u32,
    /// The device that it is moved to.
    pub device: u32,
}

/// A move of a packed plan: mostly a take and a device, at times anything.
pub fn some_move(random: &mut Random, plan: &[u32]) -> Move {
    let is_take = |number: &u32| number / 256 % 4 == 1;
    let takes: Vec<usize> = (0..plan.len()).filter(|&at| is_take(&plan[at])).collect();
    let line = match random.below(20) {
        0 => random.below(plan.len() + 3) as u32,
        1 if random.once_in(4) => random.bits() as u32,
        _ if takes.is_empty() => 0,
        _ => random.one_of(&takes) as u32 + 1,
    };
    let device = match random.below(20) {
        0 => DEVICES + random.below(300) as u32,
        1 if random.once_in(4) => random.bits() as u32,
        2..=8 if !takes.is_empty() => plan[random.one_of(&takes)] % 256,
        _ => random.below(DEVICES as usize) as u32,
    };
    Move { line, device }
}
