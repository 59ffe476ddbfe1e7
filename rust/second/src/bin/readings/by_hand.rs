//! Claims, the refusal of a verdict and the order handed out, worked out by means that the second
//! reading does not use: claims and refusal from what is bound to come later by the paragraph
//! "Legal orders" of document 01 and from the closing sentence of "Claims and rows", the order
//! by asking (a) and (b) of "The order handed out" anew of all that has been done so far. What
//! request 2 of document 02 says of takes inside others goes by the stretches that takes hold, and what
//! request 5 says of held lines by the gives that have to come before others.

use second::line::DEVICES;
use second::{Line, Refusal, Verb};

/// Which lines are bound to come after this one, itself among them, by the sentences on line
/// order and on starts in "Legal orders".
pub fn bound_after(plan: &[Line], at: usize) -> Vec<bool> {
    let mut bound = vec![false; plan.len()];
    let mut started = [false; 65];
    for here in at..plan.len() {
        let job = plan[here].job;
        let same_job = here > at && plan[here - 1].job == job && bound[here - 1];
        bound[here] = here == at || same_job || started[usize::from(job)];
        if let (true, Verb::Start(job)) = (bound[here], plan[here].verb) {
            started[usize::from(job)] = true;
        }
    }
    bound
}

/// The line after a take or held line up to which as many gives as such lines have passed, which is its
/// give; none where the job ends before.
pub fn give_of(plan: &[Line], take: usize) -> Option<usize> {
    let mut open = 0;
    let mut of_job = (take..plan.len()).take_while(|&line| plan[line].job == plan[take].job);
    of_job.find(|&line| {
        match plan[line].verb {
            Verb::Take(_) | Verb::Held(_) => open += 1,
            Verb::Give(_) => open -= 1,
            Verb::Do(_) | Verb::Start(_) => {}
        }
        open == 0
    })
}

/// The lines of a take's job from the take up to its give, or to the job's end, without these two.
pub fn stretch(plan: &[Line], take: usize) -> Vec<usize> {
    let end = give_of(plan, take).unwrap_or(plan.len());
    (take + 1..end).filter(|&line| plan[line].job == plan[take].job).collect()
}

/// For each line the device it takes, if it stands in no stretch in which its job has that device.
pub fn outermost_takes(plan: &[Line]) -> Vec<Option<u8>> {
    let mut takes: Vec<Option<u8>> = plan.iter().map(|line| line.takes()).collect();
    let has = |line: usize| matches!(plan[line].verb, Verb::Take(_) | Verb::Held(_));
    for outer in (0..plan.len()).filter(|&line| has(line)) {
        let device = plan[outer].verb.operand();
        for inner in stretch(plan, outer) {
            if plan[inner].verb == Verb::Take(device) {
                takes[inner] = None;
            }
        }
    }
    takes
}

/// The held lines.
fn held_lines(plan: &[Line]) -> impl Iterator<Item = usize> + '_ {
    (0..plan.len()).filter(|&line| plan[line].is_held())
}

/// Closes a relation by steps over each of its members in turn.
fn close(leads: &mut [Vec<bool>]) {
    for over in 0..leads.len() {
        let through = leads[over].clone();
        for far in leads.iter_mut().filter(|far| far[over]) {
            for (far, led) in far.iter_mut().zip(&through) {
                *far |= led;
            }
        }
    }
}

/// A plan, by hand.
pub struct ByHand<'a> {
    plan: &'a [Line],
    outermost: Vec<Option<u8>>,
}

impl ByHand<'_> {
    pub fn new(plan: &[Line]) -> ByHand<'_> {
        ByHand { plan, outermost: outermost_takes(plan) }
    }

    /// The claim set of each line: what the lines bound to come after it take.
    pub fn claims(&self) -> Vec<u32> {
        let claims = |at: usize| {
            let lines = bound_after(self.plan, at).into_iter().zip(&self.outermost);
            let taken = lines.filter_map(|(bound, &device)| device.filter(|_| bound));
            taken.fold(0, |set, device| set | 1 << device)
        };
        (0..self.plan.len()).map(claims).collect()
    }

    /// The device of a lasting take: one that is outermost and never given back.
    fn lasting(&self, at: usize) -> Option<u8> {
        self.outermost[at].filter(|_| give_of(self.plan, at).is_none())
    }

    /// The refusal of a verdict, worked out by other means: which device is bound to be taken after
    /// which lasting one, closed by steps over each device in turn; and last what is held.
    pub fn refusal(&self) -> Option<Refusal> {
        let mut times = [0; DEVICES as usize];
        let mut leads = vec![vec![false; DEVICES as usize]; DEVICES as usize];
        for at in held_lines(self.plan).filter(|&at| give_of(self.plan, at).is_none()) {
            times[usize::from(self.plan[at].verb.operand())] += 1;
        }
        for at in 0..self.plan.len() {
            let Some(from) = self.lasting(at).map(usize::from) else { continue };
            times[from] += 1;
            let bound = bound_after(self.plan, at);
            for later in (at + 1..self.plan.len()).filter(|&later| bound[later]) {
                if let Some(device) = self.outermost[later] {
                    leads[from][usize::from(device)] = true;
                }
            }
        }
        let devices = 0..DEVICES as usize;
        close(&mut leads);
        let twice = devices.clone().find(|&device| times[device] > 1);
        let back = || devices.clone().find(|&device| leads[device][device]);
        let nine = twice.map(|device| Refusal::at(9, device));
        let ten = || back().or_else(|| self.held_in_the_way());
        nine.or_else(|| ten().map(|device| Refusal::at(10, device)))
    }

    /// The lowest held device, where held lines leave no order: one is kept to the end that somebody is
    /// to take, or the gives of two would each have to come before that of the other.
    fn held_in_the_way(&self) -> Option<usize> {
        let held: Vec<usize> = held_lines(self.plan).collect();
        let gives: Vec<Option<usize>> = held.iter().map(|&at| give_of(self.plan, at)).collect();
        let device = |of: usize| self.plan[held[of]].verb.operand();
        let takes = |of: usize| {
            (0..self.plan.len()).filter(move |&at| self.outermost[at] == Some(device(of)))
        };
        // What one wants before its give has to be given back by the other before that.
        let after = |of: usize, other: usize| {
            let Some(give) = gives[of] else { return false };
            let wants = |at: usize| at < give && self.plan[at].job == self.plan[give].job;
            self.plan[held[of]].job != self.plan[held[other]].job && takes(other).any(wants)
        };
        let all = 0..held.len();
        let row = |of: usize| all.clone().map(|other| after(of, other)).collect();
        let mut waits: Vec<Vec<bool>> = all.clone().map(row).collect();
        close(&mut waits);
        let kept_and_wanted = |of: usize| gives[of].is_none() && takes(of).next().is_some();
        let in_the_way = all.clone().any(|of| waits[of][of] || kept_and_wanted(of));
        in_the_way.then(|| all.map(|of| usize::from(device(of))).min()).flatten()
    }

    /// The first give of a held line that is still to come and up to which its job wants nothing that
    /// another's held line has.
    fn can_be_closed(&self, done: &[usize]) -> Option<usize> {
        let is_open =
            |held: usize| give_of(self.plan, held).is_none_or(|give| !done.contains(&give));
        let has = |job: u8, device: u8| {
            let of = |&held: &usize| self.plan[held].verb == Verb::Held(device);
            held_lines(self.plan).filter(of).any(|held| self.plan[held].job != job && is_open(held))
        };
        let is_free = |give: usize| {
            let job = self.plan[give].job;
            let steps = (0..give).filter(|at| self.plan[*at].job == job && !done.contains(at));
            steps.filter_map(|at| self.outermost[at]).all(|device| !has(job, device))
        };
        let gives = held_lines(self.plan).filter(|&held| is_open(held));
        gives.filter_map(|held| give_of(self.plan, held)).filter(|&give| is_free(give)).min()
    }

    /// The order by (a) and (b), once what is under way is closed. It ends short where neither finds a
    /// line.
    pub fn order(&self) -> Vec<u16> {
        let held: Vec<usize> = held_lines(self.plan).collect();
        let mut done = held.clone();
        while let Some(give) = self.can_be_closed(&done) {
            let job = self.plan[give].job;
            let steps = (0..=give).filter(|at| self.plan[*at].job == job && !done.contains(at));
            let steps: Vec<usize> = steps.collect();
            done.extend(steps);
        }
        while done.len() < self.plan.len() {
            let standing = standing(self.plan, &done);
            if let Some(&at) = standing.iter().find(|&&at| self.lasting(at).is_none()) {
                done.extend(at..=self.end_of_turn(at));
                continue;
            }
            let is_free = |at: usize| {
                let same = |other: &usize| self.outermost[*other] == self.outermost[at];
                let mut others = (0..self.plan.len()).filter(|other| *other != at).filter(same);
                others.all(|other| done.contains(&other))
            };
            let free = standing.into_iter().filter(|&at| is_free(at));
            match free.min_by_key(|&at| self.outermost[at]) {
                Some(at) => done.push(at),
                None => break,
            }
        }
        done[held.len()..].iter().map(|&at| at as u16 + 1).collect()
    }

    /// The last line of what is done at one go by (a).
    fn end_of_turn(&self, at: usize) -> usize {
        match self.outermost[at] {
            Some(_) => give_of(self.plan, at).expect("the take does not last"),
            None => at,
        }
    }
}

/// The next line of each job that has one and is started or was running, lowest job first.
fn standing(plan: &[Line], done: &[usize]) -> Vec<usize> {
    let start = |job: u8| plan.iter().position(|line| line.verb == Verb::Start(job));
    let started = |job: u8| start(job).is_none_or(|start| done.contains(&start));
    let undone = |job: u8| (0..plan.len()).find(|at| plan[*at].job == job && !done.contains(at));
    (1..=64).filter(|&job| started(job)).filter_map(undone).collect()
}
