//! The verdict: rows, circles, and the order handed out.

use super::claims::own;
use super::scan::{scan, Flags, Jobs, CLAIMS};
use super::{device, job, kind, only_job, operand, refusal, GIVE, LINES, START, TAKE};

/// What a walk back over a plan finds.
struct Found {
    /// Whether each line is a lasting take.
    lasting: [bool; LINES],
    /// The devices held to the end, and those of them with two lasting takes.
    held: u32,
    twice: u32,
    rows: [u32; 32],
    /// How many lines take each device, those not counted that take it again.
    takes: [u32; 32],
}

/// The verdict on a plan, with its order: the number of devices still held.
pub fn verdict(plan: &[u32], order: &mut [u16]) -> u64 {
    let mut flags = [0; LINES];
    let jobs = match scan(plan, &mut flags) {
        Ok(jobs) => jobs,
        Err(refusal) => return refusal,
    };
    let Some(order) = order.get_mut(..plan.len()) else {
        return refusal(11, plan.len());
    };
    let found = walk_back(plan, &flags);
    if found.twice != 0 {
        return refusal(9, found.twice.trailing_zeros() as usize);
    }
    let back = circles(&found.rows);
    if back != 0 {
        return refusal(10, back.trailing_zeros() as usize);
    }
    hand_out(plan, &flags, &jobs, &found, order);
    found.held.count_ones().into()
}

/// Goes back over a plan without a fault. An outermost take lasts if no give wants it; each give has its take in its
/// own job, so none is wanted where a job begins.
fn walk_back(plan: &[u32], flags: &Flags) -> Found {
    let mut found =
        Found { lasting: [false; LINES], held: 0, twice: 0, rows: [0; 32], takes: [0; 32] };
    let mut first = [0; 65];
    let mut wanted = 0;
    for (at, (&line, &flag)) in plan.iter().zip(flags).enumerate().rev() {
        let next = first[job(line)];
        match kind(line) {
            TAKE => {
                if wanted > 0 {
                    wanted -= 1;
                } else if flag == CLAIMS {
                    found.last(line, at, next);
                }
                found.takes[operand(line)] += u32::from(flag & CLAIMS);
                first[job(line)] = next | own(line, flag);
            }
            GIVE => wanted += 1,
            START => first[job(line)] = next | first[operand(line)],
            _ => {}
        }
    }
    found
}

impl Found {
    /// A lasting take, with what its job claims after it.
    fn last(&mut self, line: u32, at: usize, next: u32) {
        self.lasting[at] = true;
        self.twice |= self.held & device(line);
        self.held |= device(line);
        self.rows[operand(line)] |= next;
    }
}

/// The devices that lead back to themselves: what leads to a device leads to all that this one leads to, for one device
/// after another. There is no branch, so that several rows are taken at a time: this is how the library searched before
/// its search was made to need less stack.
pub fn circles(rows: &[u32; 32]) -> u32 {
    let mut rows = *rows;
    for through in 0..32 {
        let row = rows[through];
        for other in &mut rows {
            *other |= row & 0u32.wrapping_sub(*other >> through & 1);
        }
    }
    (0..32).fold(0, |back, device| back | rows[device] & 1 << device)
}

/// The lines that stand next, as sets. Which lines they are is kept apart, so that these stay in registers.
struct Waiting {
    /// The started jobs that can go on: they stand at no lasting take.
    ready: u64,
    /// The devices at whose lasting takes jobs stand.
    standing: u32,
    /// The devices that at most one undone line takes.
    scarce: u32,
}

/// The line that stands next in each job that is ready, and at each device where a job stands.
struct Places {
    of_job: [usize; 65],
    of_device: [usize; 32],
}

/// The order of a plan that has one.
fn hand_out(plan: &[u32], flags: &Flags, jobs: &Jobs, found: &Found, order: &mut [u16]) {
    let mut takes = found.takes;
    let scarce = (0..32).fold(0, |scarce, device| scarce | u32::from(takes[device] <= 1) << device);
    let mut waiting = Waiting { ready: 0, standing: 0, scarce };
    let mut places = Places { of_job: [0; 65], of_device: [0; 32] };
    let (mut at, mut goes_on) = (0, false);
    if !plan.is_empty() {
        waiting.arrive(&mut places, plan, found, 0);
    }
    for entry in order {
        if !goes_on {
            at = waiting.leave(&places);
        }
        *entry = at as u16 + 1;
        let line = plan[at];
        match kind(line) {
            TAKE => {
                takes[operand(line)] -= u32::from(flags[at] & CLAIMS);
                if takes[operand(line)] <= 1 {
                    waiting.scarce |= device(line);
                }
            }
            START => waiting.arrive(&mut places, plan, found, jobs.first[operand(line)] - 1),
            _ => {}
        }
        at += 1;
        let in_job = at < plan.len() && job(plan[at]) == job(line);
        // The jobs that it has started are higher, so a job that can go on is the lowest.
        goes_on = in_job && !found.lasting[at];
        if in_job && !goes_on {
            waiting.arrive(&mut places, plan, found, at);
        }
    }
}

impl Waiting {
    /// The line comes to stand next.
    fn arrive(&mut self, places: &mut Places, plan: &[u32], found: &Found, at: usize) {
        let line = plan[at];
        if found.lasting[at] {
            self.standing |= device(line);
            places.of_device[operand(line)] = at;
        } else {
            self.ready |= only_job(job(line));
            places.of_job[job(line)] = at;
        }
    }

    /// The line that goes next, by (a), else by (b).
    fn leave(&mut self, places: &Places) -> usize {
        if self.ready != 0 {
            let job = self.ready.trailing_zeros() as usize + 1;
            self.ready ^= only_job(job);
            return places.of_job[job];
        }
        let device = (self.standing & self.scarce).trailing_zeros() as usize;
        self.standing ^= 1 << device;
        places.of_device[device]
    }
}
