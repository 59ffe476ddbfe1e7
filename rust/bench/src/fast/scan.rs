//! The tests of a plan, line by line as they come and then at its end (refusals 2 to 7).

use super::{device, job, kind, only_job, operand, refusal, GIVE, LINES, START, TAKE};

/// Of each job its first line and the line that starts it, counted from 1; 0 where there is none.
pub struct Jobs {
    pub first: [usize; 65],
    pub starter: [usize; 65],
}

/// What each line does to a device, a flag a line: 0 where nothing changes for other jobs.
pub type Flags = [u8; LINES];

/// The flag of an outermost take: it claims its device, and holds it from there on.
pub const CLAIMS: u8 = 1;
/// The flag of an outermost give: it frees its device.
pub const FREES: u8 = 2;

/// Where the tests stand. What they note in arrays is kept apart, so that this stays in registers.
#[derive(Default)]
pub struct Present {
    /// The job of the latest line, 0 before the first.
    job: usize,
    /// The devices that it holds, and how many of its takes wait for their gives.
    held: u32,
    depth: usize,
    /// The jobs that have lines, and those that were started.
    with_lines: u64,
    started: u64,
    /// The devices that earlier jobs hold at their ends, and those that more than one of them does.
    kept: u32,
    twice: u32,
}

/// What is noted of the lines so far.
pub struct Noted {
    /// The devices of the takes that wait, in their order, from place 1 on; those taken again have the mark.
    stack: [u8; LINES + 1],
    jobs: Jobs,
}

/// The mark of a device that was taken again.
const AGAIN: u8 = 128;
/// What stands below all takes: no device.
const NONE: u8 = 127;

/// Is the number a line's?
fn is_line(line: u32) -> bool {
    let (least, most) = match kind(line) {
        TAKE | GIVE => (0, 31),
        START => (2, 64),
        _ => (0, 255),
    };
    (1..=64).contains(&job(line)) && (least..=most).contains(&operand(line))
}

impl Noted {
    pub fn new() -> Noted {
        let jobs = Jobs { first: [0; 65], starter: [0; 65] };
        Noted { stack: [NONE; LINES + 1], jobs }
    }
}

impl Present {
    /// Tests one more line, counted from 1: its flag. It stands in three loops, and called from them it would take a
    /// third longer.
    #[inline(always)]
    pub fn line(&mut self, noted: &mut Noted, line: u32, place: usize) -> Result<u8, u64> {
        if !is_line(line) {
            return Err(refusal(2, place));
        }
        if job(line) != self.job {
            if job(line) != self.job + 1 {
                return Err(refusal(4, place));
            }
            self.begin(job(line));
            noted.jobs.first[job(line)] = place;
        }
        match kind(line) {
            TAKE => return Ok(self.take(noted, line)),
            GIVE if noted.stack[self.depth] & !AGAIN != operand(line) as u8 => {
                return Err(refusal(7, place));
            }
            GIVE => return Ok(self.give(noted, line)),
            START if operand(line) <= self.job => return Err(refusal(5, place)),
            START if self.started & only_job(operand(line)) != 0 => return Err(refusal(5, place)),
            START => {
                self.started |= only_job(operand(line));
                noted.jobs.starter[operand(line)] = place;
            }
            _ => {}
        }
        Ok(0)
    }

    /// A take, which goes onto the stack: its flag.
    #[inline(always)]
    fn take(&mut self, noted: &mut Noted, line: u32) -> u8 {
        let again = self.held & device(line) != 0;
        self.held |= device(line);
        self.depth += 1;
        noted.stack[self.depth] = operand(line) as u8 | (u8::from(again) * AGAIN);
        u8::from(!again) * CLAIMS
    }

    /// A give of what is on top of the stack: its flag. Only an outermost one frees the device.
    #[inline(always)]
    fn give(&mut self, noted: &mut Noted, line: u32) -> u8 {
        let outermost = noted.stack[self.depth] < AGAIN;
        self.held ^= u32::from(outermost) << operand(line);
        self.depth -= 1;
        u8::from(outermost) * FREES
    }

    /// The first line of a job, which holds nothing yet.
    fn begin(&mut self, job: usize) {
        self.keep();
        self.job = job;
        self.held = 0;
        self.depth = 0;
        self.with_lines |= only_job(job);
    }

    /// The end of a job. What it holds there it has a lasting take of, and one alone: any further one takes again.
    fn keep(&mut self) {
        self.twice |= self.kept & self.held;
        self.kept |= self.held;
    }

    /// The tests after the last line: every started job has lines, and every job but the first is started.
    pub fn end(&self, noted: &Noted) -> Result<(), u64> {
        let without_lines = self.started & !self.with_lines;
        if without_lines != 0 {
            let jobs = (1..=64).filter(|&job| without_lines & only_job(job) != 0);
            let lowest = jobs.map(|job| noted.jobs.starter[job]).min();
            return Err(refusal(5, lowest.unwrap_or(0)));
        }
        let never_started = self.with_lines & !self.started & !only_job(1);
        if never_started != 0 {
            let lowest = never_started.trailing_zeros() as usize + 1;
            return Err(refusal(6, noted.jobs.first[lowest]));
        }
        Ok(())
    }
}

/// Tests a packed plan. Each line's flag is handed on, with its place from 0: who does not keep it does not pay for it.
#[inline]
fn walk(plan: &[u32], mut keep: impl FnMut(usize, u8)) -> Result<(Present, Jobs), u64> {
    let (mut present, mut noted) = (Present::default(), Noted::new());
    for (at, &line) in plan.iter().take(LINES).enumerate() {
        keep(at, present.line(&mut noted, line, at + 1)?);
    }
    if plan.len() > LINES {
        return Err(refusal(3, LINES + 1));
    }
    present.end(&noted)?;
    Ok((present, noted.jobs))
}

/// Tests a packed plan.
pub fn test(plan: &[u32]) -> Result<(), u64> {
    walk(plan, |_, _| {}).map(|_| ())
}

/// Tests a packed plan, and notes the flags of its lines.
pub fn scan(plan: &[u32], flags: &mut Flags) -> Result<Jobs, u64> {
    walk(plan, |at, flag| flags[at] = flag).map(|(_, jobs)| jobs)
}

/// Tests a packed plan: the devices held to the end, and those of them with two lasting takes.
pub fn held(plan: &[u32]) -> Result<(u32, u32), u64> {
    let (mut present, _) = walk(plan, |_, _| {})?;
    present.keep();
    Ok((present.kept, present.twice))
}
