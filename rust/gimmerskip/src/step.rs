//! A line of a plan as what it says: a job, a verb and an operand. And the lines of a text, handed out one after
//! another.

use crate::{entries, Refusal};
use core::fmt;
use core::iter::FusedIterator;
use core::ops::RangeInclusive;

/// What a packed number has for each job.
const JOB: u32 = 1_024;
/// What a packed number has for each kind of verb; the operand stays below it.
const KIND: u32 = 256;
/// The jobs that there are.
const JOBS: RangeInclusive<u32> = 1..=64;

/// What a step does. Its operand is an action, a device or a job, by the verb.
#[non_exhaustive]
#[derive(Clone, Copy, Debug, PartialEq, Eq, Hash, PartialOrd, Ord)]
pub enum Verb {
    /// An action of the controller's, which touches no device; the operand is the action, 0 to 255.
    Do,
    /// The job takes a device, at times again; the operand is the device, 0 to 31.
    Take,
    /// The job gives back what it took last; the operand is the device, 0 to 31.
    Give,
    /// Another job is started; the operand is that job, 2 to 64.
    Start,
}

impl Verb {
    /// All verbs. Each stands at the place that is its kind in a packed number.
    pub const ALL: [Verb; 4] = [Verb::Do, Verb::Take, Verb::Give, Verb::Start];

    /// The word that a text has for it.
    ///
    /// ```
    /// assert_eq!(gimmerskip::Verb::ALL.map(|verb| verb.word()), ["do", "take", "give", "start"]);
    /// ```
    pub const fn word(self) -> &'static str {
        match self {
            Verb::Do => "do",
            Verb::Take => "take",
            Verb::Give => "give",
            Verb::Start => "start",
        }
    }

    /// The operands that it can have.
    const fn operands(self) -> RangeInclusive<u8> {
        match self {
            Verb::Do => 0..=255,
            Verb::Take | Verb::Give => 0..=31,
            Verb::Start => 2..=64,
        }
    }
}

impl fmt::Display for Verb {
    /// The same as [`Verb::word`].
    fn fmt(&self, out: &mut fmt::Formatter<'_>) -> fmt::Result {
        out.pad(self.word())
    }
}

/// One line of a plan. As text it has its three fields with a tab between, and no newline. Whether a take is of a
/// device that its job holds already hangs on the lines before it: `Holds::takes_again` tells.
///
/// ```
/// use gimmerskip::{Step, Verb};
///
/// let step = Step { job: 1, verb: Verb::Take, operand: 5 };
/// assert_eq!(step.to_string(), "1\ttake\t5");
/// assert_eq!(step.packed(), 1_285);
/// assert_eq!(Step::from_packed(1_285), Some(step));
/// ```
#[derive(Clone, Copy, Debug, PartialEq, Eq, Hash)]
pub struct Step {
    /// The job that does it, 1 to 64.
    pub job: u8,
    /// What it does.
    pub verb: Verb,
    /// An action, a device or a job, by the verb.
    pub operand: u8,
}

impl Step {
    /// The step of a packed number, or `None` where the number stands for no line.
    ///
    /// ```
    /// use gimmerskip::Step;
    ///
    /// assert!(Step::from_packed(1_024 + 256 + 31).is_some());
    /// assert!(Step::from_packed(1_024 + 256 + 32).is_none());
    /// ```
    pub fn from_packed(packed: u32) -> Option<Step> {
        let (job, kind, operand) = (packed / JOB, packed % JOB / KIND, (packed % KIND) as u8);
        let verb = Verb::ALL[kind as usize];
        let is_line = JOBS.contains(&job) && verb.operands().contains(&operand);
        is_line.then_some(Step { job: job as u8, verb, operand })
    }

    /// The packed number. Of a step whose job or operand lies out of range, it is a number that stands for no line.
    pub fn packed(self) -> u32 {
        u32::from(self.job) * JOB + self.verb as u32 * KIND + u32::from(self.operand)
    }

    /// The device that is taken or given; a do and a start have none.
    ///
    /// ```
    /// use gimmerskip::{Step, Verb};
    ///
    /// assert_eq!(Step { job: 1, verb: Verb::Give, operand: 5 }.device(), Some(5));
    /// assert_eq!(Step { job: 1, verb: Verb::Start, operand: 5 }.device(), None);
    /// ```
    pub fn device(self) -> Option<u8> {
        matches!(self.verb, Verb::Take | Verb::Give).then_some(self.operand)
    }
}

impl fmt::Display for Step {
    fn fmt(&self, out: &mut fmt::Formatter<'_>) -> fmt::Result {
        write!(out, "{}\t{}\t{}", self.job, self.verb, self.operand)
    }
}

/// The steps of a plan, from its first line to its last: what [`Plan::steps`](crate::Plan::steps) gives.
#[cfg(feature = "std")]
#[derive(Clone, Debug)]
pub struct Steps<'a> {
    /// The packed lines that are left, each of them of a plan.
    left: core::slice::Iter<'a, u32>,
}

#[cfg(feature = "std")]
impl<'a> Steps<'a> {
    /// The steps of the lines of a plan.
    pub(crate) fn of_plan(lines: &'a [u32]) -> Steps<'a> {
        Steps { left: lines.iter() }
    }
}

/// The step of a line of a plan.
#[cfg(feature = "std")]
pub(crate) fn of_plan(line: &u32) -> Step {
    Step::from_packed(*line).expect("each line of a plan is one")
}

#[cfg(feature = "std")]
impl Iterator for Steps<'_> {
    type Item = Step;

    fn next(&mut self) -> Option<Step> {
        self.left.next().map(of_plan)
    }

    fn size_hint(&self) -> (usize, Option<usize>) {
        self.left.size_hint()
    }
}

#[cfg(feature = "std")]
impl DoubleEndedIterator for Steps<'_> {
    fn next_back(&mut self) -> Option<Step> {
        self.left.next_back().map(of_plan)
    }
}

#[cfg(feature = "std")]
impl ExactSizeIterator for Steps<'_> {}

#[cfg(feature = "std")]
impl FusedIterator for Steps<'_> {}

/// The lines of a text, as [`lines`] hands them out.
#[derive(Clone, Debug)]
pub struct Lines<'a> {
    text: &'a [u8],
    /// Where the next line begins, or `None` once a line was refused or nothing is left.
    next: Option<usize>,
}

/// Hands out the lines of a text one after another, each by itself: whether they make a plan together is not looked at.
/// The first that is refused is the last that is handed out.
///
/// Refusals are those of [`entries::line`]: 1, 3 and 2.
///
/// ```
/// use gimmerskip::{lines, Refusal};
///
/// let mut some = lines(b"1\ttake\t5\n7\tgive\t5\n1\tdrop\t5\n1\tdo\t0\n");
/// assert_eq!(some.next().unwrap()?.to_string(), "1\ttake\t5");
/// assert_eq!(some.next().unwrap()?.job, 7);
/// assert_eq!(some.next(), Some(Err(Refusal::Malformed(3))));
/// assert_eq!(some.next(), None);
/// # Ok::<(), Refusal>(())
/// ```
pub fn lines(text: &[u8]) -> Lines<'_> {
    Lines { text, next: Some(0) }
}

impl Iterator for Lines<'_> {
    type Item = Result<Step, Refusal>;

    fn next(&mut self) -> Option<Result<Step, Refusal>> {
        let offset = self.next.take()?;
        let packed = match entries::line(self.text, offset) {
            Ok(packed) => packed?,
            Err(refusal) => return Some(Err(refusal)),
        };
        let newline = self.text[offset..].iter().position(|&byte| byte == b'\n');
        self.next = newline.map(|at| offset + at + 1);
        Step::from_packed(packed).map(Ok)
    }
}

impl FusedIterator for Lines<'_> {}
