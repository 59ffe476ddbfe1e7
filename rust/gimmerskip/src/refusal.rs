//! Refusals: their numbers and places, and what they mean in words.

use crate::{MAX_BYTES, MAX_LINES};
use core::error::Error;
use core::fmt;

/// The first answer that is a refusal; answers below it are counts.
const FIRST: u64 = 1 << 32;

/// Why an entry refuses. Each case but two carries its place, a line or a device, what was asked for or a position; the
/// places of those two are always the same. A refused call has changed nothing that it was lent.
///
/// ```
/// use gimmerskip::Refusal;
///
/// let refusal = Refusal::GiveWithoutTake(5);
/// assert_eq!(refusal.to_string(), "line 5 gives a device that is not the latest its job still holds");
/// assert_eq!((refusal.number(), refusal.place()), (7, 5));
/// ```
#[non_exhaustive]
#[derive(Clone, Copy, Debug, PartialEq, Eq, Hash)]
pub enum Refusal {
    /// 1: the text has more than [`MAX_BYTES`] bytes. The place is 0.
    TextTooLong,
    /// 2: this line of a text is malformed or lacks its newline, or this number of a list stands for no line.
    Malformed(u32),
    /// 3: there is something after line [`MAX_LINES`]. The place is the line after it.
    TooManyLines,
    /// 4: the job of this line does not follow on from the line before, or the first line is not of job 1.
    JobOutOfSequence(u32),
    /// 5: this line starts a job that is not higher than its own, that is started already, or that has no lines.
    BadStart(u32),
    /// 6: nothing starts the job whose first line this is.
    NeverStarted(u32),
    /// 7: this line gives a device that is not the latest its job still holds.
    GiveWithoutTake(u32),
    /// 9: this device has more than one lasting take; it is the lowest such device.
    TwoLasting(u32),
    /// 10: this device leads back to itself; it is the lowest such device.
    LeadsBack(u32),
    /// 11: a list that was lent is too short; it needs this length. Of several the first is told: the table, then the
    /// rows, then the held set.
    ListTooShort(u32),
    /// 12: the line that was asked for, this one, is no take of the plan.
    NotATake(u32),
    /// 13: the device that was asked for, this one, is over 31.
    NoSuchDevice(u32),
    /// 14: the table is stale at this line. Of the lines whose sets the move may change it is the first such one: those
    /// on the way from the moved line back to line 1 are tested first, then those under the take, going down.
    StaleTable(u32),
    /// 15: the list is no legal order of the plan: it goes wrong first at this position, counted from 1. Where the
    /// position is the list's length plus one, every entry is right so far, and the list stops too soon; the refusal
    /// does not know the length, so that its words leave both open.
    IllegalStep(u32),
    /// None of these, kept as it came: a number over 15, say, or 8, which is free since a job may take again what it
    /// holds. The archives that this crate is made for never answer so; only others, with rules that are not known
    /// here, could. It is no success, and under another number it would send its reader to the wrong place: so it has a
    /// case of its own.
    Unlisted {
        /// The number in the answer.
        number: u32,
        /// The place in the answer.
        place: u32,
    },
}

impl Refusal {
    /// The refusal with this number and place. Nothing is lost: `number` and `place` give back what went in.
    pub fn new(number: u32, place: u32) -> Refusal {
        match (number, place) {
            (1, 0) => Refusal::TextTooLong,
            (2, line) => Refusal::Malformed(line),
            (3, line) if line as usize == MAX_LINES + 1 => Refusal::TooManyLines,
            (4, line) => Refusal::JobOutOfSequence(line),
            (5, line) => Refusal::BadStart(line),
            (6, line) => Refusal::NeverStarted(line),
            (7, line) => Refusal::GiveWithoutTake(line),
            (9, device) => Refusal::TwoLasting(device),
            (10, device) => Refusal::LeadsBack(device),
            (11, needed) => Refusal::ListTooShort(needed),
            (12, asked) => Refusal::NotATake(asked),
            (13, asked) => Refusal::NoSuchDevice(asked),
            (14, line) => Refusal::StaleTable(line),
            (15, position) => Refusal::IllegalStep(position),
            (number, place) => Refusal::Unlisted { number, place },
        }
    }

    /// The number: 1 to 7 or 9 to 15, unless it is [`Refusal::Unlisted`].
    pub fn number(self) -> u32 {
        match self {
            Refusal::TextTooLong => 1,
            Refusal::Malformed(_) => 2,
            Refusal::TooManyLines => 3,
            Refusal::JobOutOfSequence(_) => 4,
            Refusal::BadStart(_) => 5,
            Refusal::NeverStarted(_) => 6,
            Refusal::GiveWithoutTake(_) => 7,
            Refusal::TwoLasting(_) => 9,
            Refusal::LeadsBack(_) => 10,
            Refusal::ListTooShort(_) => 11,
            Refusal::NotATake(_) => 12,
            Refusal::NoSuchDevice(_) => 13,
            Refusal::StaleTable(_) => 14,
            Refusal::IllegalStep(_) => 15,
            Refusal::Unlisted { number, .. } => number,
        }
    }

    /// The place: a line, a device, a length, what was asked for or a position, by the number.
    pub fn place(self) -> u32 {
        use Refusal::*;
        match self {
            TextTooLong => 0,
            TooManyLines => MAX_LINES as u32 + 1,
            Malformed(line) | JobOutOfSequence(line) | BadStart(line) | NeverStarted(line) => line,
            GiveWithoutTake(line) | StaleTable(line) => line,
            TwoLasting(device) | LeadsBack(device) => device,
            ListTooShort(needed) => needed,
            NotATake(asked) | NoSuchDevice(asked) => asked,
            IllegalStep(position) => position,
            Unlisted { place, .. } => place,
        }
    }

    /// The same in the words for whoever wrote a text. A refusal does not know whether it came of a text or of a packed
    /// list; its own words are true of both, and these say more of a line of text that is none.
    ///
    /// ```
    /// use gimmerskip::{Plan, Refusal};
    ///
    /// let refusal = Plan::from_text("1\ttake\t3\n1 give 3\n").unwrap_err();
    /// assert_eq!(refusal.to_string(), "line 2 is no line that a plan can have");
    /// assert_eq!(refusal.in_text().to_string(), "line 2 is malformed, or its newline is missing");
    /// let refusal = Refusal::GiveWithoutTake(6);
    /// assert_eq!(refusal.in_text().to_string(), refusal.to_string());
    /// ```
    pub fn in_text(self) -> impl fmt::Display + fmt::Debug + Copy {
        InText(self)
    }

    /// What is wrong with the line at the place, where the place is one; the first line of a plan has words of its own.
    fn on_its_line(self) -> Option<&'static str> {
        Some(match self {
            Refusal::Malformed(_) => "is no line that a plan can have",
            Refusal::JobOutOfSequence(1) => "is not of job 1, with which a plan begins",
            Refusal::JobOutOfSequence(_) => {
                "is of a job that is neither the one before nor the next"
            }
            Refusal::BadStart(_) => {
                "starts a job that is not higher than its own, is started already, or has no lines"
            }
            Refusal::NeverStarted(_) => "begins a job that no line starts",
            Refusal::GiveWithoutTake(_) => {
                "gives a device that is not the latest its job still holds"
            }
            Refusal::NotATake(_) => "is no take of the plan, so it has no claim to move",
            Refusal::StaleTable(_) => {
                "has a stale set: it does not follow from the plan and the sets after it"
            }
            _ => return None,
        })
    }
}

impl fmt::Display for Refusal {
    fn fmt(&self, out: &mut fmt::Formatter<'_>) -> fmt::Result {
        if let Some(wrong) = self.on_its_line() {
            return write!(out, "line {} {wrong}", self.place());
        }
        match self {
            Refusal::TextTooLong => write!(out, "the text has more than {MAX_BYTES} bytes"),
            Refusal::TooManyLines => {
                write!(
                    out,
                    "something stands after line {MAX_LINES}, the last that a plan can have"
                )
            }
            Refusal::TwoLasting(device) => {
                write!(
                    out,
                    "device {device} has two lasting takes: two jobs would hold it to the end"
                )
            }
            Refusal::LeadsBack(device) => {
                write!(out, "device {device} leads back to itself: what follows its lasting take comes back to it")
            }
            Refusal::ListTooShort(needed) => {
                write!(out, "a lent list is too short: it needs a length of {needed}")
            }
            Refusal::NoSuchDevice(asked) => {
                write!(out, "there is no device {asked}: the highest is 31")
            }
            Refusal::IllegalStep(position) => {
                write!(
                    out,
                    "entry {position} of the order is no legal next step, or the order stops before it"
                )
            }
            other => {
                write!(out, "refused with number {} and place {}", other.number(), other.place())
            }
        }
    }
}

impl Error for Refusal {}

/// A refusal of a text, in the words for whoever wrote it.
#[derive(Clone, Copy, Debug)]
struct InText(Refusal);

impl fmt::Display for InText {
    fn fmt(&self, out: &mut fmt::Formatter<'_>) -> fmt::Result {
        match self.0 {
            Refusal::Malformed(line) => {
                write!(out, "line {line} is malformed, or its newline is missing")
            }
            refusal => write!(out, "{refusal}"),
        }
    }
}

/// What a 64-bit answer of [`raw`](crate::raw) means: a count, or a refusal.
///
/// # Errors
///
/// An answer of 2^32 or more is the refusal that it stands for.
///
/// ```
/// use gimmerskip::{outcome, Refusal};
///
/// assert_eq!(outcome(6), Ok(6));
/// assert_eq!(outcome((9 << 32) + 5), Err(Refusal::TwoLasting(5)));
/// ```
pub fn outcome(answer: u64) -> Result<usize, Refusal> {
    if answer < FIRST {
        return Ok(answer as usize);
    }
    // Nothing is cut off: the upper half and the lower half of 64 bits have 32 each.
    Err(Refusal::new((answer / FIRST) as u32, (answer % FIRST) as u32))
}
