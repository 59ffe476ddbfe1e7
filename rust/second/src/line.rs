//! A line of a plan as plain data, its packed number, and a refusal.
//!
//! Reads, of document 01: the table of verbs and the packed form under "The plan as text", and
//! the shape of a refusal under "Refusal numbers"; of document 02: requests 1 and 2, for 15 and 8, and
//! request 5, for held lines and the readers that know them.

/// The highest job.
pub const JOBS: u32 = 64;
/// How many devices there are; they are numbered from nought.
pub const DEVICES: u32 = 32;
/// The most lines a plan may have.
pub const LINES: usize = 1_024;

/// What is added to the device of a held line, packed, by which it is told from a take.
const HELD: u32 = 128;

/// What a reader goes by: which lines it knows, and which plans it takes.
#[derive(Clone, Copy, Debug, Default, PartialEq, Eq, Hash)]
pub struct Settings {
    /// Whether plans are taken up at midday: with held lines, and with jobs that are running already.
    pub resumed: bool,
}

/// The settings of 01, which the readers have that are not told any.
pub const MORNING: Settings = Settings { resumed: false };
/// The settings for resumed plans.
pub const MIDDAY: Settings = Settings { resumed: true };

/// What a line does, with its operand.
#[derive(Clone, Copy, Debug, PartialEq, Eq, Hash)]
pub enum Verb {
    /// An action with its code; devices are not touched.
    Do(u8),
    /// Claims a device for its job.
    Take(u8),
    /// Gives a device back.
    Give(u8),
    /// Starts a job.
    Start(u8),
    /// The job holds the device from the beginning; this is no step.
    Held(u8),
}

impl Verb {
    /// The verb of a kind with an operand, if the operand lies in that verb's range. The kind that held
    /// lines share is that of takes here.
    pub fn of(kind: u32, operand: u32) -> Option<Verb> {
        let small = u8::try_from(operand).ok()?;
        match kind {
            0 => Some(Verb::Do(small)),
            1 if operand < DEVICES => Some(Verb::Take(small)),
            2 if operand < DEVICES => Some(Verb::Give(small)),
            3 if (2..=JOBS).contains(&operand) => Some(Verb::Start(small)),
            _ => None,
        }
    }

    /// That a device is held, if there is such a device.
    pub fn held(device: u32) -> Option<Verb> {
        let small = u8::try_from(device).ok()?;
        (device < DEVICES).then_some(Verb::Held(small))
    }

    /// The number of the verb in the packed form.
    pub fn kind(self) -> u32 {
        match self {
            Verb::Do(_) => 0,
            Verb::Take(_) | Verb::Held(_) => 1,
            Verb::Give(_) => 2,
            Verb::Start(_) => 3,
        }
    }

    /// The code, device or job behind the verb.
    pub fn operand(self) -> u8 {
        match self {
            Verb::Do(n) | Verb::Take(n) | Verb::Give(n) | Verb::Start(n) | Verb::Held(n) => n,
        }
    }
}

/// One line: the job it is of, and what it does.
#[derive(Clone, Copy, Debug, PartialEq, Eq, Hash)]
pub struct Line {
    /// The job, 1 to 64.
    pub job: u8,
    /// The verb with its operand.
    pub verb: Verb,
}

impl Line {
    /// The line of these three numbers, if there is such a line.
    pub fn of(job: u32, kind: u32, operand: u32) -> Option<Line> {
        if !(1..=JOBS).contains(&job) {
            return None;
        }
        let job = u8::try_from(job).ok()?;
        Verb::of(kind, operand).map(|verb| Line { job, verb })
    }

    /// The line as one number.
    pub fn packed(self) -> u32 {
        let held = if self.is_held() { HELD } else { 0 };
        u32::from(self.job) * 1_024 + self.verb.kind() * 256 + held + u32::from(self.verb.operand())
    }

    /// The line of a packed number, or nothing where the number is that of no line in the morning.
    pub fn unpacked(number: u32) -> Option<Line> {
        Line::of(number / 1_024, number / 256 % 4, number % 256)
    }

    /// The line of a packed number by a reader's settings.
    pub fn unpacked_by(settings: Settings, number: u32) -> Option<Line> {
        let (kind, operand) = (number / 256 % 4, number % 256);
        if !settings.resumed || kind != 1 || operand < HELD {
            return Line::unpacked(number);
        }
        let line = Line::of(number / 1_024, 0, 0)?;
        Verb::held(operand - HELD).map(|verb| Line { verb, ..line })
    }

    /// Whether the line says what is held, and is no step.
    pub fn is_held(self) -> bool {
        matches!(self.verb, Verb::Held(_))
    }

    /// The device, if the line is a take.
    pub fn takes(self) -> Option<u8> {
        match self.verb {
            Verb::Take(device) => Some(device),
            _ => None,
        }
    }
}

/// The packed numbers of a plan.
pub fn pack(plan: &[Line]) -> Vec<u32> {
    plan.iter().map(|line| line.packed()).collect()
}

/// A refusal: its number and its place.
#[derive(Clone, Copy, Debug, PartialEq, Eq, Hash)]
pub struct Refusal {
    /// 1 to 17 without 8, which is not given any more.
    pub number: u32,
    /// A line, a device, a length, a position or nought, by the number. It is wide enough for any
    /// length.
    pub place: u64,
}

impl Refusal {
    /// A refusal with its place, whatever kind of number the place comes as.
    pub fn at(number: u32, place: impl TryInto<u64>) -> Refusal {
        let place = place.try_into().ok().expect("a place is not below nought");
        Refusal { number, place }
    }
}
