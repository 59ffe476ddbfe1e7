//! The first reading, part one: which texts and packed lists are plans.
//!
//! Reads, of document 01: "The plan as text", "Rules of a well-formed plan", and of "Refusal
//! numbers" the cases 1 to 7 with their places and their order; of document 02: request 2, by which
//! a job may take again what it holds, and which leaves no case 8, and request 5, by which a reader's
//! settings say whether plans are resumed ones, with the cases 16 and 17 and without 6.

use crate::line::{Line, Refusal, Settings, Verb, LINES, MORNING};

/// The longest text.
pub const TEXT: usize = 12_288;

/// What handing out the next line of a text brings.
#[derive(Clone, Copy, Debug, PartialEq, Eq)]
pub enum Handed {
    /// The line's packed number.
    Line(u32),
    /// The text is refused here, by 1, 3 or 2.
    Refused(Refusal),
    /// There is no further line.
    End,
}

/// Hands out the lines of a text one after another.
#[derive(Clone, Debug)]
pub struct Lines<'a> {
    settings: Settings,
    text: &'a [u8],
    offset: usize,
    handed: usize,
}

impl<'a> Lines<'a> {
    /// Stands before the first line of a plan of the morning.
    pub fn new(text: &'a [u8]) -> Lines<'a> {
        Lines::by(MORNING, text)
    }

    /// Stands before the first line.
    pub fn by(settings: Settings, text: &'a [u8]) -> Lines<'a> {
        Lines { settings, text, offset: 0, handed: 0 }
    }

    /// Where the next line begins.
    pub fn offset(&self) -> usize {
        self.offset
    }

    /// The next line, tested by 1, 3 and 2 and nothing else. A refusal and the end leave the
    /// reader where it stands, so that asking again brings the same answer.
    pub fn next_line(&mut self) -> Handed {
        if self.text.len() > TEXT {
            return Handed::Refused(Refusal::at(1, 0));
        }
        let rest = &self.text[self.offset..];
        if rest.is_empty() {
            return Handed::End;
        }
        if self.handed == LINES {
            return Handed::Refused(Refusal::at(3, LINES + 1));
        }
        let newline = rest.iter().position(|&byte| byte == b'\n');
        let line = |length: usize| line_of(self.settings, &rest[..length]);
        match newline.and_then(|length| Some((length, line(length)?))) {
            None => Handed::Refused(Refusal::at(2, self.handed + 1)),
            Some((length, line)) => {
                self.offset += length + 1;
                self.handed += 1;
                Handed::Line(line.packed())
            }
        }
    }
}

/// The line that these bytes (without the newline) spell, if they spell one.
fn line_of(settings: Settings, bytes: &[u8]) -> Option<Line> {
    let mut fields = bytes.split(|&byte| byte == b'\t');
    let (job, verb, operand) = (fields.next()?, fields.next()?, fields.next()?);
    if fields.next().is_some() {
        return None;
    }
    let operand = number(operand)?;
    let verb = match verb {
        b"do" => Verb::of(0, operand),
        b"take" => Verb::of(1, operand),
        b"give" => Verb::of(2, operand),
        b"start" => Verb::of(3, operand),
        b"held" if settings.resumed => Verb::held(operand),
        _ => None,
    };
    let line = Line::of(number(job)?, 0, 0)?;
    Some(Line { verb: verb?, ..line })
}

/// A decimal number. One that no field can hold is none, however many digits it has.
fn number(digits: &[u8]) -> Option<u32> {
    let nought_first = digits.first()? == &b'0';
    if nought_first && digits.len() > 1 {
        return None;
    }
    let mut value = 0;
    for &digit in digits {
        if !digit.is_ascii_digit() {
            return None;
        }
        value = value * 10 + u32::from(digit - b'0');
        if value > 255 {
            return None;
        }
    }
    Some(value)
}

/// A plan as far as it has been read, kept to the rules line by line.
#[derive(Clone, Debug, Default)]
pub struct Rules {
    settings: Settings,
    lines: Vec<Line>,
    /// The devices the present job holds, the one taken last at the end. What was taken again stands
    /// here once for each of its takes.
    held: Vec<u8>,
}

impl Rules {
    /// Nothing read yet.
    pub fn by(settings: Settings) -> Rules {
        Rules { settings, ..Rules::default() }
    }

    /// Takes up one more line, tested for 4 and then by its verb's own rule.
    pub fn add(&mut self, line: Line) -> Result<(), Refusal> {
        let place = self.lines.len() + 1;
        let before = self.lines.last().map_or(0, |last| last.job);
        let goes_on = line.job == before && before != 0;
        if !goes_on && line.job != before + 1 {
            return Err(Refusal::at(4, place));
        }
        if !goes_on {
            self.held.clear();
        }
        match line.verb {
            Verb::Do(_) => {}
            Verb::Start(job) => {
                if job <= line.job || self.starter(job).is_some() {
                    return Err(Refusal::at(5, place));
                }
            }
            Verb::Give(device) => {
                if self.held.last() != Some(&device) {
                    return Err(Refusal::at(7, place));
                }
                self.held.pop();
            }
            Verb::Take(device) => self.held.push(device),
            Verb::Held(device) => {
                if self.lines.iter().any(|other| other.verb == line.verb) {
                    return Err(Refusal::at(16, place));
                }
                if self.is_late(line.job) {
                    return Err(Refusal::at(17, place));
                }
                self.held.push(device);
            }
        }
        self.lines.push(line);
        Ok(())
    }

    /// Whether it is too late for a held line of the job: it has a line of another verb, or is one that
    /// has to be started, and so is not running.
    fn is_late(&self, job: u8) -> bool {
        let has_begun = self.lines.iter().any(|line| line.job == job && !line.is_held());
        has_begun || self.starter(job).is_some()
    }

    /// Where the job is started, counted from nought.
    fn starter(&self, job: u8) -> Option<usize> {
        let start = Verb::Start(job);
        self.lines.iter().position(|line| line.verb == start)
    }

    /// What can only be judged when no line is left: started jobs without lines, line by line,
    /// then, in the morning, jobs never started, job by job. At midday these are running.
    pub fn end(self) -> Result<Vec<Line>, Refusal> {
        let last = self.lines.last().map_or(0, |line| line.job);
        for (at, line) in self.lines.iter().enumerate() {
            // Jobs follow one another without a gap, so those with lines are 1 to the last.
            if matches!(line.verb, Verb::Start(job) if job > last) {
                return Err(Refusal::at(5, at + 1));
            }
        }
        for job in 2..=last {
            if self.starter(job).is_none() && !self.settings.resumed {
                let first = self.lines.iter().take_while(|line| line.job < job);
                return Err(Refusal::at(6, first.count() + 1));
            }
        }
        Ok(self.lines)
    }
}

/// Reads a text of the morning.
pub fn read(text: &[u8]) -> Result<Vec<Line>, Refusal> {
    read_by(MORNING, text)
}

/// Reads a text.
pub fn read_by(settings: Settings, text: &[u8]) -> Result<Vec<Line>, Refusal> {
    let mut lines = Lines::by(settings, text);
    let mut rules = Rules::by(settings);
    loop {
        match lines.next_line() {
            Handed::Line(packed) => {
                let line = Line::unpacked_by(settings, packed);
                rules.add(line.expect("a line handed out has its number"))?;
            }
            Handed::Refused(refusal) => return Err(refusal),
            Handed::End => return rules.end(),
        }
    }
}

/// Reads a packed list of the morning.
pub fn check_packed(plan: &[u32]) -> Result<Vec<Line>, Refusal> {
    check_packed_by(MORNING, plan)
}

/// Reads a packed list.
pub fn check_packed_by(settings: Settings, plan: &[u32]) -> Result<Vec<Line>, Refusal> {
    let mut rules = Rules::by(settings);
    for (at, &number) in plan.iter().enumerate() {
        if at == LINES {
            return Err(Refusal::at(3, LINES + 1));
        }
        let line = Line::unpacked_by(settings, number).ok_or(Refusal::at(2, at + 1))?;
        rules.add(line)?;
    }
    rules.end()
}

/// Writes a plan as text.
pub fn write(plan: &[Line]) -> Vec<u8> {
    let mut text = String::new();
    for line in plan {
        let verb = match line.verb {
            Verb::Do(_) => "do",
            Verb::Take(_) => "take",
            Verb::Give(_) => "give",
            Verb::Start(_) => "start",
            Verb::Held(_) => "held",
        };
        text += &format!("{}\t{}\t{}\n", line.job, verb, line.verb.operand());
    }
    text.into_bytes()
}
