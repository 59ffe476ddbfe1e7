//! A plan that owns its lines.

use crate::step::of_plan;
use crate::{entries, Holds, Refusal, Step, Steps, MAX_BYTES, MAX_LINES, ROWS};
use core::fmt;
use core::slice::from_mut;
use core::str::FromStr;
use std::string::String;
use std::vec;
use std::vec::Vec;

/// A plan without a fault: whatever made it has tested it, and nothing that changes it puts a fault in.
///
/// So its text and its table are there without further asking. It need not have a legal order: [`Plan::verdict`] tells.
/// The examples at the top of [the crate](crate) show one of each kind.
#[derive(Clone, Debug, Default, PartialEq, Eq, Hash)]
pub struct Plan {
    /// The packed lines, at most [`MAX_LINES`].
    lines: Vec<u32>,
}

/// The order of a plan. As text it is what the program prints: a first line that counts the lines and the devices that
/// stay held, then the line numbers, each on its own line.
///
/// ```
/// let plan: gimmerskip::Plan = "1\ttake\t5\n1\tdo\t7\n".parse()?;
/// assert_eq!(plan.verdict()?.to_string(), "order\t2\t1\n1\n2\n");
/// # Ok::<(), gimmerskip::Refusal>(())
/// ```
#[derive(Clone, Debug, PartialEq, Eq, Hash)]
pub struct Order {
    /// The numbers of the lines, from 1, as they are to be done; each line stands here once.
    pub lines: Vec<u16>,
    /// How many devices are still held after the last line.
    pub held: usize,
}

/// Why an entry cannot refuse a plan that is held here and a list that was made for it.
const NO_FAULT: &str = "a plan has no fault, and there is room for every plan";

impl Plan {
    /// Reads a plan from text.
    ///
    /// # Errors
    ///
    /// Refuses with 1 to 7 what is no plan; [`Refusal::in_text`] has the words for whoever wrote the text.
    ///
    /// ```
    /// use gimmerskip::{Plan, Refusal};
    ///
    /// assert!(Plan::from_text("1\ttake\t5\n").is_ok());
    /// let refusal = Plan::from_text("1\ttake\t5").unwrap_err();
    /// assert_eq!(refusal, Refusal::Malformed(1));
    /// assert_eq!(refusal.in_text().to_string(), "line 1 is malformed, or its newline is missing");
    /// ```
    pub fn from_text(text: impl AsRef<[u8]>) -> Result<Plan, Refusal> {
        let mut lines = vec![0; MAX_LINES];
        let count = entries::read(text.as_ref(), &mut lines)?;
        lines.truncate(count);
        Ok(Plan { lines })
    }

    /// Makes a plan of packed numbers.
    ///
    /// # Errors
    ///
    /// Refuses with 2 to 7 what is no plan.
    ///
    /// ```
    /// use gimmerskip::{Plan, Refusal};
    ///
    /// assert_eq!(Plan::from_packed([1_285, 1_541])?.text(), "1\ttake\t5\n1\tgive\t5\n");
    /// assert_eq!(Plan::from_packed([1_285, 1_542]), Err(Refusal::GiveWithoutTake(2)));
    /// # Ok::<(), Refusal>(())
    /// ```
    pub fn from_packed(numbers: impl Into<Vec<u32>>) -> Result<Plan, Refusal> {
        let lines = numbers.into();
        // The table is asked for its tests alone. A longer list is refused before its room matters.
        entries::table(&lines, &mut [0; MAX_LINES])?;
        Ok(Plan { lines })
    }

    /// The packed numbers, one a line.
    pub fn packed(&self) -> &[u32] {
        &self.lines
    }

    /// How many lines it has.
    pub fn len(&self) -> usize {
        self.lines.len()
    }

    /// Whether it has no lines: such a plan has no jobs and nothing to do.
    pub fn is_empty(&self) -> bool {
        self.lines.is_empty()
    }

    /// The step in a line, counted from 1, or `None` where the plan has no such line.
    ///
    /// ```
    /// let plan = gimmerskip::Plan::from_packed([1_285, 1_541])?;
    /// assert_eq!(plan.step(2).map(|step| step.to_string()).as_deref(), Some("1\tgive\t5"));
    /// assert_eq!((plan.step(0), plan.step(3)), (None, None));
    /// # Ok::<(), gimmerskip::Refusal>(())
    /// ```
    pub fn step(&self, line: u16) -> Option<Step> {
        self.lines.get(usize::from(line).checked_sub(1)?).map(of_plan)
    }

    /// The steps, from the first line to the last.
    ///
    /// ```
    /// use gimmerskip::{Plan, Verb};
    ///
    /// let plan = Plan::from_packed([1_285, 1_541])?;
    /// assert_eq!(plan.steps().map(|step| step.verb).collect::<Vec<_>>(), [Verb::Take, Verb::Give]);
    /// # Ok::<(), gimmerskip::Refusal>(())
    /// ```
    pub fn steps(&self) -> Steps<'_> {
        Steps::of_plan(&self.lines)
    }

    /// Who holds what: mates, what is taken again, lasting takes, rows and circles.
    ///
    /// # Panics
    ///
    /// Never, as long as the archives are those that this crate is made for: a plan has no fault.
    pub fn holds(&self) -> Holds {
        Holds::of_plan(self)
    }

    /// The text, which [`Plan::from_text`] reads as the same plan.
    ///
    /// # Panics
    ///
    /// Never, as long as the archives are those that this crate is made for: a plan has no fault.
    pub fn text(&self) -> String {
        let mut text = [0; MAX_BYTES];
        let count = entries::write(&self.lines, &mut text).expect(NO_FAULT);
        // Digits, small letters, tabs and newlines: each byte is a character by itself.
        text[..count].iter().map(|&byte| char::from(byte)).collect()
    }

    /// The table of claims, one set a line, device d being bit d. What its job holds already a line does not claim.
    ///
    /// # Panics
    ///
    /// Never, as long as the archives are those that this crate is made for: a plan has no fault.
    pub fn table(&self) -> Vec<u32> {
        let mut sets = vec![0; self.lines.len()];
        entries::table(&self.lines, &mut sets).expect(NO_FAULT);
        sets
    }

    /// The order that is handed out.
    ///
    /// # Errors
    ///
    /// Refuses with 9 or 10 where no order is legal; [`Plan::holds`] can tell why.
    pub fn verdict(&self) -> Result<Order, Refusal> {
        let mut lines = vec![0; self.lines.len()];
        let held = entries::verdict(&self.lines, &mut lines)?;
        Ok(Order { lines, held })
    }

    /// The quick verdict, by rows that are kept beside the plan: how many devices are held to the end. With the plan's
    /// own rows it refuses exactly what [`Plan::verdict`] refuses; with others, 10 is about the rows as they are lent.
    /// [`Tabled`](crate::Tabled) keeps a plan with its own rows.
    ///
    /// # Errors
    ///
    /// Refuses with 11 rows that are too few, then with 9 by the plan, then with 10 by the rows.
    ///
    /// ```
    /// use gimmerskip::{Plan, Refusal, ROWS};
    ///
    /// let plan = Plan::from_text("1\ttake\t3\n1\ttake\t5\n1\tgive\t5\n")?;
    /// let mut rows = *plan.holds().rows();
    /// assert_eq!(plan.quick(&rows), Ok(1));
    /// assert_eq!(plan.quick(&rows[..ROWS - 1]), Err(Refusal::ListTooShort(32)));
    /// rows[7] = 1 << 7;
    /// assert_eq!(plan.quick(&rows), Err(Refusal::LeadsBack(7)));
    /// # Ok::<(), Refusal>(())
    /// ```
    pub fn quick(&self, rows: &[u32]) -> Result<usize, Refusal> {
        entries::quick(&self.lines, rows)
    }

    /// Judges an order from elsewhere: whether these line numbers, whoever made the list, are a legal order. The one
    /// that [`Plan::verdict`] hands out is accepted, and so is every other legal one.
    ///
    /// # Errors
    ///
    /// Refuses with 15 a list that is no legal order. The place is where the list first goes wrong, counted from 1; one
    /// past its end, `order.len() + 1`, tells that all entries are right so far and the list stops too soon.
    ///
    /// ```
    /// use gimmerskip::{Plan, Refusal};
    ///
    /// let plan = Plan::from_text("1\tstart\t2\n1\ttake\t5\n2\tdo\t7\n")?;
    /// assert_eq!(plan.judge(&plan.verdict()?.lines), Ok(()));
    /// assert_eq!(plan.judge(&[1, 2, 3]), Ok(()));
    /// assert_eq!(plan.judge(&[1, 3, 3]), Err(Refusal::IllegalStep(3)));
    /// # Ok::<(), Refusal>(())
    /// ```
    pub fn judge(&self, order: &[u16]) -> Result<(), Refusal> {
        entries::judge(&self.lines, order)
    }

    /// Moves the claim of a line, counted from 1, to another device, and mends the plan's table along the way and under
    /// the take; the count is that of the lines whose set is then another. The table is what [`Plan::table`] gave, kept
    /// up by earlier moves; [`Tabled`](crate::Tabled) keeps both together.
    ///
    /// # Errors
    ///
    /// Refuses with 11 to 14. Plan and table are then as they were.
    ///
    /// ```
    /// use gimmerskip::{Plan, Refusal};
    ///
    /// let mut plan = Plan::from_text("1\ttake\t3\n1\ttake\t5\n1\tgive\t5\n")?;
    /// let mut table = plan.table();
    /// assert_eq!(plan.move_claim(&mut table, 3, 4), Err(Refusal::NotATake(3)));
    /// assert_eq!(plan.move_claim(&mut table, 2, 4), Ok(2));
    /// assert_eq!(plan.text(), "1\ttake\t3\n1\ttake\t4\n1\tgive\t4\n");
    /// # Ok::<(), Refusal>(())
    /// ```
    pub fn move_claim(
        &mut self,
        table: &mut [u32],
        line: u32,
        device: u32,
    ) -> Result<usize, Refusal> {
        entries::move_claim(&mut self.lines, table, line, device)
    }

    /// The table, the rows and the set of the devices held to the end.
    pub(crate) fn built(&self) -> (Vec<u32>, [u32; ROWS], u32) {
        let (mut table, mut rows, mut held) = (vec![0; self.lines.len()], [0; ROWS], 0);
        entries::build(&self.lines, &mut table, &mut rows, from_mut(&mut held)).expect(NO_FAULT);
        (table, rows, held)
    }

    /// Moves a claim, and keeps what is kept beside the plan.
    pub(crate) fn move_kept(
        &mut self,
        (table, rows, held): (&mut [u32], &mut [u32; ROWS], &mut u32),
        line: u32,
        device: u32,
    ) -> Result<usize, Refusal> {
        entries::move_kept(&mut self.lines, table, rows, from_mut(held), line, device)
    }
}

impl FromStr for Plan {
    type Err = Refusal;

    /// The same as [`Plan::from_text`].
    fn from_str(text: &str) -> Result<Plan, Refusal> {
        Plan::from_text(text)
    }
}

impl fmt::Display for Plan {
    /// The same as [`Plan::text`].
    fn fmt(&self, out: &mut fmt::Formatter<'_>) -> fmt::Result {
        out.write_str(&self.text())
    }
}

impl fmt::Display for Order {
    fn fmt(&self, out: &mut fmt::Formatter<'_>) -> fmt::Result {
        writeln!(out, "order\t{}\t{}", self.lines.len(), self.held)?;
        self.lines.iter().try_for_each(|line| writeln!(out, "{line}"))
    }
}

impl<'a> IntoIterator for &'a Plan {
    type Item = Step;
    type IntoIter = Steps<'a>;

    /// The same as [`Plan::steps`].
    fn into_iter(self) -> Steps<'a> {
        self.steps()
    }
}
