//! A plan that keeps its own table of claims, its rows and the set of the devices that it holds to the end.

use crate::{Order, Plan, Refusal, ROWS};
use std::vec::Vec;

/// A plan with its table, its rows and its held set, which are made here and changed by moves alone: so they are never
/// too short and never stale, and after each move the quick verdict says whether the plan has an order.
///
/// ```
/// use gimmerskip::{Plan, Refusal, Tabled};
///
/// let mut tabled = Tabled::new(Plan::from_text("1\ttake\t3\n1\ttake\t5\n1\tgive\t5\n")?);
/// assert_eq!(tabled.table(), [1 << 3 | 1 << 5, 1 << 5, 0]);
/// assert_eq!((tabled.held(), tabled.rows()[3]), (1 << 3, 1 << 5));
/// assert_eq!(tabled.move_claim(2, 4), Ok(2));
/// assert_eq!(tabled.table(), [1 << 3 | 1 << 4, 1 << 4, 0]);
/// assert_eq!((tabled.quick(), tabled.rows()[3]), (Ok(1), 1 << 4));
/// assert_eq!(tabled.move_claim(3, 3), Err(Refusal::NotATake(3)));
/// // The job holds device 3 at line 2, which takes it again then and claims nothing.
/// assert_eq!(tabled.move_claim(2, 3), Ok(2));
/// assert_eq!(tabled.table(), [1 << 3, 0, 0]);
/// assert_eq!(tabled.into_plan().text(), "1\ttake\t3\n1\ttake\t3\n1\tgive\t3\n");
/// # Ok::<(), Refusal>(())
/// ```
#[derive(Clone, Debug, Default, PartialEq, Eq, Hash)]
pub struct Tabled {
    plan: Plan,
    /// What the plan's own table would be, if it were worked out now; and so for the other two.
    table: Vec<u32>,
    rows: [u32; ROWS],
    held: u32,
}

impl Tabled {
    /// The plan with its table, its rows and its held set, worked out afresh.
    pub fn new(plan: Plan) -> Tabled {
        let (table, rows, held) = plan.built();
        Tabled { plan, table, rows, held }
    }

    /// The plan as it is by now.
    pub fn plan(&self) -> &Plan {
        &self.plan
    }

    /// The table of claims, one set a line, device d being bit d.
    pub fn table(&self) -> &[u32] {
        &self.table
    }

    /// The rows, one set a device: what is claimed behind the lasting takes of the device. A device that is not held to
    /// the end has an empty row.
    pub fn rows(&self) -> &[u32; ROWS] {
        &self.rows
    }

    /// The set of the devices that are held to the end, device d being bit d.
    pub fn held(&self) -> u32 {
        self.held
    }

    /// Moves the claim of a line, counted from 1, to another device; the count is that of the lines whose set in the
    /// table is then another. [`Plan::move_claim`] does the same on a table that the caller keeps.
    ///
    /// # Errors
    ///
    /// Refuses with 12 or 13. Plan, table, rows and held set are then as they were.
    pub fn move_claim(&mut self, line: u32, device: u32) -> Result<usize, Refusal> {
        let beside = (&mut self.table[..], &mut self.rows, &mut self.held);
        self.plan.move_kept(beside, line, device)
    }

    /// The quick verdict on the plan as it is by now: how many devices are held to the end. It hands out no order, and
    /// else says what [`Tabled::verdict`] says.
    ///
    /// # Errors
    ///
    /// Refuses with 9 or 10 where no order is legal.
    pub fn quick(&self) -> Result<usize, Refusal> {
        self.plan.quick(&self.rows)
    }

    /// The order of the plan as it is by now.
    ///
    /// # Errors
    ///
    /// Refuses with 9 or 10 where no order is legal.
    pub fn verdict(&self) -> Result<Order, Refusal> {
        self.plan.verdict()
    }

    /// The plan without what is kept beside it.
    pub fn into_plan(self) -> Plan {
        self.plan
    }
}

impl From<Plan> for Tabled {
    /// The same as [`Tabled::new`].
    fn from(plan: Plan) -> Tabled {
        Tabled::new(plan)
    }
}
