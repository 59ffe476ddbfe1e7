//! The entries on slices that the caller lends, for those who keep their own lists.
//!
//! Each tests what it is given, so that nothing has to be true of it beforehand. A list that is filled may be longer
//! than needed: what lies past the last entry written stays as it was. A refusal changes nothing at all.

use crate::refusal::outcome;
use crate::{raw, Refusal, SCREEN_ROOM};

/// Reads a text into packed numbers, one for each line: the operand, 256 times the kind and 1,024 times the job, added
/// up, the kind of a do, take, give and start being 0 to 3. The count is that of the lines, and the list needs as many
/// entries.
///
/// # Errors
///
/// Refuses with 1 to 7 what is no plan, and then with 11 a list that is too short.
///
/// ```
/// use gimmerskip::{entries, Refusal};
///
/// let mut plan = [0; 3];
/// assert_eq!(entries::read(b"1\ttake\t5\n1\tgive\t5\n", &mut plan), Ok(2));
/// assert_eq!(plan, [1_285, 1_541, 0]);
/// assert_eq!(entries::read(b"1\ttake\t5\n1\tgive\t5\n", &mut plan[..1]), Err(Refusal::ListTooShort(2)));
/// ```
pub fn read(text: &[u8], plan: &mut [u32]) -> Result<usize, Refusal> {
    outcome(raw::read(text, plan))
}

/// Writes a packed plan as text. The count is that of the bytes, and the buffer needs as many;
/// [`MAX_BYTES`](crate::MAX_BYTES) are always enough.
///
/// # Errors
///
/// Refuses with 2 to 7 what is no plan, and then with 11 a buffer that is too short.
///
/// ```
/// use gimmerskip::entries;
///
/// let mut text = [b'.'; 20];
/// assert_eq!(entries::write(&[1_285, 1_541], &mut text), Ok(18));
/// assert_eq!(&text, b"1\ttake\t5\n1\tgive\t5\n..");
/// ```
pub fn write(plan: &[u32], text: &mut [u8]) -> Result<usize, Refusal> {
    outcome(raw::write(plan, text))
}

/// Works out the table of claims: for each line the set of the devices that it or what comes after it takes, device d
/// being bit d. What its job holds already a line does not claim. The count is that of the lines, and the list needs as
/// many sets.
///
/// # Errors
///
/// Refuses with 2 to 7 what is no plan, and then with 11 a list that is too short.
///
/// ```
/// use gimmerskip::entries;
///
/// let mut sets = [0; 2];
/// assert_eq!(entries::table(&[1_285, 1_541], &mut sets), Ok(2));
/// assert_eq!(sets, [1 << 5, 0]);
/// ```
pub fn table(plan: &[u32], sets: &mut [u32]) -> Result<usize, Refusal> {
    outcome(raw::table(plan, sets))
}

/// Works out the order: the numbers of the lines, as they are to be done. The count is that of the devices which are
/// still held after the last line; the list needs as many entries as there are lines.
///
/// # Errors
///
/// Refuses with 2 to 7 what is no plan, then with 11 a list that is too short, then with 9 or 10 a plan that has no
/// legal order.
///
/// ```
/// use gimmerskip::entries;
///
/// let mut order = [0; 2];
/// assert_eq!(entries::verdict(&[1_285, 1_541], &mut order), Ok(0));
/// assert_eq!(order, [1, 2]);
/// ```
pub fn verdict(plan: &[u32], order: &mut [u16]) -> Result<usize, Refusal> {
    outcome(raw::verdict(plan, order))
}

/// Judges an order from elsewhere: whether these line numbers, whoever made the list, are a legal order of the plan.
/// What [`verdict`] hands out is one; a plan can have many others.
///
/// # Errors
///
/// Refuses with 2 to 7 what is no plan, and then with 15 a list that is no legal order. The place of a 15 is where the
/// list first goes wrong, counted from 1, and one past its end where it stops too soon: so the list itself is at fault
/// up to its length, and something is missing behind it exactly if the place is `order.len() + 1`.
///
/// ```
/// use gimmerskip::{entries, Refusal};
///
/// assert_eq!(entries::judge(&[1_285, 1_541], &[1, 2]), Ok(()));
/// assert_eq!(entries::judge(&[1_285, 1_541], &[2, 1]), Err(Refusal::IllegalStep(1)));
/// assert_eq!(entries::judge(&[1_285, 1_541], &[1]), Err(Refusal::IllegalStep(2)));
/// ```
pub fn judge(plan: &[u32], order: &[u16]) -> Result<(), Refusal> {
    outcome(raw::judge(plan, order)).map(|_| ())
}

/// Moves the claim of a line, counted from 1, to another device: the take there, and the give that matches it. The sets
/// are the plan's table, from [`table`] or from earlier moves. Mended are those on the way back to line 1, and those
/// under the take, which stand between it and its give or, where it has none, behind it in its job: what is taken there
/// may be taken again before the move and not after it, or the other way round. The count is that of the lines whose
/// set is then another.
///
/// # Errors
///
/// Refuses with 2 to 7 what is no plan, then with 11 a table that is too short, and then with 12 to 14. A claim may go
/// to a device that its job holds, or come from one, and a plan without a legal order can be moved as well.
///
/// ```
/// use gimmerskip::entries;
///
/// let (mut plan, mut sets) = ([1_285, 1_541], [1 << 5, 0]);
/// assert_eq!(entries::move_claim(&mut plan, &mut sets, 1, 6), Ok(1));
/// assert_eq!((plan, sets), ([1_286, 1_542], [1 << 6, 0]));
/// ```
pub fn move_claim(
    plan: &mut [u32],
    sets: &mut [u32],
    line: u32,
    device: u32,
) -> Result<usize, Refusal> {
    outcome(raw::move_claim(plan, sets, line, device))
}

/// Works out what is kept beside a plan, for [`move_kept`] and [`quick`]: its table into `sets`, its rows into `rows`,
/// and into `held` one set, of the devices that are held to the end, device d being bit d. The row of such a device is
/// the set of all that is claimed behind its lasting takes; other devices have an empty row. The count is that of the
/// lines. Needed are as many sets as there are lines, [`ROWS`](crate::ROWS) rows, and one held set.
///
/// # Errors
///
/// Refuses with 2 to 7 what is no plan, and then with 11 a list that is too short: first the table, then the rows, then
/// the held set.
///
/// ```
/// use gimmerskip::{entries, Refusal, ROWS};
///
/// // The job takes device 5 to the end, and behind that device 3 for a while.
/// let plan = [1_285, 1_283, 1_539];
/// let (mut sets, mut rows, mut held) = ([9; 3], [9; ROWS], [9]);
/// assert_eq!(entries::build(&plan, &mut sets, &mut rows, &mut held), Ok(3));
/// assert_eq!((sets, held), ([1 << 5 | 1 << 3, 1 << 3, 0], [1 << 5]));
/// assert!((0..ROWS).all(|device| rows[device] == if device == 5 { 1 << 3 } else { 0 }));
/// assert_eq!(entries::build(&plan, &mut sets, &mut rows[1..], &mut []), Err(Refusal::ListTooShort(32)));
/// ```
pub fn build(
    plan: &[u32],
    sets: &mut [u32],
    rows: &mut [u32],
    held: &mut [u32],
) -> Result<usize, Refusal> {
    outcome(raw::build(plan, sets, rows, held))
}

/// Moves the claim of a line as [`move_claim`] does, and keeps rows and held set true: what [`build`] made for a plan
/// is, after any number of moves, refused ones among them, what it would make for the plan as it is by then. Plan,
/// table and count are those of [`move_claim`].
///
/// Written to are few rows: those of the old device, of the new one, and of the devices that are taken for good on
/// the way back to line 1 or under the take. Each becomes what the edited plan and the mended table make of it, and so
/// do the bits of the old and the new device in the held set. All other rows and bits stay as they were lent, whosever
/// they are: this holds for rows and a held set that are not the plan's own too. A move to the device where the claim
/// is counts 0 and still writes those rows and bits.
///
/// # Errors
///
/// Refuses with 2 to 7 what is no plan, then with 11 a list that is too short (first the table, then the rows, then the
/// held set), and then with 12 to 14. Rows and held set are not tested for staleness. A refusal changes nothing.
///
/// ```
/// use gimmerskip::{entries, Refusal, ROWS};
///
/// let mut plan = [1_285, 1_283, 1_539];
/// let (mut sets, mut rows, mut held) = ([0; 3], [0; ROWS], [0]);
/// entries::build(&plan, &mut sets, &mut rows, &mut held)?;
/// // Line 2 goes from device 3 to device 4: that is what is claimed behind device 5 then.
/// assert_eq!(entries::move_kept(&mut plan, &mut sets, &mut rows, &mut held, 2, 4), Ok(2));
/// assert_eq!((rows[5], held), (1 << 4, [1 << 5]));
/// // Line 1 goes from device 5 to device 6, which is held to the end then, and has the row.
/// assert_eq!(entries::move_kept(&mut plan, &mut sets, &mut rows, &mut held, 1, 6), Ok(1));
/// assert_eq!((rows[5], rows[6], held), (0, 1 << 4, [1 << 6]));
/// # Ok::<(), Refusal>(())
/// ```
pub fn move_kept(
    plan: &mut [u32],
    sets: &mut [u32],
    rows: &mut [u32],
    held: &mut [u32],
    line: u32,
    device: u32,
) -> Result<usize, Refusal> {
    outcome(raw::move_kept(plan, sets, rows, held, line, device))
}

/// The quick verdict: whether the plan has a legal order, by rows that are kept beside it. No order is handed out and
/// nothing is written. The count is that of the devices that are held to the end.
///
/// With the plan's own rows, as [`build`] makes them and [`move_kept`] keeps them, it refuses exactly what [`verdict`]
/// refuses, with the same number and place, and counts the same. With other rows its 10 is about the rows as they are
/// lent, the first [`ROWS`](crate::ROWS) of them; count and 9 are the plan's all the same.
///
/// # Errors
///
/// Refuses with 2 to 7 what is no plan, then with 11 rows that are too few, then with 9 where a device has two lasting
/// takes in the plan, then with 10 where by the rows a device leads back to itself.
///
/// ```
/// use gimmerskip::{entries, Refusal, ROWS};
///
/// let plan = [1_285, 1_283, 1_539];
/// let (mut sets, mut rows, mut held) = ([0; 3], [0; ROWS], [0]);
/// entries::build(&plan, &mut sets, &mut rows, &mut held)?;
/// assert_eq!(entries::quick(&plan, &rows), Ok(1));
/// // Rows of another's making, by which device 3 leads to device 5, and so on to itself.
/// rows[3] = 1 << 5;
/// assert_eq!(entries::quick(&plan, &rows), Err(Refusal::LeadsBack(3)));
/// # Ok::<(), Refusal>(())
/// ```
pub fn quick(plan: &[u32], rows: &[u32]) -> Result<usize, Refusal> {
    outcome(raw::quick(plan, rows))
}

/// The packed number of the line at an offset of a text, or `None` where nothing is left. The first line stands at 0,
/// each other one just past the newline of the line before.
///
/// # Errors
///
/// Tested are only the text's length, the number of the line and the line itself: 1, 3 and 2.
///
/// ```
/// use gimmerskip::{entries, Refusal};
///
/// let text = b"1\ttake\t5\n1\tdrop\t5\n";
/// assert_eq!(entries::line(text, 0), Ok(Some(1_024 + 256 + 5)));
/// assert_eq!(entries::line(text, 9), Err(Refusal::Malformed(2)));
/// assert_eq!(entries::line(text, text.len()), Ok(None));
/// ```
pub fn line(text: &[u8], offset: usize) -> Result<Option<u32>, Refusal> {
    let number = outcome(raw::line(text, offset))?;
    Ok(if number == 0 { None } else { Some(number as u32) })
}

/// Orders a text and prints the outcome, as the program `order` does: for an order a first line that counts the
/// lines and the devices that stay held, then the line numbers, each on its own line; for a refused text one line that
/// begins with `refused`. The count is that of the bytes.
///
/// # Errors
///
/// The one refusal is 11, for a buffer of less than [`SCREEN_ROOM`], whatever the text. A text that is refused is no
/// refusal here: its line is printed.
///
/// ```
/// use gimmerskip::{entries, Refusal, SCREEN_ROOM};
///
/// let mut out = [0; SCREEN_ROOM];
/// let count = entries::order(b"1\ttake\t5\n1\tdo\t7\n", &mut out)?;
/// assert_eq!(&out[..count], b"order\t2\t1\n1\n2\n");
/// let count = entries::order(b"1\ttake\t32\n", &mut out)?;
/// assert_eq!(&out[..count], b"refused\t2\t1\n");
/// # Ok::<(), Refusal>(())
/// ```
pub fn order(text: &[u8], out: &mut [u8]) -> Result<usize, Refusal> {
    match raw::order(text, out) {
        // No print is empty, so this is the answer to too little room and to nothing else.
        0 => Err(Refusal::ListTooShort(SCREEN_ROOM as u32)),
        count => Ok(count),
    }
}
