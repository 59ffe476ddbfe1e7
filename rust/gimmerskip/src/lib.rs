//! The proved order maker for Rust callers.
//!
//! A plan is a list of steps, one a line, each of a job: it takes a shared device, gives it back, starts another job or
//! does something that touches no device. [`Plan`] reads a plan and gives its order, its steps, its table of claims and
//! its text, and judges orders from elsewhere; [`Tabled`] keeps a plan with its table and its rows while claims are
//! moved, and says quickly after each move whether there is an order; [`Holds`] says who holds what, and why a plan has
//! no order. The functions of [`entries`] work on slices that the caller lends, and [`lines`](lines()) hands out the
//! lines of a text one by one. What is refused comes back as a [`Refusal`], which says in words what is wrong and
//! where.
//!
//! Jobs and lines count from 1, devices from 0 to 31. The work is done by archives of proved code, `libport.a`,
//! `libreader.a` and `libscreen.a`; [`raw`] is the only place that calls into them. [`Step`], [`Holds`] and the words
//! of refusals are plain Rust, not proved but compared with the second program or tested.
//!
//! Lists are owned by what the feature `std` brings, which is there unless it is left out: [`Plan`], [`Order`],
//! [`Steps`], [`Tabled`], [`Holds`] and [`Arc`]. Without it the crate needs nothing beyond `core`.
//!
//! # A plan and its order
//!
//! Job 1 starts job 2 and takes device 1 to the end. Job 2 takes device 0 to the end and needs device 1 for a while: so
//! job 2 has to be through with it before job 1 takes it.
//!
//! ```
//! use gimmerskip::Plan;
//!
//! let text = "1\tstart\t2\n1\ttake\t1\n1\tdo\t7\n2\ttake\t0\n2\ttake\t1\n2\tgive\t1\n";
//! let plan: Plan = text.parse()?;
//! let order = plan.verdict()?;
//! assert_eq!(order.lines, [1, 4, 5, 6, 2, 3]);
//! assert_eq!(order.held, 2);
//! assert_eq!(plan.table(), [3, 2, 0, 3, 2, 0]);
//! assert_eq!(plan.to_string(), text);
//! # Ok::<(), gimmerskip::Refusal>(())
//! ```
//!
//! # A plan without an order
//!
//! Three jobs in a ring: each holds a device to the end and then wants the one that the next job holds. No two of them
//! block each other, but the three together do. The refusal names the lowest device of the circle, and what the plan
//! holds tells the circle line by line.
//!
//! ```
//! use gimmerskip::{Plan, Refusal};
//!
//! let ring = [
//!     "1 start 2", "1 start 3", "1 take 0", "1 take 1", "1 give 1", //
//!     "2 take 1", "2 take 2", "2 give 2", //
//!     "3 take 2", "3 take 0", "3 give 0",
//! ];
//! let text: String = ring.iter().map(|line| line.replace(' ', "\t") + "\n").collect();
//! let plan = Plan::from_text(&text)?;
//! let refusal = plan.verdict().unwrap_err();
//! assert_eq!(refusal, Refusal::LeadsBack(0));
//! assert!(refusal.to_string().starts_with("device 0 leads back to itself"));
//! let circle = plan.holds().circle().expect("a device leads back to itself");
//! assert_eq!(circle.len(), 3);
//! for arc in circle {
//!     let (device, then) = (arc.device, plan.step(arc.then).unwrap());
//!     println!("job {} keeps device {device} from line {} on; then line {} is {then}", arc.job, arc.line, arc.then);
//! }
//! # Ok::<(), Refusal>(())
//! ```
//!
//! # An order from elsewhere
//!
//! Two jobs take the same device for a while, and either may come first. The order handed out is one of the legal ones;
//! a list from elsewhere is judged by the rules alone.
//!
//! ```
//! use gimmerskip::{Plan, Refusal};
//!
//! let plan = Plan::from_text("1\tstart\t2\n1\ttake\t1\n1\tgive\t1\n2\ttake\t1\n2\tgive\t1\n")?;
//! assert_eq!(plan.verdict()?.lines, [1, 2, 3, 4, 5]);
//! assert_eq!(plan.judge(&[1, 4, 5, 2, 3]), Ok(()));
//! // Line 2 takes what line 4 holds.
//! assert_eq!(plan.judge(&[1, 4, 2, 3, 5]), Err(Refusal::IllegalStep(3)));
//! // The list stops before its fifth entry.
//! assert_eq!(plan.judge(&[1, 2, 3, 4]), Err(Refusal::IllegalStep(5)));
//! # Ok::<(), Refusal>(())
//! ```
//!
//! # A moved claim
//!
//! The inner claim of the first plan goes from device 1 to device 2, in line 5 and in its give, line 6. The table is
//! mended along the way, and three of its sets are then others than before.
//!
//! ```
//! use gimmerskip::{Plan, Tabled};
//!
//! let plan = Plan::from_text("1\tstart\t2\n1\ttake\t1\n1\tdo\t7\n2\ttake\t0\n2\ttake\t1\n2\tgive\t1\n")?;
//! let mut tabled = Tabled::new(plan);
//! assert_eq!(tabled.move_claim(5, 2)?, 3);
//! assert_eq!(tabled.table(), [7, 2, 0, 5, 4, 0]);
//! assert_eq!(tabled.table(), tabled.plan().table());
//! assert!(tabled.plan().text().ends_with("2\ttake\t2\n2\tgive\t2\n"));
//! assert_eq!(tabled.verdict()?.lines, [1, 4, 5, 6, 2, 3]);
//! # Ok::<(), gimmerskip::Refusal>(())
//! ```
//!
//! # A verdict after each move
//!
//! Whoever moves one claim after another wants to know after each move whether the plan still has an order. Beside
//! its table [`Tabled`] keeps the plan's rows, which a move keeps true, and the quick verdict looks at these: it hands
//! out no order, and else says what [`Tabled::verdict`] says. Here job 1 keeps device 0 and needs device 1 after that;
//! job 2 keeps device 1 and needs device 5.
//!
//! ```
//! use gimmerskip::{Plan, Refusal, Tabled};
//!
//! let jobs = ["1 start 2", "1 take 0", "1 take 1", "1 give 1", "2 take 1", "2 take 5", "2 give 5"];
//! let text: String = jobs.iter().map(|line| line.replace(' ', "\t") + "\n").collect();
//! let mut tabled = Tabled::new(Plan::from_text(&text)?);
//! assert_eq!((tabled.held(), tabled.rows()[0], tabled.rows()[1]), (1 << 0 | 1 << 1, 1 << 1, 1 << 5));
//! assert_eq!(tabled.quick(), Ok(2));
//! // Line 6 is to need device 0, which job 1 keeps: each job waits for the other.
//! assert_eq!(tabled.move_claim(6, 0), Ok(3));
//! assert_eq!(tabled.quick(), Err(Refusal::LeadsBack(0)));
//! // With line 3 at device 4 job 1 no longer needs what job 2 keeps.
//! assert_eq!(tabled.move_claim(3, 4), Ok(3));
//! assert_eq!(tabled.quick(), Ok(2));
//! assert_eq!(tabled.quick(), tabled.verdict().map(|order| order.held));
//! # Ok::<(), Refusal>(())
//! ```
//!
//! # A device taken again
//!
//! A cleaning recipe stands in a job that has the pump already, and takes it too. That take waits for nobody and claims
//! nothing, and its give does not free the pump: job 2 has to wait for line 5, or come before line 2.
//!
//! ```
//! use gimmerskip::{Plan, Refusal};
//!
//! let plan = Plan::from_text(concat!(
//!     "1\tstart\t2\n1\ttake\t0\n1\ttake\t0\n1\tgive\t0\n1\tgive\t0\n", //
//!     "2\ttake\t0\n2\tgive\t0\n",
//! ))?;
//! assert_eq!(plan.table(), [1, 1, 0, 0, 0, 1, 0]);
//! assert!(plan.holds().takes_again(3) && !plan.holds().frees(4));
//! assert_eq!(plan.judge(&[1, 6, 7, 2, 3, 4, 5]), Ok(()));
//! assert_eq!(plan.judge(&[1, 2, 3, 4, 6, 7, 5]), Err(Refusal::IllegalStep(5)));
//! # Ok::<(), Refusal>(())
//! ```
//!
//! # A text that is no plan
//!
//! ```
//! use gimmerskip::{Plan, Refusal};
//!
//! let refusal = Plan::from_text("1\ttake\t3\n1 give 3\n").unwrap_err();
//! assert_eq!(refusal, Refusal::Malformed(2));
//! assert_eq!((refusal.number(), refusal.place()), (2, 2));
//! println!("the plan cannot be read: {}", refusal.in_text());
//! ```

#![no_std]
#![deny(unsafe_code)]
#![warn(missing_docs)]

#[cfg(feature = "std")]
extern crate std;

pub mod entries;
#[cfg(feature = "std")]
mod holds;
#[cfg(feature = "std")]
mod plan;
#[allow(unsafe_code)]
pub mod raw;
mod refusal;
mod step;
#[cfg(feature = "std")]
mod tabled;

#[cfg(feature = "std")]
pub use holds::{Arc, Holds};
#[cfg(feature = "std")]
pub use plan::{Order, Plan};
pub use refusal::{outcome, Refusal};
#[cfg(feature = "std")]
pub use step::Steps;
pub use step::{lines, Lines, Step, Verb};
#[cfg(feature = "std")]
pub use tabled::Tabled;

/// The most lines of a plan. A list of so many entries is long enough for every plan, its table and its order.
pub const MAX_LINES: usize = 1_024;
/// The most bytes of a text. A buffer of so many bytes is long enough for every plan that is written.
pub const MAX_BYTES: usize = 12_288;
/// The least room that [`entries::order`] asks for: the longest print there is.
pub const SCREEN_ROOM: usize = 4_027;
/// The rows that are kept beside a plan's table: one set for each device.
pub const ROWS: usize = 32;

/// The example of the project's README is run too.
#[cfg(all(doctest, feature = "std"))]
#[doc = include_str!("../../../README.md")]
struct Readme;
