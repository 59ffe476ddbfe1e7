//! The second program: documents 01 and 02 read once more, apart from the library, so that the two
//! can be compared. It shares no code with the library and knows nothing of how the library works.
//!
//! Inside it stand two readings that are kept apart from each other as well:
//!
//! * the first, [`read`], [`orders`] and [`judge`], knows the text, the rules of a well-formed plan
//!   and what a legal order is, judges one from elsewhere rule by rule, and finds out by trying
//!   whether a plan has one;
//! * the second, [`plain`], knows claims, rows, circles, the order handed out, the move, and what is
//!   kept beside the table.
//!
//! [`orders`], [`judge`] and [`read`] never call [`plain`], and [`plain`] never calls [`orders`] or
//! [`judge`], which do not call each other either; the run `readings` is the only place where their
//! answers meet. [`random`] and, for plans taken up at midday, [`resumed`] make the plans for it,
//! [`damage`] spoils them, [`small`] brings every small one, [`listed`] those of document 01 with their
//! answers, [`midday`] what is left of a plan that has begun, [`elsewhere`] makes and spoils orders,
//! [`leading`] makes rows, [`planted`] plans that have given rows, [`shapes`] tells what a plan takes
//! again, and [`tally`] counts what was seen.

#![forbid(unsafe_code)]
#![warn(missing_docs)]

pub mod damage;
pub mod elsewhere;
pub mod judge;
pub mod leading;
pub mod line;
pub mod listed;
pub mod midday;
pub mod orders;
pub mod plain;
pub mod planted;
pub mod random;
pub mod read;
pub mod resumed;
pub mod shapes;
pub mod small;
pub mod tally;

pub use line::{Line, Refusal, Verb};
