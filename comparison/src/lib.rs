//! A plain model of rule books and the units that reduce by them, and a
//! comparison of other implementations with it on random cases.
//!
//! - `model`: the definitions, written for reading.
//! - `records`: the same for many lines by one book.
//! - `fees`: the same for fees and owners' shares.
//! - `strict`: the same of the strict profile.
//! - `points`: the same of named points; `slots`: their form; `point_rules`: their
//!   rules; `stacks`: the units as a point has them.
//! - `draft`: books and cases as fields that may break any rule.
//! - `random`, `books`, `branching`, `dates`, `texts`, `grow`, `faults`: random
//!   cases.
//! - `subject`: what an implementation under comparison must offer.
//! - `compare`, `shrink`: the comparison, and how a difference is made small.
//! - `buffers`: what is lent for a run, and what became of it.
//! - `repeats`: what the cases try of variables that stand again on the left.
//! - `days`: what they try of rules with days.
//! - `nets`: what they try of a net over the left sides.
//! - `marks`: what they try of marks.
//! - `bounds`: how long a schedule suffices, and what they try of it.
//! - `batches`: random lines for one book, and what they try.
//! - `charges`: random amounts, rates and shares, and what they try.
//! - `by_hand`, `foreign`: points that no run saved, by hand and at random.
//! - `parking`: calls on one buffer of points; `parks`: random ones;
//!   `compare_points`, `shrink_points`: their comparison; `parked`: what they try.
//! - `parted`: random books that are strict, or nearly so; `profiles`: what they
//!   try.
//! - `broken`, `broken_lines`, `broken_marks`, `broken_fees`, `broken_strict`,
//!   `broken_bounds`, `broken_points`: the model with one slip, to show that slips
//!   are found.
//! - `library`: the static library as a subject, under the feature `library`.
//! - `program`: the pages of the programs `reduce` and `payee`.
//! - `vectors`: pages and written books from outside.

pub mod batches;
pub mod books;
pub mod bounds;
pub mod branching;
pub mod broken;
pub mod broken_bounds;
pub mod broken_fees;
pub mod broken_lines;
pub mod broken_marks;
pub mod broken_points;
pub mod broken_strict;
pub mod buffers;
pub mod by_hand;
pub mod charges;
pub mod compare;
pub mod compare_points;
pub mod dates;
pub mod days;
pub mod draft;
pub mod faults;
pub mod fees;
pub mod foreign;
pub mod grow;
#[cfg(feature = "library")]
pub mod library;
pub mod marks;
pub mod model;
pub mod nets;
pub mod parked;
pub mod parking;
pub mod parks;
pub mod parted;
pub mod point_rules;
pub mod points;
pub mod profiles;
pub mod program;
pub mod random;
pub mod records;
pub mod repeats;
pub mod shrink;
pub mod shrink_points;
pub mod slots;
pub mod stacks;
pub mod strict;
pub mod subject;
pub mod texts;
pub mod vectors;
