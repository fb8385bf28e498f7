//! A judge for the glider placard.
//!
//! The library that makes placards is proved; this package is written a second
//! time, in another language, from the words of paper 01 alone ("The glider
//! placard: from scale readings to the cockpit plate"). None of it was taken
//! from the proved library, its documents or its tests, so a mistake in reading
//! the paper there is not repeated here by copying. Where the two differ, one
//! of them has misread the paper. Cards 1, 2, 4 and 6 of paper 02 ("Both readings
//! stay", "Nobody in the seat", "Adjustable seat backs", "Load-cell indicator") were
//! added from the cards' words, but by someone who had read the definitions that the
//! library is proved against: of them this is a second reckoning rather than a second
//! reading.
//! Card 5 ("Equipment by station") was added from its words before there were
//! definitions of it to be read.
//!
//! - [`paper`] follows the papers line by line, with plain loops and `i128`, and takes
//!   a float for the whole number of smallest parts that it is. It is slow and meant to
//!   be compared with the paper by eye.
//! - [`direct`] gives the same answers by solving each limit for the front
//!   load, on a record lent as its file at the front of a byte buffer. It
//!   shares the types of [`paper`] and none of its functions. It is simple, and
//!   quick enough to answer where loops would take too long.
//! - [`fast`] gives them as fast as safe Rust does, for the benchmark: it solves as
//!   [`direct`] does, and carries what it can from row to row. It shares with
//!   [`direct`] what makes no difference in time.
//! - [`generate`] makes cases from a seed, so that any difference found can be
//!   found again from two numbers.
//! - [`classes`] names the sorts of messages that an indicator sends, to be counted.
//! - [`run`] runs a case to its end by any of them, so that all that can be seen
//!   of it is compared as a whole.
//!
//! The library part knows nothing of the proved library. The programs in
//! `src/bin` compare the two and time them; only they link it.
//!
//! Weights are whole grams and arms whole hundredths of a millimetre, positive
//! aft of the datum, as in paper 01's "Units"; sums over two readings are in half
//! grams. An indicator's kilograms are floats, which are known by their patterns alone:
//! none of the three reckons with floats.

#![forbid(unsafe_code)]
#![warn(missing_docs)]

pub mod classes;
pub mod direct;
pub mod fast;
pub mod generate;
pub mod paper;
pub mod run;
