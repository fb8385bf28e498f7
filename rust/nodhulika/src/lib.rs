//! The weight and balance of gliders: weighings, data sheets, changes of
//! equipment, the loading placard, and the equipment by station.
//!
//! This crate is a thin, safe cover over a library whose every answer is proved.
//! It works nothing out itself: it lends the library byte slices and numbers,
//! and gives back what the library answers. The cover is tested, not proved.
//!
//! # Records
//!
//! A record is the list of a glider's accepted entries, at most 64: weighings,
//! plain and paired, data sheets, changes and adjustable seats. [`Record`] owns one.
//! [`lent`] has the same calls for records kept in memory of the caller's own.
//!
//! A call that is not accepted gives a [`Refusal`] and changes nothing: no byte
//! of the record, and nothing of a buffer or column that was lent for the answer.
//!
//! # Units
//!
//! A weight is whole grams, an arm or a distance whole hundredths of a
//! millimetre. An arm is positive aft of the datum unless it is said otherwise.
//! A moment is weight times arm. Everywhere a weight is at most 2,000,000 and an
//! arm lies in −2,000,000..2,000,000. Any value may be given: what is out of its
//! range is refused. Only what a glider's centre of gravity comes from, its total
//! and moment, is answered in half grams: see [`CentreOfGravity`]. Only what a load cell
//! and its indicator show is in kilograms, as [`Message`] and [`Cell`] have it; of it no
//! more than whole grams is kept.
//!
//! # Files
//!
//! Files are written in version 2. Those of version 1, which has no paired
//! weighings and no seats, are still read: a record is then written anew in version 2.
//!
//! # Example
//!
//! A glider weighed on wheel and tail, with the limits of an Astir (the paper's
//! case G):
//!
//! ```
//! use nodhulika::{Record, Refusal, Sheet, Station, Weighing};
//!
//! let mut record = Record::new();
//! record.weigh(&Weighing {
//!     m: Weighing::WHEEL_AND_TAIL,
//!     p: 288_000,
//!     q: 0,
//!     a: 63_334,
//!     b: 500_000,
//!     n: 140_000,
//! })?;
//! record.install(&Sheet {
//!     fwd: 25_000,
//!     aft: 42_500,
//!     dry: 380_000,
//!     wet: 450_000,
//!     nlp: 240_000,
//!     front: Station { arm: -47_500, most: 110_000, step: 1_000 },
//!     front_least: 55_000,
//!     rear: Station { arm: 0, most: 0, step: 1 },
//!     water: Station { arm: 30_000, most: 100_000, step: 50_000 },
//! })?;
//! assert_eq!(
//!     record.placard_text()?,
//!     "0000.000 0000.000 0071.000 0092.000\n\
//!      0000.000 0050.000 0071.000 0092.000\n\
//!      0000.000 0100.000 -------- --------\n"
//! );
//! # Ok::<(), Refusal>(())
//! ```

#![deny(missing_docs)]
#![deny(unsafe_code)]

mod entry;
pub mod lent;
mod record;
mod refusal;
#[allow(unsafe_code)]
mod sys;

pub use entry::{Cell, Indicated, Message};
pub use entry::{CentreOfGravity, Change, Counts, Equipment};
pub use entry::{Paired, Seat, Sheet, Station, Weighing};
pub use record::Record;
pub use refusal::{Refusal, UnknownNumber};

/// Bytes of the longest file of a record, that of 64 data sheets.
pub const LONGEST_FILE: usize = 3_910;

/// Bytes of a line of the placard, its line feed included.
pub const LINE: usize = 36;

/// Bytes of the longest placard, which has 256 lines.
pub const LONGEST_PLACARD: usize = 256 * LINE;

/// The most arms that the equipment of a record can have: those of 63 changes behind a
/// weighing.
pub const MOST_ARMS: usize = 63;
