//! The calls on records that are kept in memory of the caller's own.
//!
//! A record is lent as its file at the front of a buffer: the first 4 + L bytes,
//! L being the big-endian number in the first four. The bytes behind the file
//! are free. Only an accepted call that makes the file longer writes there, and
//! only as far as the file then reaches. A buffer of
//! [`LONGEST_FILE`](crate::LONGEST_FILE) bytes has room for every record.
//!
//! A file of version 1 is taken as it is. The first accepted call that changes
//! the record leaves one of version 2.
//!
//! With each call stand its refusals, in the order in which they are looked for.
//! A refusal changes no byte of any buffer and no element of any column.
//!
//! ```
//! use nodhulika::{lent, Refusal, Weighing};
//!
//! let mut buffer = [0; 100];
//! lent::fresh(&mut buffer)?;
//! lent::weigh(&mut buffer, &Weighing {
//!     m: Weighing::WHEEL_AND_TAIL,
//!     p: 288_000,
//!     q: 0,
//!     a: 63_334,
//!     b: 500_000,
//!     n: 140_000,
//! })?;
//! assert_eq!(lent::centre(&buffer)?.centre, 63_334);
//! assert_eq!(lent::file(&buffer)?.len(), 28);
//! assert_eq!(lent::placard(&buffer, &mut []), Err(Refusal::NoSheet));
//! # Ok::<(), Refusal>(())
//! ```

use crate::sys::{self, ANSWER};
use crate::{CentreOfGravity, Change, Counts, Indicated, Paired, Refusal, Seat, Sheet, Weighing};

/// Begins a fresh record, one with no entry, whatever the buffer holds.
///
/// # Errors
///
/// [`Refusal::Short`] where the buffer has fewer than six bytes.
pub fn fresh(buffer: &mut [u8]) -> Result<(), Refusal> {
    outcome(sys::fresh(buffer))
}

/// Whether a record stands at the front of the buffer.
///
/// # Errors
///
/// [`Refusal::File`].
pub fn check(buffer: &[u8]) -> Result<(), Refusal> {
    outcome(sys::check(buffer))
}

/// The file of the record at the front of the buffer, in the version that it has.
///
/// # Errors
///
/// [`Refusal::File`].
pub fn file(buffer: &[u8]) -> Result<&[u8], Refusal> {
    check(buffer)?;
    front(buffer).ok_or(Refusal::File)
}

/// Adds a weighing.
///
/// # Errors
///
/// [`Refusal::File`], [`Refusal::Full`], [`Refusal::Reading`], [`Refusal::Arm`],
/// [`Refusal::NonLifting`], [`Refusal::Short`].
pub fn weigh(buffer: &mut [u8], weighing: &Weighing) -> Result<(), Refusal> {
    outcome(sys::weigh(buffer, weighing))
}

/// Adds a paired weighing.
///
/// A condition of either reading counts, in the order of the numbers: one of the
/// second is looked for before a later number of the first.
///
/// # Errors
///
/// [`Refusal::File`], [`Refusal::Full`], [`Refusal::Reading`], [`Refusal::Arm`],
/// [`Refusal::NonLifting`], [`Refusal::Short`].
pub fn weigh_paired(buffer: &mut [u8], paired: &Paired) -> Result<(), Refusal> {
    outcome(sys::weigh_paired(buffer, paired))
}

/// Adds a paired weighing as an indicator sends it.
///
/// What is added is an ordinary paired weighing of the nets; how they come from the
/// messages is said with [`Indicated`] and [`Message`](crate::Message). A condition of any
/// of the four readings counts, in this order: one that is unsteady is looked for in all
/// of them before a load out of its range in any, and both before all that the weighing is
/// refused for, a full record among it.
///
/// # Errors
///
/// [`Refusal::File`], [`Refusal::Unsteady`], [`Refusal::Load`], [`Refusal::Full`],
/// [`Refusal::Reading`], [`Refusal::Arm`], [`Refusal::NonLifting`], [`Refusal::Short`].
pub fn weigh_indicated(buffer: &mut [u8], indicated: &Indicated) -> Result<(), Refusal> {
    outcome(sys::weigh_indicated(buffer, indicated))
}

/// Adds a data sheet; the last one is in force.
///
/// # Errors
///
/// [`Refusal::File`], [`Refusal::Full`], [`Refusal::Arm`], [`Refusal::Sheet`],
/// [`Refusal::Rows`], [`Refusal::Short`].
pub fn sheet(buffer: &mut [u8], sheet: &Sheet) -> Result<(), Refusal> {
    outcome(sys::sheet(buffer, sheet))
}

/// Adds a change of equipment.
///
/// # Errors
///
/// [`Refusal::File`], [`Refusal::Full`], [`Refusal::Unweighed`],
/// [`Refusal::Arm`], [`Refusal::Change`], [`Refusal::NonLifting`],
/// [`Refusal::Short`].
pub fn change(buffer: &mut [u8], change: &Change) -> Result<(), Refusal> {
    outcome(sys::change(buffer, change))
}

/// Adds a seat whose back can be adjusted.
///
/// # Errors
///
/// [`Refusal::File`], [`Refusal::Full`], [`Refusal::NoSheet`], [`Refusal::Arm`],
/// [`Refusal::Short`].
pub fn seat(buffer: &mut [u8], seat: &Seat) -> Result<(), Refusal> {
    outcome(sys::seat(buffer, seat))
}

/// Takes the last entry back. The entry's bytes stay, behind the shorter file.
///
/// # Errors
///
/// [`Refusal::File`], [`Refusal::Bare`].
pub fn undo(buffer: &mut [u8]) -> Result<(), Refusal> {
    outcome(sys::undo(buffer))
}

/// Puts the record of a file in the place of whatever the buffer holds.
///
/// The buffer need not hold a record before. The file must be a record's
/// exactly: a byte too many is refused as one too few. What is put there is of
/// version 2.
///
/// # Errors
///
/// [`Refusal::File`] of the file, [`Refusal::Short`].
pub fn read(buffer: &mut [u8], file: &[u8]) -> Result<(), Refusal> {
    outcome(sys::read(buffer, file))
}

/// The empty total, moment and centre of gravity, from the last weighing, plain or
/// paired, and the changes behind it.
///
/// # Errors
///
/// [`Refusal::File`], [`Refusal::Unweighed`].
pub fn centre(buffer: &[u8]) -> Result<CentreOfGravity, Refusal> {
    let mut answer = [0; ANSWER];
    outcome(sys::centre(buffer, &mut answer))?;
    let [total, moment, centre] = numbers(&answer);
    // Moment and centre are in two's complement.
    Ok(CentreOfGravity {
        total,
        moment: moment as i64,
        centre: centre as i64,
    })
}

/// The loading placard, into the front of `out`; bytes behind it stay.
///
/// [`LONGEST_PLACARD`](crate::LONGEST_PLACARD) bytes hold every placard. Its
/// rows go by rear load, slowest, and water, fastest, both rising. A row is a
/// line of [`LINE`](crate::LINE) bytes: rear load, water, smallest and largest
/// front load, each as four digits of kilograms, a point and three of grams, one
/// space between and a line feed behind. The front loads are the ends of those
/// that keep every limit with any part of the water aboard and at every arm of the
/// front seat, 0 never among them; both are eight hyphens where there is none.
///
/// # Errors
///
/// [`Refusal::File`], [`Refusal::Unweighed`], [`Refusal::NoSheet`],
/// [`Refusal::Short`].
pub fn placard(buffer: &[u8], out: &mut [u8]) -> Result<Counts, Refusal> {
    let mut answer = [0; ANSWER];
    outcome(sys::placard(buffer, out, &mut answer))?;
    // None is more than LONGEST_PLACARD, so none is cut.
    let [bytes, rows, blank] = numbers(&answer).map(|number| number as usize);
    Ok(Counts { bytes, rows, blank })
}

/// The equipment by station, into the front of three columns: how many arms there are.
///
/// The changes behind the last weighing, plain or paired, come to each arm once, the
/// foremost first, into `arms`, the net weight there into `weights`, and the net
/// non-lifting weight there into `nonlifting`, both in whole grams and both 0 where
/// what was fitted was taken out again. Data sheets and seats between the changes make
/// no difference. Elements behind the last arm stay. Columns of
/// [`MOST_ARMS`](crate::MOST_ARMS) elements hold the equipment of every record; where
/// there is no change, empty ones will do.
///
/// ```
/// use nodhulika::{lent, Change, Refusal, Weighing, LONGEST_FILE, MOST_ARMS};
///
/// let mut buffer = [0; LONGEST_FILE];
/// lent::fresh(&mut buffer)?;
/// lent::weigh(&mut buffer, &Weighing {
///     m: Weighing::WHEEL_AND_TAIL,
///     p: 288_000,
///     q: 0,
///     a: 63_334,
///     b: 500_000,
///     n: 140_000,
/// })?;
/// // An instrument in the panel, and a battery a metre ahead of the datum.
/// lent::change(&mut buffer, &Change { c: 340, arm: -61_000, flag: Change::NON_LIFTING })?;
/// lent::change(&mut buffer, &Change { c: 2_650, arm: -100_000, flag: Change::NON_LIFTING })?;
///
/// let [mut arms, mut weights, mut nonlifting] = [[0; MOST_ARMS]; 3];
/// let count = lent::equipment(&buffer, &mut arms, &mut weights, &mut nonlifting)?;
/// assert_eq!(arms[..count], [-100_000, -61_000]);
/// assert_eq!(weights[..count], [2_650, 340]);
/// assert_eq!(nonlifting[..count], [2_650, 340]);
/// # Ok::<(), Refusal>(())
/// ```
///
/// # Errors
///
/// [`Refusal::File`], [`Refusal::Unweighed`], [`Refusal::Short`] where any of the
/// three columns has fewer elements than there are arms.
pub fn equipment(
    buffer: &[u8],
    arms: &mut [i64],
    weights: &mut [i64],
    nonlifting: &mut [i64],
) -> Result<usize, Refusal> {
    let mut count = 0;
    outcome(sys::equipment(
        buffer, arms, weights, nonlifting, &mut count,
    ))?;
    // It is at most MOST_ARMS, so it is not cut.
    Ok(count as usize)
}

/// The bytes that the file at the front takes by its own length, where the
/// buffer has them.
pub(crate) fn front(buffer: &[u8]) -> Option<&[u8]> {
    let (length, _) = buffer.split_first_chunk()?;
    let behind = usize::try_from(u32::from_be_bytes(*length)).ok()?;
    buffer.get(..behind.checked_add(length.len())?)
}

/// The three numbers of an answer, the highest byte first.
fn numbers(answer: &[u8; ANSWER]) -> [u64; 3] {
    let mut numbers = [0; 3];
    for (number, bytes) in numbers.iter_mut().zip(answer.chunks_exact(8)) {
        *number = bytes
            .iter()
            .fold(0, |high, &byte| high << 8 | u64::from(byte));
    }
    numbers
}

/// What a number of the library's means.
///
/// The library is proved to answer 0 to 14. Another number says that a different
/// archive was linked, whose answers mean nothing: there is no going on.
fn outcome(number: u64) -> Result<(), Refusal> {
    if number == 0 {
        return Ok(());
    }
    match Refusal::try_from(number) {
        Ok(refusal) => Err(refusal),
        Err(unknown) => unreachable!("the archive does not fit this crate: {unknown}"),
    }
}
