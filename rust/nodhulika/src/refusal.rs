//! Why a call is refused.

use std::error::Error;
use std::fmt;

/// Why a call is refused, by the library's fourteen numbers.
///
/// A call gives the first, in the order that stands with it, whose condition
/// holds; of a paired weighing it is enough that it holds of one reading, and of one
/// that an indicator sends of one of its four. In what follows G is the glider's
/// empty total and n its non-lifting weight.
#[derive(Clone, Copy, Debug, PartialEq, Eq, PartialOrd, Ord, Hash)]
#[repr(u64)]
pub enum Refusal {
    /// The method is not 1..4, a reading is over 2,000,000 g, q is more than p
    /// in method 1 or 2, or G is not 1..2,000,000 g.
    Reading = 1,
    /// An arm, or the distance a or b of a weighing, is outside its range, or the
    /// ends of a seat are reversed.
    Arm = 2,
    /// n is not 0..G, as given or after the change.
    NonLifting = 3,
    /// A range of the data sheet is broken that is not an arm's, a step's or
    /// that of the rows.
    Sheet = 4,
    /// A step is outside its range, or the placard would have over 256 rows.
    Rows = 5,
    /// The change's weight or flag is outside its range, or G after it is.
    Change = 6,
    /// The record has no weighing.
    Unweighed = 7,
    /// The record has no data sheet.
    NoSheet = 8,
    /// The record has 64 entries already.
    Full = 9,
    /// The record has no entry to take back.
    Bare = 10,
    /// A buffer or a column is shorter than what would be written to it.
    Short = 11,
    /// The bytes are not the file of any record that accepted calls give.
    File = 12,
    /// A message of an indicator is not of nine bytes, has a state other than 1 to 3,
    /// or is moving or over.
    Unsteady = 13,
    /// A cell's rating, its zero or a reading of an indicator is not finite; the
    /// reading is below nought, above the rating or above 2000 kg; the zero is below
    /// nought or above 2000 kg; or the net is below nought.
    Load = 14,
}

impl Refusal {
    /// All of them, by rising number.
    pub const ALL: [Refusal; 14] = [
        Refusal::Reading,
        Refusal::Arm,
        Refusal::NonLifting,
        Refusal::Sheet,
        Refusal::Rows,
        Refusal::Change,
        Refusal::Unweighed,
        Refusal::NoSheet,
        Refusal::Full,
        Refusal::Bare,
        Refusal::Short,
        Refusal::File,
        Refusal::Unsteady,
        Refusal::Load,
    ];

    /// The library's number, 1 to 14.
    ///
    /// ```
    /// assert_eq!(nodhulika::Refusal::Unweighed.number(), 7);
    /// ```
    pub const fn number(self) -> u64 {
        self as u64
    }
}

impl From<Refusal> for u64 {
    fn from(refusal: Refusal) -> u64 {
        refusal.number()
    }
}

impl TryFrom<u64> for Refusal {
    type Error = UnknownNumber;

    /// The refusal of a number from 1 to 14.
    fn try_from(number: u64) -> Result<Refusal, UnknownNumber> {
        Refusal::ALL
            .into_iter()
            .find(|refusal| refusal.number() == number)
            .ok_or(UnknownNumber(number))
    }
}

impl fmt::Display for Refusal {
    fn fmt(&self, f: &mut fmt::Formatter<'_>) -> fmt::Result {
        f.write_str(match self {
            Refusal::Reading => "a reading, the method or the total is out of range",
            Refusal::Arm => "an arm or a distance is out of range, or a seat's ends are reversed",
            Refusal::NonLifting => "the non-lifting weight is not between 0 and the total",
            Refusal::Sheet => "a range of the data sheet is broken",
            Refusal::Rows => "a step is out of range, or there are more than 256 rows",
            Refusal::Change => "a change, or the total after it, is out of range",
            Refusal::Unweighed => "there is no weighing",
            Refusal::NoSheet => "there is no data sheet",
            Refusal::Full => "64 entries stand already",
            Refusal::Bare => "there is nothing to take back",
            Refusal::Short => "the buffer is too short",
            Refusal::File => "the bytes are no record's file",
            Refusal::Unsteady => "a reading is not nine bytes, or not stable",
            Refusal::Load => "a rating, a zero, a reading or its net is out of range",
        })
    }
}

impl Error for Refusal {}

/// A number that is not one of a refusal's, which are 1 to 14.
#[derive(Clone, Copy, Debug, PartialEq, Eq)]
pub struct UnknownNumber(
    /// The number.
    pub u64,
);

impl fmt::Display for UnknownNumber {
    fn fmt(&self, f: &mut fmt::Formatter<'_>) -> fmt::Result {
        write!(f, "{} is not the number of a refusal", self.0)
    }
}

impl Error for UnknownNumber {}
