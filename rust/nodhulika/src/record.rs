//! A record that owns its memory.

use std::fmt;

use crate::{lent, LONGEST_FILE, LONGEST_PLACARD, MOST_ARMS};
use crate::{
    CentreOfGravity, Change, Counts, Equipment, Indicated, Paired, Refusal, Seat, Sheet, Weighing,
};

/// The record of a glider: its accepted weighings, plain and paired, data sheets,
/// changes and adjustable seats, at most 64, in order.
///
/// Two records are equal when their files are. With each call stand its
/// refusals, in the order in which they are looked for; a refusal leaves the
/// record as it was.
///
/// ```
/// use nodhulika::{Change, Record, Refusal, Weighing};
///
/// let mut record = Record::new();
/// record.weigh(&Weighing {
///     m: Weighing::WHEEL_AND_TAIL,
///     p: 288_000,
///     q: 0,
///     a: 63_334,
///     b: 500_000,
///     n: 140_000,
/// })?;
/// let weighed = record.clone();
///
/// record.change(&Change { c: 4_500, arm: -100_000, flag: Change::NON_LIFTING })?;
/// let fitted = record.centre_of_gravity()?;
/// assert_eq!(fitted.total, 2 * 292_500);
/// assert_eq!(fitted.moment, 2 * (288_000 * 63_334 - 4_500 * 100_000));
///
/// record.undo()?;
/// assert_eq!(record, weighed);
/// # Ok::<(), Refusal>(())
/// ```
#[derive(Clone)]
pub struct Record {
    /// Holds a record always, and has room for every one.
    buffer: Box<[u8; LONGEST_FILE]>,
}

impl Record {
    /// A fresh record, one with no entry.
    ///
    /// ```
    /// assert_eq!(nodhulika::Record::new().as_bytes(), [0, 0, 0, 2, 2, 0]);
    /// ```
    pub fn new() -> Record {
        let mut buffer = Box::new([0; LONGEST_FILE]);
        // Never refused, as the buffer has room. Were it, there would be no
        // record, and every call on it would be refused.
        let _ = lent::fresh(&mut buffer[..]);
        Record { buffer }
    }

    /// The record of a file, of version 1 or 2.
    ///
    /// # Errors
    ///
    /// [`Refusal::File`] where the bytes are not exactly the file of a record
    /// that accepted calls give.
    ///
    /// ```
    /// use nodhulika::{Record, Refusal};
    ///
    /// assert_eq!(Record::from_file(&[0, 0, 0, 2, 2, 0]), Ok(Record::new()));
    /// assert_eq!(Record::from_file(&[0, 0, 0, 2, 1, 0]), Ok(Record::new()));
    /// assert_eq!(Record::from_file(b"logbook"), Err(Refusal::File));
    /// ```
    pub fn from_file(file: &[u8]) -> Result<Record, Refusal> {
        let mut record = Record::new();
        record.read(file)?;
        Ok(record)
    }

    /// Adds a weighing.
    ///
    /// # Errors
    ///
    /// [`Refusal::Full`], [`Refusal::Reading`], [`Refusal::Arm`],
    /// [`Refusal::NonLifting`].
    pub fn weigh(&mut self, weighing: &Weighing) -> Result<(), Refusal> {
        lent::weigh(&mut self.buffer[..], weighing)
    }

    /// Adds a paired weighing.
    ///
    /// # Errors
    ///
    /// [`Refusal::Full`], [`Refusal::Reading`], [`Refusal::Arm`],
    /// [`Refusal::NonLifting`], each of either reading.
    pub fn weigh_paired(&mut self, paired: &Paired) -> Result<(), Refusal> {
        lent::weigh_paired(&mut self.buffer[..], paired)
    }

    /// Adds a paired weighing as an indicator sends it.
    ///
    /// # Errors
    ///
    /// [`Refusal::Unsteady`] of any of the four readings, then [`Refusal::Load`] of any,
    /// then [`Refusal::Full`], [`Refusal::Reading`], [`Refusal::Arm`],
    /// [`Refusal::NonLifting`].
    pub fn weigh_indicated(&mut self, indicated: &Indicated) -> Result<(), Refusal> {
        lent::weigh_indicated(&mut self.buffer[..], indicated)
    }

    /// Adds a data sheet; the last one is in force.
    ///
    /// # Errors
    ///
    /// [`Refusal::Full`], [`Refusal::Arm`], [`Refusal::Sheet`],
    /// [`Refusal::Rows`].
    pub fn install(&mut self, sheet: &Sheet) -> Result<(), Refusal> {
        lent::sheet(&mut self.buffer[..], sheet)
    }

    /// Adds a change of equipment.
    ///
    /// # Errors
    ///
    /// [`Refusal::Full`], [`Refusal::Unweighed`], [`Refusal::Arm`],
    /// [`Refusal::Change`], [`Refusal::NonLifting`].
    pub fn change(&mut self, change: &Change) -> Result<(), Refusal> {
        lent::change(&mut self.buffer[..], change)
    }

    /// Adds a seat whose back can be adjusted: its two ends override the front arm of
    /// the data sheet until the next data sheet or seat.
    ///
    /// # Errors
    ///
    /// [`Refusal::Full`], [`Refusal::NoSheet`], [`Refusal::Arm`].
    pub fn seat(&mut self, seat: &Seat) -> Result<(), Refusal> {
        lent::seat(&mut self.buffer[..], seat)
    }

    /// Takes the last entry back.
    ///
    /// # Errors
    ///
    /// [`Refusal::Bare`].
    pub fn undo(&mut self) -> Result<(), Refusal> {
        lent::undo(&mut self.buffer[..])
    }

    /// Puts the record of a file in the place of this one.
    ///
    /// # Errors
    ///
    /// [`Refusal::File`], as [`Record::from_file`].
    pub fn read(&mut self, file: &[u8]) -> Result<(), Refusal> {
        lent::read(&mut self.buffer[..], file)
    }

    /// The empty total, moment and centre of gravity, from the last weighing,
    /// plain or paired, and the changes behind it.
    ///
    /// # Errors
    ///
    /// [`Refusal::Unweighed`].
    pub fn centre_of_gravity(&self) -> Result<CentreOfGravity, Refusal> {
        lent::centre(&self.buffer[..])
    }

    /// The loading placard, into the front of `out`; bytes behind it stay. How
    /// its lines read is said with [`lent::placard`].
    ///
    /// # Errors
    ///
    /// [`Refusal::Unweighed`], [`Refusal::NoSheet`], [`Refusal::Short`].
    pub fn placard(&self, out: &mut [u8]) -> Result<Counts, Refusal> {
        lent::placard(&self.buffer[..], out)
    }

    /// The loading placard as text.
    ///
    /// # Errors
    ///
    /// [`Refusal::Unweighed`], [`Refusal::NoSheet`].
    pub fn placard_text(&self) -> Result<String, Refusal> {
        let mut out = [0; LONGEST_PLACARD];
        let counts = self.placard(&mut out)?;
        // Digits, points, hyphens, spaces and line feeds: a byte is a character.
        Ok(out
            .iter()
            .take(counts.bytes)
            .copied()
            .map(char::from)
            .collect())
    }

    /// The equipment by station, into the front of three columns: how many arms there
    /// are. What goes where is said with [`lent::equipment`].
    ///
    /// # Errors
    ///
    /// [`Refusal::Unweighed`], [`Refusal::Short`].
    pub fn equipment(
        &self,
        arms: &mut [i64],
        weights: &mut [i64],
        nonlifting: &mut [i64],
    ) -> Result<usize, Refusal> {
        lent::equipment(&self.buffer[..], arms, weights, nonlifting)
    }

    /// The equipment by station as a list: what the changes behind the last weighing
    /// come to at each arm, from the nose aft.
    ///
    /// # Errors
    ///
    /// [`Refusal::Unweighed`].
    ///
    /// ```
    /// use nodhulika::{Change, Equipment, Record, Refusal, Weighing};
    ///
    /// let mut record = Record::new();
    /// record.weigh(&Weighing {
    ///     m: Weighing::WHEEL_AND_TAIL,
    ///     p: 288_000,
    ///     q: 0,
    ///     a: 63_334,
    ///     b: 500_000,
    ///     n: 140_000,
    /// })?;
    /// assert_eq!(record.equipment_list()?, []);
    ///
    /// // Ballast beside the wheel taken out, and a battery fitted at the nose.
    /// record.change(&Change { c: -1_200, arm: 9_500, flag: Change::NON_LIFTING })?;
    /// record.change(&Change { c: 2_650, arm: -100_000, flag: Change::NON_LIFTING })?;
    /// assert_eq!(
    ///     record.equipment_list()?,
    ///     [
    ///         Equipment { arm: -100_000, weight: 2_650, nonlifting: 2_650 },
    ///         Equipment { arm: 9_500, weight: -1_200, nonlifting: -1_200 },
    ///     ]
    /// );
    /// # Ok::<(), Refusal>(())
    /// ```
    pub fn equipment_list(&self) -> Result<Vec<Equipment>, Refusal> {
        let [mut arms, mut weights, mut nonlifting] = [[0; MOST_ARMS]; 3];
        let count = self.equipment(&mut arms, &mut weights, &mut nonlifting)?;
        Ok(arms
            .into_iter()
            .zip(weights)
            .zip(nonlifting)
            .take(count)
            .map(|((arm, weight), nonlifting)| Equipment {
                arm,
                weight,
                nonlifting,
            })
            .collect())
    }

    /// The record's file, of version 2, which [`Record::from_file`] reads back.
    pub fn as_bytes(&self) -> &[u8] {
        lent::front(&self.buffer[..]).unwrap_or_default()
    }
}

impl Default for Record {
    /// A fresh record.
    fn default() -> Record {
        Record::new()
    }
}

impl PartialEq for Record {
    fn eq(&self, other: &Record) -> bool {
        self.as_bytes() == other.as_bytes()
    }
}

impl Eq for Record {}

impl fmt::Debug for Record {
    fn fmt(&self, f: &mut fmt::Formatter<'_>) -> fmt::Result {
        f.debug_struct("Record")
            .field("file", &self.as_bytes())
            .finish()
    }
}
