//! What the calls take and give. The names are those of the library's arguments.

/// A weighing, which gives the empty total G and moment M.
///
/// | method | G | M |
/// |---|---|---|
/// | 1, wheel and tail | p | p·a + q·b |
/// | 2, nose and wheel | p | (p − q)·b − p·a |
/// | 3, two slings | p + q | q·b − G·a |
/// | 4, wheel and tail held down by jury ballast | p − q | G·a − q·b |
///
/// G must be 1..2,000,000 g.
#[derive(Clone, Copy, Debug, PartialEq, Eq, Hash)]
pub struct Weighing {
    /// The method, 1..4: one of the constants of this type.
    pub m: u64,
    /// The first reading, 0..2,000,000 g: in methods 1 and 2 the total, in 3 the
    /// front one, in 4 the platform.
    pub p: u64,
    /// The second reading, 0..2,000,000 g: in methods 1 and 3 the rear one, in 2
    /// the front one, in 4 the lift, which is the ballast less the rear reading.
    /// In methods 1 and 2 it is at most p.
    pub q: u64,
    /// From the datum to the front point, −2,000,000..2,000,000 hundredths of a
    /// millimetre; positive aft of the datum in methods 1 and 4, ahead of it in
    /// 2 and 3.
    pub a: i64,
    /// From the front point to the rear one, 1..2,000,000 hundredths of a
    /// millimetre.
    pub b: u64,
    /// The weight of the non-lifting parts, 0..G g.
    pub n: u64,
}

impl Weighing {
    /// Method 1: on wheel and tail.
    pub const WHEEL_AND_TAIL: u64 = 1;
    /// Method 2: on nose and wheel.
    pub const NOSE_AND_WHEEL: u64 = 2;
    /// Method 3: in two slings.
    pub const TWO_SLINGS: u64 = 3;
    /// Method 4: on wheel and tail, the tail held down by jury ballast.
    pub const JURY_BALLAST: u64 = 4;
}

/// A paired weighing: the glider is disturbed, read again, and both readings
/// count.
///
/// Total and moment are the sums over both, each worked out by the method as
/// with a [`Weighing`]: in half grams, so the average in grams. A weighing
/// counts as the pair of its readings with themselves.
///
/// ```
/// use nodhulika::{Paired, Record, Refusal, Weighing};
///
/// let mut record = Record::new();
/// record.weigh_paired(&Paired {
///     m: Weighing::WHEEL_AND_TAIL,
///     p: 288_000,
///     q: 0,
///     p2: 288_001,
///     q2: 0,
///     a: 63_334,
///     b: 500_000,
///     n: 140_000,
/// })?;
/// assert_eq!(record.centre_of_gravity()?.total, 576_001);
/// # Ok::<(), Refusal>(())
/// ```
#[derive(Clone, Copy, Debug, PartialEq, Eq, Hash)]
pub struct Paired {
    /// The method, 1..4: one of the constants of [`Weighing`].
    pub m: u64,
    /// The first reading p, as in a [`Weighing`].
    pub p: u64,
    /// The first reading q, as in a [`Weighing`].
    pub q: u64,
    /// The second reading p', which keeps to the same ranges as the first.
    pub p2: u64,
    /// The second reading q', which keeps to the same ranges as the first.
    pub q2: u64,
    /// The distance a, as in a [`Weighing`].
    pub a: i64,
    /// The distance b, as in a [`Weighing`].
    pub b: u64,
    /// The weight of the non-lifting parts, in grams: at most the smaller of the
    /// two totals.
    pub n: u64,
}

/// A load cell.
#[derive(Clone, Copy, Debug, PartialEq)]
pub struct Cell {
    /// What it is rated for, in kilograms: the most that it may show. A reading is
    /// compared with it as it was sent, before it is rounded and before the zero is taken
    /// off. It may be above 2000 kg.
    pub rated: f64,
    /// What it shows without the glider, 0..2000 kg; at the tail in method 4 the jury
    /// ballast is on it.
    pub zero: f64,
}

/// What an indicator sends for one reading, and the cell that it is of.
///
/// A message is nine bytes: the state, 1 stable, 2 moving or 3 over, and then the reading
/// in kilograms, a binary64 with its highest byte first. Only a stable one is taken; with
/// any other the weighing is refused as [unsteady](crate::Refusal::Unsteady).
///
/// The reading is 0..2000 kg and at most what the cell is rated for. It becomes whole
/// grams: the whole number nearest to its exact value times 1000, of two that are as near
/// the even one. It is rounded once, from the exact value: 0.0025 lies above two and a
/// half grams and is 3 g, 0.0055 lies below five and a half and is 5 g, and 0.0625, which
/// is 62.5 g exactly, is 62 g. A zero's grams are found alike.
#[derive(Clone, Copy, Debug, PartialEq)]
pub struct Message<'a> {
    /// The bytes that were sent.
    pub bytes: &'a [u8],
    /// The cell that they are of.
    pub cell: Cell,
}

impl<'a> Message<'a> {
    /// The bytes that were sent, and the cell that they are of.
    pub const fn new(bytes: &'a [u8], cell: Cell) -> Message<'a> {
        Message { bytes, cell }
    }
}

/// A paired weighing as an indicator sends it.
///
/// What is added is an ordinary [`Paired`] weighing of the four nets, in whole grams: the
/// reading's grams with those of the cell's zero taken off. Of q and q' in method 4 it is
/// the zero's with the reading's taken off: the zero of that cell holds the jury ballast,
/// and the net is the lift. A net must not be below nought. Nothing of the cells and of
/// the numbers that were sent is kept.
///
/// ```
/// use nodhulika::{Cell, Indicated, Message, Record, Refusal, Weighing};
///
/// // 288 kg under the wheel; under the tail half a kilogram, which is that cell's zero:
/// // the state, and then the float.
/// let wheel = [1, 0x40, 0x72, 0x00, 0x00, 0x00, 0x00, 0x00, 0x00];
/// let tail = [1, 0x3f, 0xe0, 0x00, 0x00, 0x00, 0x00, 0x00, 0x00];
/// assert_eq!(wheel[1..], 288.0_f64.to_be_bytes());
///
/// let platform = Cell { rated: 500.0, zero: 0.0 };
/// let hook = Cell { rated: 50.0, zero: 0.5 };
/// let weighing = Indicated {
///     m: Weighing::WHEEL_AND_TAIL,
///     p: Message::new(&wheel, platform),
///     q: Message::new(&tail, hook),
///     p2: Message::new(&wheel, platform),
///     q2: Message::new(&tail, hook),
///     a: 63_334,
///     b: 500_000,
///     n: 140_000,
/// };
/// let mut record = Record::new();
/// record.weigh_indicated(&weighing)?;
/// assert_eq!(record.centre_of_gravity()?.total, 2 * 288_000);
///
/// // The glider still swings.
/// let mut moving = wheel;
/// moving[0] = 2;
/// let p2 = Message::new(&moving, platform);
/// assert_eq!(
///     record.weigh_indicated(&Indicated { p2, ..weighing }),
///     Err(Refusal::Unsteady)
/// );
/// # Ok::<(), Refusal>(())
/// ```
#[derive(Clone, Copy, Debug, PartialEq)]
pub struct Indicated<'a> {
    /// The method, 1..4: one of the constants of [`Weighing`].
    pub m: u64,
    /// The first reading p.
    pub p: Message<'a>,
    /// The first reading q.
    pub q: Message<'a>,
    /// The second reading p'.
    pub p2: Message<'a>,
    /// The second reading q'.
    pub q2: Message<'a>,
    /// The distance a, as in a [`Weighing`].
    pub a: i64,
    /// The distance b, as in a [`Weighing`].
    pub b: u64,
    /// The weight of the non-lifting parts, in grams: at most the smaller of the
    /// two totals.
    pub n: u64,
}

/// Where a load goes.
#[derive(Clone, Copy, Debug, PartialEq, Eq, Hash)]
pub struct Station {
    /// The arm of the load, in hundredths of a millimetre, positive aft.
    pub arm: i64,
    /// The greatest load, in grams: at most 500,000 at a seat, and for water the
    /// capacity of the tanks, at most 2,000,000.
    pub most: u64,
    /// The step of the load, in grams: 1..500,000 at a seat, 1..2,000,000 for
    /// water.
    pub step: u64,
}

/// A type's data sheet.
///
/// The placard has a row for each multiple of the rear step up to the greatest
/// rear load and each multiple of the water step up to the capacity, from 0: at
/// most 256 rows.
#[derive(Clone, Copy, Debug, PartialEq, Eq, Hash)]
pub struct Sheet {
    /// The forward limit of the centre of gravity in flight, as an arm.
    pub fwd: i64,
    /// The aft limit, as an arm, more than `fwd`. The placard keeps 5 % of the
    /// range inside it.
    pub aft: i64,
    /// The greatest weight without water, 1..2,000,000 g.
    pub dry: u64,
    /// The greatest weight with water, `dry`..2,000,000 g.
    pub wet: u64,
    /// The greatest non-lifting weight, 0..2,000,000 g; 0 is no limit.
    pub nlp: u64,
    /// The front seat. Its arm holds until a [`Seat`] overrides it.
    pub front: Station,
    /// The least front load, in grams, at most the greatest. A load of 0 never
    /// keeps the limits: where this is 0 a row begins at the next step at the
    /// earliest.
    pub front_least: u64,
    /// The rear seat; in a single-seater its greatest load is 0.
    pub rear: Station,
    /// The wing water.
    pub water: Station,
}

/// A change of equipment.
///
/// It adds c to the total, c times arm to the moment and, for a non-lifting
/// part, c to the non-lifting weight.
#[derive(Clone, Copy, Debug, PartialEq, Eq, Hash)]
pub struct Change {
    /// The weight, −2,000,000..2,000,000 g and not 0; positive where it is
    /// fitted, negative where it is taken out.
    pub c: i64,
    /// Its arm, in hundredths of a millimetre, positive aft.
    pub arm: i64,
    /// 1 for a non-lifting part, else 0: one of the constants of this type.
    pub flag: u64,
}

impl Change {
    /// The flag of a part that lifts.
    pub const LIFTING: u64 = 0;
    /// The flag of a non-lifting part.
    pub const NON_LIFTING: u64 = 1;
}

/// A front seat whose back can be adjusted: the arm of the front load is known only
/// to lie between two ends.
///
/// It overrides the front arm of the data sheet before it until the next data sheet
/// or seat. A front load then keeps the limits only where it does so at every arm
/// between the ends, both included.
///
/// ```
/// use nodhulika::{Record, Refusal, Seat, Sheet, Station, Weighing};
///
/// let mut record = Record::new();
/// record.weigh(&Weighing {
///     m: Weighing::WHEEL_AND_TAIL,
///     p: 288_000,
///     q: 0,
///     a: 63_334,
///     b: 500_000,
///     n: 140_000,
/// })?;
/// record.install(&Sheet {
///     fwd: 25_000,
///     aft: 42_500,
///     dry: 380_000,
///     wet: 380_000,
///     nlp: 0,
///     front: Station { arm: -47_500, most: 110_000, step: 1_000 },
///     front_least: 55_000,
///     rear: Station { arm: 0, most: 0, step: 1 },
///     water: Station { arm: 0, most: 0, step: 1 },
/// })?;
/// assert_eq!(record.placard_text()?, "0000.000 0000.000 0071.000 0092.000\n");
///
/// record.seat(&Seat { lower: -55_000, higher: -40_000 })?;
/// assert_eq!(record.placard_text()?, "0000.000 0000.000 0077.000 0092.000\n");
/// # Ok::<(), Refusal>(())
/// ```
#[derive(Clone, Copy, Debug, PartialEq, Eq, Hash)]
pub struct Seat {
    /// The lower end, as an arm, in hundredths of a millimetre.
    pub lower: i64,
    /// The higher end, as an arm, at least the lower one.
    pub higher: i64,
}

/// A glider's empty total, moment and centre of gravity.
///
/// Total and moment are in half grams, since a paired weighing can leave a half.
/// As an `f64` either of them by 2 is exact in grams, and prints as one would
/// write it:
///
/// ```
/// use nodhulika::CentreOfGravity;
///
/// let twice = CentreOfGravity { total: 576_001, moment: -3, centre: 0 };
/// assert_eq!(format!("{} g", twice.total as f64 / 2.0), "288000.5 g");
/// assert_eq!(format!("{}", twice.moment as f64 / 2.0), "-1.5");
/// ```
#[derive(Clone, Copy, Debug, PartialEq, Eq, Hash)]
pub struct CentreOfGravity {
    /// The total, 2..4,000,000 half grams.
    pub total: u64,
    /// The moment, in half grams times hundredths of a millimetre.
    pub moment: i64,
    /// The centre of gravity as an arm: moment by total to the nearest hundredth
    /// of a millimetre, halves towards the tail.
    pub centre: i64,
}

/// What the changes behind the last weighing come to at one arm, in whole grams.
#[derive(Clone, Copy, Debug, PartialEq, Eq, Hash)]
pub struct Equipment {
    /// The arm, in hundredths of a millimetre, positive aft.
    pub arm: i64,
    /// The net weight: the sum of c over the changes at that arm. It is 0 where what
    /// was fitted was taken out again, and negative where more was taken out.
    pub weight: i64,
    /// The net non-lifting weight: the same over the non-lifting parts alone.
    pub nonlifting: i64,
}

/// What a placard comes to.
#[derive(Clone, Copy, Debug, PartialEq, Eq, Hash)]
pub struct Counts {
    /// The bytes written, [`LINE`](crate::LINE) for each row.
    pub bytes: usize,
    /// The rows, 1..256.
    pub rows: usize,
    /// The rows for which no front load keeps every limit.
    pub blank: usize,
}
