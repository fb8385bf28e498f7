//! Paper 01 by plain loops, and cards 1, 2, 4, 5 and 6 of paper 02 with it.
//!
//! Every rule stands here as the paper words it, under the paper's heading, and
//! every number is an `i128`, so that no argument can overflow a test; what an
//! indicator sends is a whole number of the smallest part that a float can have.
//! Nothing is solved: a row tries each step of the front load in turn.
//!
//! Card 1, "both readings stay": a weighing may have two readings, totals and
//! moments are sums over both and so in half grams, and "a plain weighing counts
//! as a pair of equals". What is given stays in grams, and every other weight is
//! doubled where it meets such a sum.
//!
//! Card 2, "nobody in the seat": a front load of 0 "no longer keeps the limits"
//! with any water aboard, "even where the sheet's least load is 0".
//!
//! Card 4, "adjustable seat backs": a seat entry gives two ends that the arm of the
//! front load lies between. They count in the place of the sheet's own front arm
//! until another sheet or seat comes, and a load keeps the limits where it does so at
//! each whole arm from the one end to the other.
//!
//! Card 5, "equipment by station": "for the changes behind the last weighing, fill
//! lent columns with each arm once, foremost first, and the net weight and net
//! non-lifting weight there in grams, a net of nought included".
//!
//! Card 6, "load-cell indicator": a weighing may come as the four messages of an
//! indicator, each "a state byte (1 stable, 2 moving, 3 over) and eight bytes of a
//! binary64, big-endian", with the rating and the zero of its cell. "A stable reading
//! becomes the whole gram nearest to the float's exact value times 1000, a tie going to
//! the even gram; the zero's grams, found alike, are then taken off", or the other way
//! round for q and q' in method 4. What they come to is entered as a paired weighing.
//! No float is reckoned with: of each there is only its pattern.
//!
//! Readings of the papers, where their words leave room:
//!
//! - FWD < AFT is a range of the sheet and not the range of an arm ("an arm lies
//!   in −2,000,000..2,000,000"), so a sheet that breaks it is refused with 4.
//! - "A weight is at most 2,000,000 g" holds for DRY, WET, NLP and the capacity
//!   alike: number 4. All ranges of the steps belong to number 5.
//! - DRY below G and NLP below n are no refusal; they make blank rows.
//! - All conditions of one number count together, and the numbers are tested in
//!   the paper's order. In a method outside 1..4 there is no G to be tested, and
//!   rows are not counted where a step is out of range; the number is the same.
//! - A flag other than 0 and 1 is out of range: number 6.
//! - Steps are multiples of the front step, counted from 0 and not from the
//!   least front load. 0 is one where least is 0, and never a load that keeps
//!   the limits.
//! - A file is a whole one: with a byte over or missing it is none.
//! - Reading back does not ask whether the record is full: it replaces it.
//! - Of a pair all conditions of one number count together too: a fault of the
//!   second reading under number 1 comes before one of the first under 3.
//! - The least total after a change is doubled like the greatest: 2 half grams.
//!   The water left aboard is still tried by whole grams.
//! - The centre's total and moment are the sums in half grams.
//! - A seat entry wants a sheet in the list and no weighing. Equal ends are accepted.
//!   Weighings and changes leave it in force. A sheet behind it ends it, even an equal
//!   one, and brings it back when it is taken back itself.
//! - A file of version 1 has no pairs and no seats; there is no version but 1 and 2.
//! - The equipment goes into three columns with lengths of their own. Where any of
//!   them is shorter than there are arms it is refused with 11, and none is written.
//!   Sheets and seats between the changes make no difference.
//! - 13 and 14 come "before the weighing's own checks", so before 9 too. In a method
//!   outside 1..4 nothing is turned round, and 1 comes behind them.
//! - The rating, 2000 kg and nought are compared with the float as it was sent. A rating
//!   below nought refuses every reading; the zero is not compared with the rating.
//! - What an over reading says beside its state is not looked at, and neither is a moving
//!   one's float: both are 13.
//! - "A net below nought" is one in whole grams: the reading may be below its zero.

use std::cmp::Ordering;

// Half grams in a gram.
const HALVES: i128 = 2;

// Limits: greatest weight, arm and seat load, and the counts.
const WEIGHT: i128 = 2_000_000;
const ARM: i128 = 2_000_000;
const LOAD: i128 = 500_000;
const MOST_ROWS: i128 = 256;
const MOST_ENTRIES: usize = 64;

// Bytes of a placard's line.
const LINE: usize = 36;

// The version that is written, and the older one, which is still read.
const VERSION: u8 = 2;
const OLD_VERSION: u8 = 1;

// Numbers of refusal, by the trade's words.
const ACCEPTED: u64 = 0;
const READING: u64 = 1;
const BAD_ARM: u64 = 2;
const NON_LIFTING: u64 = 3;
const SHEET: u64 = 4;
const ROWS: u64 = 5;
const CHANGE: u64 = 6;
const UNWEIGHED: u64 = 7;
const NO_SHEET: u64 = 8;
const FULL: u64 = 9;
const BARE: u64 = 10;
const SHORT: u64 = 11;
const FILE: u64 = 12;
const UNSTEADY: u64 = 13;
const BAD_LOAD: u64 = 14;

/// Up to this much water a row tries every whole gram; above it, both ends.
const EVERY_GRAM: i128 = 400;

/// The same for the arms from one end of a seat to the other.
pub(crate) const EVERY_ARM: i128 = 100;

/// A weighing: the method, what the scales read and where they stood.
#[derive(Clone, Copy, Debug, PartialEq, Eq)]
pub struct Weighing {
    /// Method, 1 to 4.
    pub m: u64,
    /// First reading, in grams.
    pub p: u64,
    /// Second reading, in grams.
    pub q: u64,
    /// Signed distance of the first support from the datum.
    pub a: i64,
    /// Distance between the supports.
    pub b: u64,
    /// Non-lifting weight, in grams.
    pub n: u64,
}

/// A paired weighing: the glider was disturbed and the scales read again.
#[derive(Clone, Copy, Debug, PartialEq, Eq)]
pub struct Paired {
    /// Method, 1 to 4.
    pub m: u64,
    /// First reading p, in grams.
    pub p: u64,
    /// First reading q, in grams.
    pub q: u64,
    /// Second reading p', in grams.
    pub p2: u64,
    /// Second reading q', in grams.
    pub q2: u64,
    /// Signed distance of the first support from the datum.
    pub a: i64,
    /// Distance between the supports.
    pub b: u64,
    /// Non-lifting weight, in grams.
    pub n: u64,
}

/// A load cell, by the patterns of its two floats of 64 bits, in kilograms.
#[derive(Clone, Copy, Debug, PartialEq, Eq)]
pub struct Cell {
    /// What it is rated for.
    pub rated: u64,
    /// What it shows without the glider.
    pub zero: u64,
}

/// What an indicator sent for one reading, and the cell that it read.
#[derive(Clone, Debug, PartialEq, Eq)]
pub struct Message {
    /// The state and the float, nine bytes where nothing was lost.
    pub bytes: Vec<u8>,
    /// The cell.
    pub cell: Cell,
}

impl Message {
    /// A stable reading of a float.
    pub fn stable(pattern: u64, cell: Cell) -> Message {
        let bytes = [&[1], pattern.to_be_bytes().as_slice()].concat();
        Message { bytes, cell }
    }
}

/// A paired weighing as an indicator sent it.
#[derive(Clone, Debug, PartialEq, Eq)]
pub struct Indicated {
    /// Method, 1 to 4.
    pub m: u64,
    /// First reading p.
    pub p: Message,
    /// First reading q.
    pub q: Message,
    /// Second reading p'.
    pub p2: Message,
    /// Second reading q'.
    pub q2: Message,
    /// Signed distance of the first support from the datum.
    pub a: i64,
    /// Distance between the supports.
    pub b: u64,
    /// Non-lifting weight, in grams.
    pub n: u64,
}

/// A data sheet: the limits of the type and the steps of its placard.
#[derive(Clone, Copy, Debug, PartialEq, Eq)]
pub struct Sheet {
    /// Forward limit of the centre of gravity.
    pub fwd: i64,
    /// Aft limit of the centre of gravity.
    pub aft: i64,
    /// Greatest weight without water.
    pub dry: u64,
    /// Greatest weight with water.
    pub wet: u64,
    /// Greatest non-lifting weight, 0 for no limit.
    pub nlp: u64,
    /// Arm of the front load.
    pub front_arm: i64,
    /// Least front load.
    pub front_least: u64,
    /// Greatest front load.
    pub front_most: u64,
    /// Step of the front load.
    pub front_step: u64,
    /// Arm of the rear load.
    pub rear_arm: i64,
    /// Greatest rear load, 0 in a single-seater.
    pub rear_most: u64,
    /// Step of the rear load.
    pub rear_step: u64,
    /// Arm of the wing water.
    pub water_arm: i64,
    /// Capacity of the water tanks.
    pub capacity: u64,
    /// Step of the water.
    pub water_step: u64,
}

/// A change of equipment.
#[derive(Clone, Copy, Debug, PartialEq, Eq)]
pub struct Change {
    /// Weight put in, or taken out where negative.
    pub c: i64,
    /// Arm of the part.
    pub arm: i64,
    /// 1 for a non-lifting part, else 0.
    pub flag: u64,
}

/// A seat whose back can be adjusted: the arm of the front load lies between two
/// ends.
#[derive(Clone, Copy, Debug, PartialEq, Eq)]
pub struct Seat {
    /// The lower end, an arm.
    pub lower: i64,
    /// The higher end, an arm.
    pub higher: i64,
}

/// An entry of the journal.
#[derive(Clone, Copy, Debug, PartialEq, Eq)]
pub enum Entry {
    /// The glider was weighed.
    Weighing(Weighing),
    /// A data sheet came into force.
    Sheet(Sheet),
    /// Equipment was changed.
    Change(Change),
    /// The glider was weighed twice.
    Paired(Paired),
    /// The front arm lies between two ends.
    Seat(Seat),
}

/// A call on the record.
#[derive(Clone, Debug, PartialEq, Eq)]
pub enum Call {
    /// Add a weighing.
    Weigh(Weighing),
    /// Add a paired weighing.
    Pair(Paired),
    /// Add a paired weighing that an indicator sent.
    Indicate(Indicated),
    /// Add a data sheet.
    Install(Sheet),
    /// Add a change.
    Change(Change),
    /// Add a seat.
    Seat(Seat),
    /// Take the last entry back.
    Undo,
    /// Replace the record by the one in these bytes.
    Read(Vec<u8>),
}

/// The empty centre of gravity and what it comes from.
#[derive(Clone, Copy, Debug, PartialEq, Eq)]
pub struct Centre {
    /// Total weight G, in half grams.
    pub total: u64,
    /// Moment M, in half grams times hundredths of a millimetre.
    pub moment: i64,
    /// M/G to the nearest unit, halves towards the tail.
    pub centre: i64,
}

/// What a placard's answer counts.
#[derive(Clone, Copy, Debug, PartialEq, Eq)]
pub struct Counts {
    /// Bytes written.
    pub bytes: usize,
    /// Rows of the sheet in force.
    pub rows: usize,
    /// Rows without a front load that keeps every limit.
    pub blank: usize,
}

/// Columns that are lent for the equipment by station: how many elements each has is
/// its own.
pub struct Columns<'a> {
    /// Where the arms go.
    pub arms: &'a mut [i64],
    /// Where the net weight at each arm goes.
    pub weights: &'a mut [i64],
    /// Where the net non-lifting weight at each arm goes.
    pub nonlifting: &'a mut [i64],
}

/// The paper's journal: the accepted entries in order.
///
/// The entries are open to be read and to be made wrong on purpose for a test
/// file; the methods answer for those that [`Journal::call`] accepts.
#[derive(Clone, Debug, Default, PartialEq, Eq)]
pub struct Journal {
    /// The entries, oldest first.
    pub entries: Vec<Entry>,
}

// ---- The record ----

/// G, M and n, in half grams.
#[derive(Clone, Copy, Debug)]
pub(crate) struct Sums {
    pub(crate) g: i128,
    pub(crate) m: i128,
    pub(crate) n: i128,
}

/// Two readings of a glider, each a weighing with what they have in common.
type Readings = [Weighing; 2];

/// "A plain weighing counts as a pair of equals".
fn alike(w: &Weighing) -> Readings {
    [*w, *w]
}

/// The two pairs of readings of a paired weighing.
fn both(x: &Paired) -> Readings {
    let reading = |p, q| Weighing {
        m: x.m,
        p,
        q,
        a: x.a,
        b: x.b,
        n: x.n,
    };
    [reading(x.p, x.q), reading(x.p2, x.q2)]
}

/// G of one reading, in grams; of any method beside 1 to 3 as of method 4.
fn total(w: &Weighing) -> i128 {
    let (p, q) = (i128::from(w.p), i128::from(w.q));
    match w.m {
        1 | 2 => p,
        3 => p + q,
        _ => p - q,
    }
}

/// M of one reading, in grams.
fn moment(w: &Weighing) -> i128 {
    let (p, q) = (i128::from(w.p), i128::from(w.q));
    let (a, b) = (i128::from(w.a), i128::from(w.b));
    let g = total(w);
    match w.m {
        1 => p * a + q * b,
        2 => (p - q) * b - p * a,
        3 => q * b - g * a,
        _ => g * a - q * b,
    }
}

/// "The sums over both pairs, in half grams", of an accepted weighing.
fn weighed(readings: &Readings) -> Sums {
    Sums {
        g: readings.iter().map(total).sum(),
        m: readings.iter().map(moment).sum(),
        n: readings.iter().map(|w| i128::from(w.n)).sum(),
    }
}

/// G, M and n after a change.
fn changed(before: Sums, change: &Change) -> Sums {
    let (c, arm) = (HALVES * i128::from(change.c), i128::from(change.arm));
    Sums {
        g: before.g + c,
        m: before.m + c * arm,
        n: if change.flag == 1 {
            before.n + c
        } else {
            before.n
        },
    }
}

// ---- Numbers of refusal: the ranges ----

fn is_arm(arm: i64) -> bool {
    (-ARM..=ARM).contains(&i128::from(arm))
}

fn is_weight(weight: i128) -> bool {
    (0..=WEIGHT).contains(&weight)
}

/// Whether one reading keeps to number 1, in grams.
fn is_reading(w: &Weighing) -> bool {
    let method = (1..=4).contains(&w.m);
    let readings = is_weight(i128::from(w.p)) && is_weight(i128::from(w.q));
    let part_of_total = w.q <= w.p || (w.m != 1 && w.m != 2);
    method && readings && part_of_total && (1..=WEIGHT).contains(&total(w))
}

/// Whether a and b keep to number 2.
fn are_distances(w: &Weighing) -> bool {
    is_arm(w.a) && (1..=ARM).contains(&i128::from(w.b))
}

/// Whether both ends are arms and in their order, as number 2 has it.
fn are_ends(seat: &Seat) -> bool {
    is_arm(seat.lower) && is_arm(seat.higher) && seat.lower <= seat.higher
}

/// Whether the sums after a change keep to number 6.
fn is_total(sums: &Sums) -> bool {
    (HALVES..=HALVES * WEIGHT).contains(&sums.g)
}

/// Rows of a sheet whose steps are in their ranges: rear loads, waters.
fn row_counts(s: &Sheet) -> (i128, i128) {
    let rears = i128::from(s.rear_most) / i128::from(s.rear_step) + 1;
    let waters = i128::from(s.capacity) / i128::from(s.water_step) + 1;
    (rears, waters)
}

/// "another sheet range broken, those of number 5 apart".
fn sheet_ranges_hold(s: &Sheet) -> bool {
    let (dry, wet) = (i128::from(s.dry), i128::from(s.wet));
    let (least, most) = (i128::from(s.front_least), i128::from(s.front_most));
    s.fwd < s.aft
        && (1..=WEIGHT).contains(&dry)
        && dry <= wet
        && is_weight(wet)
        && is_weight(i128::from(s.nlp))
        && least <= most
        && most <= LOAD
        && i128::from(s.rear_most) <= LOAD
        && is_weight(i128::from(s.capacity))
}

/// "a step outside its range, or over 256 rows", the other way round.
fn steps_and_rows_hold(s: &Sheet) -> bool {
    let steps_hold = (1..=LOAD).contains(&i128::from(s.front_step))
        && (1..=LOAD).contains(&i128::from(s.rear_step))
        && (1..=WEIGHT).contains(&i128::from(s.water_step));
    if !steps_hold {
        return false;
    }
    let (rears, waters) = row_counts(s);
    rears * waters <= MOST_ROWS
}

// ---- An indicator ----

/// A whole number of up to 2,176 bits, its highest word first, so that two of them
/// compare as their words do in turn.
#[derive(Clone, Copy, PartialEq, Eq, PartialOrd, Ord)]
struct Whole([u64; 34]);

impl Whole {
    /// A number with so many bits of 0 behind it.
    fn shifted(number: u64, by: usize) -> Whole {
        let mut words = [0; 34];
        let wide = u128::from(number) << (by % 64);
        let last = words.len() - 1 - by / 64;
        words[last] = wide as u64;
        words[last - 1] = (wide >> 64) as u64;
        Whole(words)
    }

    fn times(self, factor: u64) -> Whole {
        let mut words = self.0;
        let mut carried = 0;
        for word in words.iter_mut().rev() {
            let product = u128::from(*word) * u128::from(factor) + carried;
            *word = product as u64;
            carried = product >> 64;
        }
        assert_eq!(carried, 0);
        Whole(words)
    }

    /// How far apart two numbers are.
    fn apart(self, other: Whole) -> Whole {
        let (more, less) = (self.max(other), self.min(other));
        let mut words = more.0;
        let mut borrowed = false;
        for (word, taken) in words.iter_mut().zip(less.0).rev() {
            let (rest, first) = word.overflowing_sub(taken);
            let (rest, second) = rest.overflowing_sub(u64::from(borrowed));
            (*word, borrowed) = (rest, first || second);
        }
        Whole(words)
    }
}

/// The bits behind the point of the smallest part that a float can have: every float
/// that is a number is a whole number of such parts.
const PARTS: usize = 1_074;

/// So many kilograms, as parts.
fn parts(kilograms: u64) -> Whole {
    Whole::shifted(kilograms, PARTS)
}

/// Kilograms that a float says exactly. "Minus nought is nought".
#[derive(Clone, Copy)]
struct Kilograms {
    below_nought: bool,
    /// How many parts, whatever the sign.
    parts: Whole,
}

impl Kilograms {
    /// By the pattern of a float: a sign, eleven bits of exponent and 52 of fraction.
    /// None where it is no number or not finite.
    fn of(pattern: u64) -> Option<Kilograms> {
        let (exponent, fraction) = (pattern >> 52 & 0x7ff, pattern & ((1 << 52) - 1));
        let size = match exponent {
            0x7ff => return None,
            0 => Whole::shifted(fraction, 0),
            _ => Whole::shifted(1 << 52 | fraction, exponent as usize - 1),
        };
        Some(Kilograms {
            below_nought: pattern >> 63 == 1 && size != parts(0),
            parts: size,
        })
    }

    fn is_above(&self, other: &Kilograms) -> bool {
        match (self.below_nought, other.below_nought) {
            (true, true) => self.parts < other.parts,
            (false, false) => self.parts > other.parts,
            (_, other_below) => other_below,
        }
    }

    /// Neither "below nought" nor "above 2000 kg".
    fn is_load(&self) -> bool {
        !self.below_nought && self.parts <= parts(2_000)
    }

    /// "The whole gram nearest to the float's exact value times 1000, a tie going to the
    /// even gram", of a load: the grams below and above are found by halves, and it is
    /// seen which of them is nearer.
    fn grams(&self) -> i128 {
        let exact = self.parts.times(1_000);
        let (mut below, mut above) = (0, 2_000_001);
        while above - below > 1 {
            let middle = (below + above) / 2;
            if parts(middle) <= exact {
                below = middle;
            } else {
                above = middle;
            }
        }
        let [to_below, to_above] = [below, above].map(|grams| parts(grams).apart(exact));
        let even = if below % 2 == 0 { below } else { above };
        i128::from(match to_below.cmp(&to_above) {
            Ordering::Less => below,
            Ordering::Equal => even,
            Ordering::Greater => above,
        })
    }
}

/// "So a reading is each stable or moving with kilograms as a 64-bit float, or over":
/// the float of a stable one by its pattern; that of a moving one counts for nothing.
enum Reading {
    Stable(u64),
    Moving,
    Over,
}

impl Reading {
    /// None of "a reading not of nine bytes" or "a state other than 1 to 3".
    fn of(bytes: &[u8]) -> Option<Reading> {
        if bytes.len() != 9 {
            return None;
        }
        let mut pattern = 0;
        for byte in &bytes[1..] {
            pattern = pattern * 256 + u64::from(*byte);
        }
        match bytes[0] {
            1 => Some(Reading::Stable(pattern)),
            2 => Some(Reading::Moving),
            3 => Some(Reading::Over),
            _ => None,
        }
    }
}

/// The float of a stable reading; any other is refused with 13.
fn stable(message: &Message) -> Result<u64, u64> {
    match Reading::of(&message.bytes) {
        Some(Reading::Stable(pattern)) => Ok(pattern),
        Some(Reading::Moving | Reading::Over) | None => Err(UNSTEADY),
    }
}

/// The grams of a stable reading with its cell's zero taken off, or where it is turned
/// round of the zero with the reading taken off; refused with 14.
fn net_grams(reading: u64, cell: &Cell, turned: bool) -> Result<u64, u64> {
    let number = |pattern| Kilograms::of(pattern).ok_or(BAD_LOAD);
    let (reading, rated, zero) = (number(reading)?, number(cell.rated)?, number(cell.zero)?);
    if !reading.is_load() || reading.is_above(&rated) || !zero.is_load() {
        return Err(BAD_LOAD);
    }
    let net = if turned {
        zero.grams() - reading.grams()
    } else {
        reading.grams() - zero.grams()
    };
    u64::try_from(net).map_err(|_| BAD_LOAD)
}

/// The paired weighing that four messages feed; refused with 13, "over all four", and
/// then with 14.
pub fn weighed_by_indicator(x: &Indicated) -> Result<Paired, u64> {
    let p = stable(&x.p)?;
    let q = stable(&x.q)?;
    let p2 = stable(&x.p2)?;
    let q2 = stable(&x.q2)?;
    let holds_ballast = x.m == 4;
    Ok(Paired {
        m: x.m,
        p: net_grams(p, &x.p.cell, false)?,
        q: net_grams(q, &x.q.cell, holds_ballast)?,
        p2: net_grams(p2, &x.p2.cell, false)?,
        q2: net_grams(q2, &x.q2.cell, holds_ballast)?,
        a: x.a,
        b: x.b,
        n: x.n,
    })
}

// ---- The journal ----

impl Journal {
    /// An empty journal.
    pub fn new() -> Journal {
        Journal::default()
    }

    /// The call's number, 0 where it is accepted; the journal afterwards is as
    /// the paper has it.
    pub fn call(&mut self, call: &Call) -> u64 {
        match call {
            Call::Weigh(w) => self.add(self.weighing_number(&alike(w)), Entry::Weighing(*w)),
            Call::Pair(x) => self.add(self.weighing_number(&both(x)), Entry::Paired(*x)),
            Call::Indicate(x) => match weighed_by_indicator(x) {
                Ok(paired) => self.call(&Call::Pair(paired)),
                Err(number) => number,
            },
            Call::Install(s) => self.add(self.sheet_number(s), Entry::Sheet(*s)),
            Call::Change(c) => self.add(self.change_number(c), Entry::Change(*c)),
            Call::Seat(s) => self.add(self.seat_number(s), Entry::Seat(*s)),
            Call::Undo => match self.entries.pop() {
                Some(_) => ACCEPTED,
                None => BARE,
            },
            Call::Read(bytes) => match Journal::read(bytes) {
                Ok(journal) => {
                    *self = journal;
                    ACCEPTED
                }
                Err(number) => number,
            },
        }
    }

    /// An entry "to which the table gives no number goes to its end".
    fn add(&mut self, number: u64, entry: Entry) -> u64 {
        if number == ACCEPTED {
            self.entries.push(entry);
        }
        number
    }

    fn is_full(&self) -> bool {
        self.entries.len() >= MOST_ENTRIES
    }

    /// Order: weighing 9, 1, 2, 3. "Each pair passes the old checks and n is at
    /// most the smaller total".
    fn weighing_number(&self, readings: &Readings) -> u64 {
        if self.is_full() {
            return FULL;
        }
        if !readings.iter().all(is_reading) {
            return READING;
        }
        if !readings.iter().all(are_distances) {
            return BAD_ARM;
        }
        if !readings.iter().all(|w| i128::from(w.n) <= total(w)) {
            return NON_LIFTING;
        }
        ACCEPTED
    }

    /// Order: sheet 9, 2, 4, 5.
    fn sheet_number(&self, s: &Sheet) -> u64 {
        if self.is_full() {
            return FULL;
        }
        let arms = [s.fwd, s.aft, s.front_arm, s.rear_arm, s.water_arm];
        if !arms.into_iter().all(is_arm) {
            return BAD_ARM;
        }
        if !sheet_ranges_hold(s) {
            return SHEET;
        }
        if !steps_and_rows_hold(s) {
            return ROWS;
        }
        ACCEPTED
    }

    /// Order: change 9, 7, 2, 6, 3.
    fn change_number(&self, change: &Change) -> u64 {
        if self.is_full() {
            return FULL;
        }
        let Some(before) = self.sums() else {
            return UNWEIGHED;
        };
        if !is_arm(change.arm) {
            return BAD_ARM;
        }
        let c = i128::from(change.c);
        let after = changed(before, change);
        let weight = (-WEIGHT..=WEIGHT).contains(&c) && c != 0;
        if !weight || change.flag > 1 || !is_total(&after) {
            return CHANGE;
        }
        if !(0..=after.g).contains(&after.n) {
            return NON_LIFTING;
        }
        ACCEPTED
    }

    /// Order: 9; 8 where the list has no sheet; 2 by the ends.
    fn seat_number(&self, seat: &Seat) -> u64 {
        if self.is_full() {
            return FULL;
        }
        if self.sheet().is_none() {
            return NO_SHEET;
        }
        if !are_ends(seat) {
            return BAD_ARM;
        }
        ACCEPTED
    }

    /// "G, M and n are those of the last weighing in the list and the changes
    /// behind it"; none where there is no weighing.
    pub(crate) fn sums(&self) -> Option<Sums> {
        let mut sums = None;
        for entry in &self.entries {
            match entry {
                Entry::Weighing(w) => sums = Some(weighed(&alike(w))),
                Entry::Paired(x) => sums = Some(weighed(&both(x))),
                Entry::Change(c) => sums = sums.map(|before| changed(before, c)),
                Entry::Sheet(_) | Entry::Seat(_) => {}
            }
        }
        sums
    }

    /// The sheet in force: the last one in the list.
    pub fn sheet(&self) -> Option<Sheet> {
        let mut sheet = None;
        for entry in &self.entries {
            if let Entry::Sheet(s) = entry {
                sheet = Some(*s);
            }
        }
        sheet
    }

    /// The seat in force: the last one in the list, unless a sheet stands behind it.
    pub fn seat(&self) -> Option<Seat> {
        let mut seat = None;
        for entry in &self.entries {
            match entry {
                Entry::Sheet(_) => seat = None,
                Entry::Seat(s) => seat = Some(*s),
                _ => {}
            }
        }
        seat
    }

    /// The ends that the arm of the front load lies between: those of the seat in
    /// force, or the front arm of the sheet as both.
    fn ends(&self, sheet: &Sheet) -> Seat {
        self.seat().unwrap_or(Seat {
            lower: sheet.front_arm,
            higher: sheet.front_arm,
        })
    }

    /// The empty centre of gravity; refused with 7 where nothing was weighed.
    pub fn centre(&self) -> Result<Centre, u64> {
        let Sums { g, m, .. } = self.sums().ok_or(UNWEIGHED)?;
        // Halves towards the tail: M/G + 1/2 rounded down. G is at least 2.
        let centre = (2 * m + g).div_euclid(2 * g);
        Ok(Centre {
            total: g as u64,
            moment: m as i64,
            centre: centre as i64,
        })
    }
}

// ---- A row ----

/// The lines of "A row" for one front load p at an arm, rear load r and water v
/// aboard: "every other weight and weight limit is doubled" with G, M and n. With
/// nobody in the seat the limits are not kept.
fn keeps(sums: &Sums, sheet: &Sheet, arm: i128, p: i128, r: i128, v: i128) -> bool {
    let Sums { g, m, n } = *sums;
    let (p, r, v) = (HALVES * p, HALVES * r, HALVES * v);
    let dry = HALVES * i128::from(sheet.dry);
    let wet = HALVES * i128::from(sheet.wet);
    let nlp = HALVES * i128::from(sheet.nlp);
    let (fwd, aft) = (i128::from(sheet.fwd), i128::from(sheet.aft));
    let rear_arm = i128::from(sheet.rear_arm);
    let water_arm = i128::from(sheet.water_arm);
    let t = g + p + r + v;
    let s = m + p * arm + r * rear_arm + v * water_arm;
    p != 0
        && g + p + r <= dry
        && g + p + r + v <= wet
        && (nlp == 0 || n + p + r <= nlp)
        && s >= fwd * t
        && 20 * s <= (19 * aft + fwd) * t
}

/// Every whole number from low to high, as the papers have it of the water and of
/// the arms.
fn every(low: i128, high: i128) -> Vec<i128> {
    (low..=high).collect()
}

/// The lowest and the highest. For a fixed P each line of the papers is linear in v,
/// whatever the arm, and in the arm, whatever v: its two sides differ by an amount
/// that changes evenly from end to end, so that it holds for all between when it
/// holds at both ends.
fn both_ends(low: i128, high: i128) -> Vec<i128> {
    vec![low, high]
}

/// What is tried from low to high: every number where that is not too far.
fn tried(low: i128, high: i128, far: i128) -> Vec<i128> {
    if high - low <= far {
        every(low, high)
    } else {
        both_ends(low, high)
    }
}

/// How many numbers that is.
fn tries(low: i128, high: i128, far: i128) -> i128 {
    if high - low <= far {
        high - low + 1
    } else {
        2
    }
}

/// The arms and the waters that a row tries.
struct Tried {
    arms: Vec<i128>,
    waters: Vec<i128>,
}

impl Tried {
    fn new(seat: &Seat, w: i128) -> Tried {
        Tried {
            arms: tried(seat.lower.into(), seat.higher.into(), EVERY_ARM),
            waters: tried(0, w, EVERY_GRAM),
        }
    }
}

/// Whether a front load keeps the limits at each of the arms with each of the waters.
fn keeps_every_limit(sums: &Sums, sheet: &Sheet, tried: &Tried, p: i128, r: i128) -> bool {
    let keeps_with = |v| {
        tried
            .arms
            .iter()
            .all(|arm| keeps(sums, sheet, *arm, p, r, v))
    };
    tried.waters.iter().all(|v| keeps_with(*v))
}

/// The smallest and the largest front load that keeps every limit, found by
/// trying each multiple of the front step from least to greatest.
fn row(sums: &Sums, sheet: &Sheet, tried: &Tried, r: i128) -> Option<(i128, i128)> {
    let mut range = None;
    let mut p = 0;
    while p <= i128::from(sheet.front_most) {
        if p >= i128::from(sheet.front_least) && keeps_every_limit(sums, sheet, tried, p, r) {
            let smallest = range.map_or(p, |(first, _)| first);
            range = Some((smallest, p));
        }
        p += i128::from(sheet.front_step);
    }
    range
}

// ---- The placard ----

/// Four digits of kilograms, a point and three of grams.
fn kilograms(weight: i128) -> String {
    format!("{:04}.{:03}", weight / 1000, weight % 1000)
}

/// One line: rear, water, smallest, largest.
fn line(r: i128, w: i128, range: Option<(i128, i128)>) -> String {
    let blank = || "-".repeat(8);
    let smallest = range.map_or_else(blank, |(first, _)| kilograms(first));
    let largest = range.map_or_else(blank, |(_, last)| kilograms(last));
    format!("{} {} {smallest} {largest}\n", kilograms(r), kilograms(w))
}

/// Tests of the limits that the placard of an accepted sheet takes at most, with one
/// arm of the front load.
pub(crate) fn sheet_work(sheet: &Sheet) -> u64 {
    let (rears, waters) = row_counts(sheet);
    let steps = i128::from(sheet.front_most) / i128::from(sheet.front_step) + 1;
    let tried: i128 = (0..waters)
        .map(|j| j * i128::from(sheet.water_step))
        .map(|w| tries(0, w, EVERY_GRAM))
        .sum();
    (rears * steps * tried) as u64
}

/// How many arms of an accepted seat are tried.
pub(crate) fn seat_work(seat: &Seat) -> u64 {
    tries(seat.lower.into(), seat.higher.into(), EVERY_ARM) as u64
}

impl Journal {
    /// The placard, written to the front of `out`; refused with 7, 8 or 11.
    pub fn placard(&self, out: &mut [u8]) -> Result<Counts, u64> {
        let sums = self.sums().ok_or(UNWEIGHED)?;
        let sheet = self.sheet().ok_or(NO_SHEET)?;
        let seat = self.ends(&sheet);
        let (rears, waters) = row_counts(&sheet);
        let rows = (rears * waters) as usize;
        if out.len() < rows * LINE {
            return Err(SHORT);
        }
        let (mut at, mut blank) = (0, 0);
        for i in 0..rears {
            for j in 0..waters {
                let r = i * i128::from(sheet.rear_step);
                let w = j * i128::from(sheet.water_step);
                let range = row(&sums, &sheet, &Tried::new(&seat, w), r);
                out[at..at + LINE].copy_from_slice(line(r, w, range).as_bytes());
                at += LINE;
                blank += usize::from(range.is_none());
            }
        }
        Ok(Counts {
            bytes: at,
            rows,
            blank,
        })
    }

    /// About how many times [`Journal::placard`] would test the limits: rows
    /// times steps times the waters and the arms tried. 0 where it would be refused.
    pub fn placard_work(&self) -> u64 {
        match (self.sums(), self.sheet()) {
            (Some(_), Some(sheet)) => sheet_work(&sheet) * seat_work(&self.ends(&sheet)),
            _ => 0,
        }
    }

    /// Bytes of the placard, where a weighing and a sheet stand.
    pub(crate) fn placard_bytes(&self) -> Option<usize> {
        self.sums()?;
        let (rears, waters) = row_counts(&self.sheet()?);
        Some((rears * waters) as usize * LINE)
    }
}

// ---- Equipment by station ----

impl Journal {
    /// "The changes behind the last weighing"; none where there is no weighing.
    fn changes(&self) -> Option<Vec<Change>> {
        let mut changes: Option<Vec<Change>> = None;
        for entry in &self.entries {
            match entry {
                Entry::Weighing(_) | Entry::Paired(_) => changes = Some(Vec::new()),
                Entry::Change(change) => {
                    if let Some(changes) = &mut changes {
                        changes.push(*change);
                    }
                }
                Entry::Sheet(_) | Entry::Seat(_) => {}
            }
        }
        changes
    }

    /// The equipment by station, in grams: how many arms there are; refused with 7 or
    /// 11. Elements behind the last arm stay.
    pub fn equipment(&self, columns: Columns) -> Result<usize, u64> {
        let changes = self.changes().ok_or(UNWEIGHED)?;
        let arms = each_arm_once(&changes);
        let Columns {
            arms: lent,
            weights,
            nonlifting,
        } = columns;
        let shortest = lent.len().min(weights.len()).min(nonlifting.len());
        if shortest < arms.len() {
            return Err(SHORT);
        }
        for (i, arm) in arms.iter().enumerate() {
            lent[i] = *arm as i64;
            weights[i] = net(&changes, *arm, |_| true) as i64;
            nonlifting[i] = net(&changes, *arm, |change| change.flag == 1) as i64;
        }
        Ok(arms.len())
    }

    /// Arms of the equipment, where a weighing stands.
    pub(crate) fn stations(&self) -> Option<usize> {
        Some(each_arm_once(&self.changes()?).len())
    }
}

/// "Each arm once, foremost first": the smallest of all, and each time the smallest of
/// those behind the one before.
fn each_arm_once(changes: &[Change]) -> Vec<i128> {
    let mut arms: Vec<i128> = Vec::new();
    loop {
        let mut next = None;
        for change in changes {
            let arm = i128::from(change.arm);
            let behind = arms.last().is_none_or(|last| *last < arm);
            if behind && next.is_none_or(|next| arm < next) {
                next = Some(arm);
            }
        }
        match next {
            Some(arm) => arms.push(arm),
            None => return arms,
        }
    }
}

/// The sum of c over those of the changes at an arm that count.
fn net(changes: &[Change], arm: i128, counts: impl Fn(&Change) -> bool) -> i128 {
    let mut sum = 0;
    for change in changes {
        if i128::from(change.arm) == arm && counts(change) {
            sum += i128::from(change.c);
        }
    }
    sum
}

// ---- The file ----

// The bytes of an entry. Accepted values all fit in four bytes; cut to four, a
// negative one is in two's complement.

fn unsigned(value: u64) -> [u8; 4] {
    (value as u32).to_be_bytes()
}

fn signed(value: i64) -> [u8; 4] {
    (value as i32).to_be_bytes()
}

fn weighing_bytes(w: &Weighing) -> Vec<u8> {
    let fields = [
        unsigned(w.p),
        unsigned(w.q),
        signed(w.a),
        unsigned(w.b),
        unsigned(w.n),
    ];
    [&[1, w.m as u8], fields.as_flattened()].concat()
}

fn sheet_bytes(s: &Sheet) -> Vec<u8> {
    let fields = [
        signed(s.fwd),
        signed(s.aft),
        unsigned(s.dry),
        unsigned(s.wet),
        unsigned(s.nlp),
        signed(s.front_arm),
        unsigned(s.front_least),
        unsigned(s.front_most),
        unsigned(s.front_step),
        signed(s.rear_arm),
        unsigned(s.rear_most),
        unsigned(s.rear_step),
        signed(s.water_arm),
        unsigned(s.capacity),
        unsigned(s.water_step),
    ];
    [&[2], fields.as_flattened()].concat()
}

fn change_bytes(change: &Change) -> Vec<u8> {
    let fields = [signed(change.c), signed(change.arm)];
    [&[3], fields.as_flattened(), &[change.flag as u8]].concat()
}

fn paired_bytes(x: &Paired) -> Vec<u8> {
    let fields = [
        unsigned(x.p),
        unsigned(x.q),
        unsigned(x.p2),
        unsigned(x.q2),
        signed(x.a),
        unsigned(x.b),
        unsigned(x.n),
    ];
    [&[4, x.m as u8], fields.as_flattened()].concat()
}

fn seat_bytes(seat: &Seat) -> Vec<u8> {
    let fields = [signed(seat.lower), signed(seat.higher)];
    [&[5], fields.as_flattened()].concat()
}

fn entry_bytes(entry: &Entry) -> Vec<u8> {
    match entry {
        Entry::Weighing(w) => weighing_bytes(w),
        Entry::Sheet(s) => sheet_bytes(s),
        Entry::Change(c) => change_bytes(c),
        Entry::Paired(x) => paired_bytes(x),
        Entry::Seat(s) => seat_bytes(s),
    }
}

/// Takes one field after another from the front of a file.
struct Fields<'a> {
    rest: &'a [u8],
}

impl Fields<'_> {
    fn take<const N: usize>(&mut self) -> Option<[u8; N]> {
        let (field, rest) = self.rest.split_first_chunk::<N>()?;
        self.rest = rest;
        Some(*field)
    }

    fn byte(&mut self) -> Option<u8> {
        self.take::<1>().map(|[byte]| byte)
    }

    fn unsigned(&mut self) -> Option<u64> {
        self.take()
            .map(|field| u64::from(u32::from_be_bytes(field)))
    }

    fn signed(&mut self) -> Option<i64> {
        self.take()
            .map(|field| i64::from(i32::from_be_bytes(field)))
    }

    /// The next entry of a file of a version, as the call that would add it.
    fn entry(&mut self, version: u8) -> Option<Call> {
        match self.byte()? {
            1 => self.weighing().map(Call::Weigh),
            2 => self.sheet().map(Call::Install),
            3 => self.change().map(Call::Change),
            4 if version == VERSION => self.paired().map(Call::Pair),
            5 if version == VERSION => self.seat().map(Call::Seat),
            _ => None,
        }
    }

    fn weighing(&mut self) -> Option<Weighing> {
        Some(Weighing {
            m: u64::from(self.byte()?),
            p: self.unsigned()?,
            q: self.unsigned()?,
            a: self.signed()?,
            b: self.unsigned()?,
            n: self.unsigned()?,
        })
    }

    fn sheet(&mut self) -> Option<Sheet> {
        Some(Sheet {
            fwd: self.signed()?,
            aft: self.signed()?,
            dry: self.unsigned()?,
            wet: self.unsigned()?,
            nlp: self.unsigned()?,
            front_arm: self.signed()?,
            front_least: self.unsigned()?,
            front_most: self.unsigned()?,
            front_step: self.unsigned()?,
            rear_arm: self.signed()?,
            rear_most: self.unsigned()?,
            rear_step: self.unsigned()?,
            water_arm: self.signed()?,
            capacity: self.unsigned()?,
            water_step: self.unsigned()?,
        })
    }

    fn change(&mut self) -> Option<Change> {
        Some(Change {
            c: self.signed()?,
            arm: self.signed()?,
            flag: u64::from(self.byte()?),
        })
    }

    fn paired(&mut self) -> Option<Paired> {
        Some(Paired {
            m: u64::from(self.byte()?),
            p: self.unsigned()?,
            q: self.unsigned()?,
            p2: self.unsigned()?,
            q2: self.unsigned()?,
            a: self.signed()?,
            b: self.unsigned()?,
            n: self.unsigned()?,
        })
    }

    fn seat(&mut self) -> Option<Seat> {
        Some(Seat {
            lower: self.signed()?,
            higher: self.signed()?,
        })
    }

    /// The whole journal of a file; none where it is not laid out as the paper
    /// says or an entry gets a number.
    fn journal(&mut self) -> Option<Journal> {
        let length = self.unsigned()?;
        if length != self.rest.len() as u64 {
            return None;
        }
        let version = self.byte()?;
        if version != VERSION && version != OLD_VERSION {
            return None;
        }
        let mut journal = Journal::new();
        for _ in 0..self.byte()? {
            let call = self.entry(version)?;
            if journal.call(&call) != ACCEPTED {
                return None;
            }
        }
        self.rest.is_empty().then_some(journal)
    }
}

impl Journal {
    /// The journal's file, of version 2.
    pub fn file(&self) -> Vec<u8> {
        self.file_as(VERSION)
    }

    /// The same bytes with a version of any number; a reader may refuse it.
    pub fn file_as(&self, version: u8) -> Vec<u8> {
        let mut body = vec![version, self.entries.len() as u8];
        for entry in &self.entries {
            body.extend(entry_bytes(entry));
        }
        let length = (body.len() as u32).to_be_bytes();
        [length.as_slice(), &body].concat()
    }

    /// Writes the file to the front of `out` and gives its length; refused with
    /// 11 where it does not fit. Bytes behind it stay.
    pub fn write(&self, out: &mut [u8]) -> Result<usize, u64> {
        let file = self.file();
        let front = out.get_mut(..file.len()).ok_or(SHORT)?;
        front.copy_from_slice(&file);
        Ok(file.len())
    }

    /// The journal whose file these bytes are; refused with 12 where they are
    /// no journal's file.
    pub fn read(bytes: &[u8]) -> Result<Journal, u64> {
        Fields { rest: bytes }.journal().ok_or(FILE)
    }
}

#[cfg(test)]
mod tests {
    use super::*;

    /// A plain congruential generator, enough for small gliders.
    struct Dice(u64);

    impl Dice {
        fn below(&mut self, n: u64) -> u64 {
            self.0 = self.0.wrapping_mul(6_364_136_223_846_793_005);
            self.0 = self.0.wrapping_add(1_442_695_040_888_963_407);
            (self.0 >> 33) % n
        }

        fn arm(&mut self) -> i64 {
            self.below(121) as i64 - 60
        }
    }

    /// A glider of a few hundred grams, or half a gram more, whose limits are met
    /// among its loads.
    fn small_glider(dice: &mut Dice) -> (Sums, Sheet) {
        let g = 1 + dice.below(300);
        let n = dice.below(g + 1);
        let halves = 2 * g + dice.below(2);
        let fwd = dice.arm();
        let dry = g + dice.below(80);
        let sheet = Sheet {
            fwd,
            aft: fwd + 1 + dice.below(30) as i64,
            dry,
            wet: dry + dice.below(40),
            nlp: [0, n + 30][dice.below(2) as usize],
            front_arm: dice.arm(),
            front_least: dice.below(10),
            front_most: 10 + dice.below(40),
            front_step: 1 + dice.below(4),
            rear_arm: dice.arm(),
            rear_most: 0,
            rear_step: 1,
            water_arm: dice.arm(),
            capacity: 0,
            water_step: 1,
        };
        let p = dice.below(40) as i64;
        let mean = (fwd + sheet.aft) / 2;
        let m = mean * (halves as i64 + 2 * p) - 2 * p * sheet.front_arm + dice.arm();
        let sums = Sums {
            g: halves.into(),
            m: m.into(),
            n: (2 * n).into(),
        };
        (sums, sheet)
    }

    /// Small gliders with a seat of up to 80 arms about the sheet's, and a row: rear
    /// load and water.
    fn small_rows() -> impl Iterator<Item = (Sums, Sheet, [i128; 2], i128, i128)> {
        let mut dice = Dice(1);
        (0..600).map(move |_| {
            let (sums, sheet) = small_glider(&mut dice);
            let lower = i128::from(sheet.front_arm) - i128::from(dice.below(40));
            let higher = lower + i128::from(dice.below(80));
            let (r, w) = (dice.below(20), dice.below(60));
            (sums, sheet, [lower, higher], r.into(), w.into())
        })
    }

    #[test]
    fn the_ends_of_water_and_seat_decide() {
        let mut kept = [0, 0];
        for (sums, sheet, [lower, higher], r, w) in small_rows() {
            let all = Tried {
                arms: every(lower, higher),
                waters: every(0, w),
            };
            let ends = Tried {
                arms: both_ends(lower, higher),
                waters: both_ends(0, w),
            };
            for p in 0..=i128::from(sheet.front_most) {
                let keeps = keeps_every_limit(&sums, &sheet, &all, p, r);
                let at_ends = keeps_every_limit(&sums, &sheet, &ends, p, r);
                let of = format!("{sums:?} {sheet:?} {lower}..{higher} p {p} r {r} w {w}");
                assert_eq!(keeps, at_ends, "{of}");
                kept[usize::from(keeps)] += 1;
            }
        }
        assert!(kept[0] > 2_000 && kept[1] > 2_000, "{kept:?}");
    }

    /// Neither end would do alone, nor the arm in the middle.
    #[test]
    fn one_arm_of_a_seat_would_allow_more() {
        let mut more = [0; 3];
        for (sums, sheet, [lower, higher], r, w) in small_rows() {
            let waters = || every(0, w);
            let arms = every(lower, higher);
            let all = Tried {
                arms,
                waters: waters(),
            };
            let alone = [lower, (lower + higher) / 2, higher].map(|arm| Tried {
                arms: vec![arm],
                waters: waters(),
            });
            for p in 0..=i128::from(sheet.front_most) {
                let keeps = keeps_every_limit(&sums, &sheet, &all, p, r);
                for (more, alone) in more.iter_mut().zip(&alone) {
                    let keeps_alone = keeps_every_limit(&sums, &sheet, alone, p, r);
                    assert!(keeps_alone || !keeps);
                    *more += usize::from(keeps_alone && !keeps);
                }
            }
        }
        assert!(more.iter().all(|count| *count > 200), "{more:?}");
    }

    /// Case G, with what each front load would be allowed by a test.
    fn smallest_in_g(allowed: impl Fn(&Sums, &Sheet, i128) -> bool) -> Option<i128> {
        let sums = Sums {
            g: 576_000,
            m: 576_000 * 63_334,
            n: 280_000,
        };
        let sheet = Sheet {
            fwd: 25_000,
            aft: 42_500,
            dry: 380_000,
            wet: 450_000,
            nlp: 240_000,
            front_arm: -47_500,
            front_least: 55_000,
            front_most: 110_000,
            front_step: 1_000,
            rear_arm: 0,
            rear_most: 0,
            rear_step: 1,
            water_arm: 30_000,
            capacity: 100_000,
            water_step: 50_000,
        };
        (55_000..=110_000)
            .step_by(1_000)
            .find(|p| allowed(&sums, &sheet, *p))
    }

    #[test]
    fn a_full_tank_alone_would_begin_at_64_kg() {
        let arm = -47_500;
        let seat = Seat {
            lower: arm,
            higher: arm,
        };
        let tried = Tried::new(&seat, 50_000);
        let full = smallest_in_g(|sums, sheet, p| keeps(sums, sheet, arm.into(), p, 0, 50_000));
        let every = smallest_in_g(|sums, sheet, p| keeps_every_limit(sums, sheet, &tried, p, 0));
        assert_eq!(full, Some(64_000));
        assert_eq!(every, Some(71_000));
    }
}
