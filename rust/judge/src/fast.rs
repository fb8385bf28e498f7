//! The same answers a third time, as fast as safe Rust gives them: what the proved
//! library is timed against.
//!
//! The conditions of the entries, the bytes of the file and the limits of a sheet and
//! a seat are those of [`direct`](crate::direct). What is done otherwise:
//!
//! - Changes that stand behind one another are read by a loop of their own.
//! - The equipment is summed up while the entries are read: an arm's place is found by a
//!   number that is made of it. Only then are the arms sorted, each once.
//! - A row takes no division. A limit's room changes evenly with the water, so its
//!   quotient and remainder are carried from row to row, and only those of the
//!   limits that more water makes tighter.
//! - The characters of a field are made all at once, in one word: those of a water
//!   once for all rows, those of a rear load once for the rows beside it, and those
//!   of a front load when it is not the one of the row before.

use crate::direct::{
    call_by, change, change_from, cut, Answer, Limits, Line, Page, Record, Steps, Sums, CHANGE,
    CHANGE_KIND, FIELD, HALVES, LINE, MOST_ROWS,
};
use crate::paper::{Call, Centre, Change, Columns, Counts};

// ---- The file ----

/// The record at the front of a buffer; refused with 12 where there is none.
fn record(buffer: &[u8]) -> Answer<Record> {
    walk(buffer, &mut ()).ok_or(12)
}

/// What hears of the entries as they are walked.
trait Hears {
    /// A weighing, plain or paired.
    fn weighing(&mut self);

    /// A change.
    fn change(&mut self, change: &Change);
}

/// Nothing does.
impl Hears for () {
    fn weighing(&mut self) {}

    fn change(&mut self, _: &Change) {}
}

/// Walks the entries; none where the front of the buffer is no file.
fn walk(buffer: &[u8], hears: &mut impl Hears) -> Option<Record> {
    let (mut record, mut rest) = Record::open(buffer)?;
    let mut left = usize::from(record.count);
    while left > 0 {
        record.last = record.length - rest.len();
        if rest.first() == Some(&CHANGE_KIND) {
            let (sums, run) = take_changes(record.sums?, rest, left, hears)?;
            record.sums = Some(sums);
            // No change is whole where the file ends within the first.
            record.last += run.checked_sub(1)? * CHANGE;
            rest = &rest[run * CHANGE..];
            left -= run;
        } else {
            if let Some(1 | 4) = rest.first() {
                hears.weighing();
            }
            rest = record.take(rest)?;
            left -= 1;
        }
    }
    rest.is_empty().then_some(record)
}

/// Takes in the whole changes at the front of `rest`, so many at most: the sums
/// after them, and how many they are.
fn take_changes(
    mut sums: Sums,
    rest: &[u8],
    most: usize,
    hears: &mut impl Hears,
) -> Option<(Sums, usize)> {
    let (entries, _) = rest.as_chunks::<CHANGE>();
    let entries = &entries[..most.min(entries.len())];
    for (run, entry) in entries.iter().enumerate() {
        if entry[0] != CHANGE_KIND {
            return Some((sums, run));
        }
        let entry = change_from(entry);
        sums = change(Some(sums), &entry).ok()?;
        hears.change(&entry);
    }
    Some((sums, entries.len()))
}

// ---- The calls ----

/// As [`direct::check`](crate::direct::check).
pub fn check(buffer: &[u8]) -> u64 {
    record(buffer).err().unwrap_or(0)
}

/// As [`direct::call`](crate::direct::call).
pub fn call(buffer: &mut [u8], call: &Call) -> u64 {
    call_by(record, buffer, call)
}

/// As [`direct::centre`](crate::direct::centre).
pub fn centre(buffer: &[u8]) -> Result<Centre, u64> {
    record(buffer)?.centre()
}

// ---- From row to row ----

/// A number over a divisor, rounded down, so that the remainder is not negative.
#[derive(Clone, Copy)]
struct Division {
    quotient: i64,
    remainder: i64,
}

impl Division {
    fn of(number: i64, divisor: i64) -> Division {
        Division {
            quotient: number.div_euclid(divisor),
            remainder: number.rem_euclid(divisor),
        }
    }
}

/// A line whose room is carried from row to row, over the size of its factor.
struct Carried {
    line: Line,
    divisor: i64,
    /// What one water step takes from the room.
    fall: Division,
    /// The room of the row.
    room: Division,
}

impl Carried {
    /// With the water step in half grams.
    fn new(line: Line, water_step: i64) -> Carried {
        // A factor of 0 asks for the sign of the room alone.
        let divisor = line.factor.abs().max(1);
        Carried {
            line,
            divisor,
            fall: Division::of(-line.water * water_step, divisor),
            room: Division::of(line.room, divisor),
        }
    }

    /// Begins with the empty tank, beside a rear load in half grams.
    fn begin(&mut self, r: i64, steps: &mut Steps) {
        self.room = Division::of(self.line.room(r, 0), self.divisor);
        steps.bound(self.line.factor, self.room.quotient);
    }

    /// Goes on to the next water. Where that leaves more room, or as much, the
    /// empty tank has bounded the steps for all rows.
    fn advance(&mut self, steps: &mut Steps) {
        if self.line.water >= 0 {
            return;
        }
        self.room.quotient -= self.fall.quotient;
        self.room.remainder -= self.fall.remainder;
        if self.room.remainder < 0 {
            self.room.quotient -= 1;
            self.room.remainder += self.divisor;
        }
        steps.bound(self.line.factor, self.room.quotient);
    }
}

// ---- The placard ----

/// The field of a load in a blank row.
const NO_LOAD: u64 = u64::from_le_bytes([b'-'; FIELD]);

/// Four digits of kilograms, a point and three of grams, the first of them in the
/// lowest byte.
fn field(weight: u32) -> u64 {
    let weight = u64::from(weight);
    // Two numbers below 10,000 in lanes of 32 bits, four below 100 in lanes of 16,
    // eight digits in bytes: each time a lane's upper digits go to its lower half.
    // A product and a shift divide all lanes at once; a mask drops what comes down
    // from the next lane.
    let numbers = weight / 1_000 + ((weight % 1_000) << 32);
    let hundreds = ((numbers * 5_243) >> 19) & 0x0000_007f_0000_007f;
    let pairs = hundreds + (numbers << 16) - 100 * (hundreds << 16);
    let tens = ((pairs * 103) >> 10) & 0x000f_000f_000f_000f;
    let digits = tens + (pairs << 8) - 10 * (tens << 8);
    // The point is where the thousands of grams are, of which there are none.
    digits + u64::from_le_bytes(*b"0000.000")
}

/// Writes a line.
fn write(line: &mut [u8; LINE], fields: [u64; 4]) {
    let (places, _) = line.as_chunks_mut::<{ FIELD + 1 }>();
    for (place, field) in places.iter_mut().zip(fields) {
        place[..FIELD].copy_from_slice(&field.to_le_bytes());
        place[FIELD] = b' ';
    }
    line[LINE - 1] = b'\n';
}

/// A front load in steps, and its field.
struct Load {
    steps: i64,
    field: u64,
}

impl Load {
    /// No front load has 0 steps.
    const NONE: Load = Load { steps: 0, field: 0 };

    /// The field of so many steps, made anew where it was another number.
    fn field(&mut self, steps: i64, step: i64) -> u64 {
        if steps != self.steps {
            self.steps = steps;
            self.field = field((steps * step) as u32);
        }
        self.field
    }
}

/// What is kept while a placard is written.
struct Writer<'a> {
    limits: &'a Limits,
    /// WET, S ≥ FWD·T and the safe aft limit.
    carried: [Carried; 3],
    /// The fields of the waters.
    waters: &'a [u64],
    smallest: Load,
    largest: Load,
}

impl<'a> Writer<'a> {
    /// With the water step in half grams.
    fn new(limits: &'a Limits, waters: &'a [u64], water_step: i64) -> Writer<'a> {
        let wet = Line {
            factor: limits.factor,
            room: limits.wet,
            rear: -1,
            water: -1,
        };
        let lines = [wet, limits.forward, limits.aft];
        Writer {
            limits,
            carried: lines.map(|line| Carried::new(line, water_step)),
            waters,
            smallest: Load::NONE,
            largest: Load::NONE,
        }
    }

    /// Writes the lines beside a rear load; how many of them are blank.
    fn write_rows(&mut self, rear: u32, lines: &mut [[u8; LINE]]) -> usize {
        let r = HALVES * i64::from(rear);
        let rear = field(rear);
        let limits = self.limits;
        let mut steps = limits.steps;
        // DRY and NLP leave as much with any water.
        steps.limit(limits.factor, limits.dry - r);
        for carried in &mut self.carried {
            carried.begin(r, &mut steps);
        }
        let mut blank = 0;
        for (line, water) in lines.iter_mut().zip(self.waters) {
            if steps.low > steps.high {
                // More water makes no limit wider.
                write(line, [rear, *water, NO_LOAD, NO_LOAD]);
                blank += 1;
                continue;
            }
            let smallest = self.smallest.field(steps.low, limits.step);
            let largest = self.largest.field(steps.high, limits.step);
            write(line, [rear, *water, smallest, largest]);
            for carried in &mut self.carried {
                carried.advance(&mut steps);
            }
        }
        blank
    }
}

/// As [`direct::placard`](crate::direct::placard).
pub fn placard(buffer: &[u8], out: &mut [u8]) -> Result<Counts, u64> {
    let Page {
        sheet,
        limits,
        waters,
        lines,
    } = record(buffer)?.page(buffer, out)?;
    let (rear_step, water_step) = (sheet.rear_step as u32, sheet.water_step as u32);
    let mut fields = [0; MOST_ROWS as usize];
    let fields = &mut fields[..waters];
    for (j, water) in fields.iter_mut().enumerate() {
        *water = field(j as u32 * water_step);
    }
    let mut writer = Writer::new(&limits, fields, HALVES * i64::from(water_step));
    let (rows, mut blank) = (lines.len(), 0);
    for (i, lines) in lines.chunks_exact_mut(waters).enumerate() {
        blank += writer.write_rows(i as u32 * rear_step, lines);
    }
    let bytes = rows * LINE;
    Ok(Counts { bytes, rows, blank })
}

// ---- Equipment by station ----

/// The most changes behind a weighing.
const MOST_CHANGES: usize = 63;

/// Places for the arms, and one that none has: a power of two.
const PLACES: usize = MOST_CHANGES + 1;

/// What changes at one arm come to.
#[derive(Clone, Copy, Default)]
struct Net {
    arm: i64,
    weight: i64,
    nonlifting: i64,
}

/// The nets of the changes behind the last weighing that was walked past, the arms in
/// the order in which they came.
struct Nets {
    /// From 1 on.
    places: [Net; PLACES],
    count: usize,
    /// Where an arm has its place, by a number of eight bits that is made of it, or by
    /// one behind that; 0 where none is.
    found: [u8; 256],
}

impl Nets {
    fn new() -> Nets {
        Nets {
            places: [Net::default(); PLACES],
            count: 0,
            found: [0; 256],
        }
    }

    /// The arms that have a place, the foremost first, each as one number with its
    /// place at the end.
    fn in_order<'a>(&self, arms: &'a mut [u64; MOST_CHANGES]) -> &'a [u64] {
        let arms = &mut arms[..self.count];
        for ((arm, net), place) in arms.iter_mut().zip(&self.places[1..]).zip(1..) {
            // No arm is below -2,000,000.
            *arm = ((net.arm + 2_000_000) as u64) << 8 | place;
        }
        arms.sort_unstable();
        arms
    }
}

impl Hears for Nets {
    fn weighing(&mut self) {
        if self.count > 0 {
            *self = Nets::new();
        }
    }

    fn change(&mut self, change: &Change) {
        let Change { c, arm, flag } = *change;
        let nonlifting = c * flag as i64;
        let mut at = ((arm as u32).wrapping_mul(0x9e37_79b9) >> 24) as u8;
        loop {
            let place = &mut self.found[usize::from(at)];
            let net = &mut self.places[usize::from(*place) % PLACES];
            if *place == 0 {
                self.count += 1;
                *place = self.count as u8;
                self.places[self.count % PLACES] = Net {
                    arm,
                    weight: c,
                    nonlifting,
                };
                return;
            }
            if net.arm == arm {
                net.weight += c;
                net.nonlifting += nonlifting;
                return;
            }
            at = at.wrapping_add(1);
        }
    }
}

/// As [`direct::equipment`](crate::direct::equipment).
pub fn equipment(buffer: &[u8], columns: Columns) -> Result<usize, u64> {
    let mut nets = Nets::new();
    let record = walk(buffer, &mut nets).ok_or(12u64)?;
    record.sums.ok_or(7u64)?;
    let columns = cut(columns, nets.count)?;
    let mut arms = [0; MOST_CHANGES];
    let places = columns
        .arms
        .iter_mut()
        .zip(columns.weights)
        .zip(columns.nonlifting);
    for (arm, ((lent, weight), nonlifting)) in nets.in_order(&mut arms).iter().zip(places) {
        let net = nets.places[*arm as usize % PLACES];
        (*lent, *weight, *nonlifting) = (net.arm, net.weight, net.nonlifting);
    }
    Ok(nets.count)
}

#[cfg(test)]
mod tests {
    use super::*;
    use crate::direct;

    /// Arms that share the number they are found by, and more of them than one other.
    #[test]
    fn arms_that_are_found_by_one_number() {
        let number = |arm: i64| (arm as u32).wrapping_mul(0x9e37_79b9) >> 24;
        let alike = (-2_000_000..=2_000_000).filter(|arm| number(*arm) == 255);
        let alike: Vec<i64> = alike.step_by(200).take(MOST_CHANGES / 2).collect();
        let mut nets = Nets::new();
        for arm in alike.iter().rev().chain(&alike) {
            let (c, flag) = (*arm | 1, u64::from(*arm < 0));
            nets.change(&Change { c, arm: *arm, flag });
        }
        assert_eq!(nets.count, alike.len());
        let mut arms = [0; MOST_CHANGES];
        for (arm, due) in nets.in_order(&mut arms).iter().zip(&alike) {
            let net = nets.places[*arm as usize % PLACES];
            assert_eq!((net.arm, net.weight), (*due, 2 * (*due | 1)));
            assert_eq!(net.nonlifting, net.weight * i64::from(*due < 0));
        }
    }

    #[test]
    fn every_field_is_the_one_made_digit_by_digit() {
        for weight in 0..=2_000_000 {
            assert_eq!(field(weight).to_le_bytes(), direct::field(weight));
        }
    }

    /// Factors, rooms and falls of every sign, carried and divided anew.
    #[test]
    fn a_carried_room_is_the_one_divided_anew() {
        const STEPS: Steps = Steps { low: 1, high: 30 };
        const REAR: i64 = 2;
        const WATER_STEP: i64 = 4;
        let lines = (-5..=5).flat_map(|factor| {
            (-60..=60).flat_map(move |room| {
                (-9..=9).map(move |water| Line {
                    factor,
                    room,
                    rear: 3,
                    water,
                })
            })
        });
        for line in lines {
            let mut carried = Carried::new(line, WATER_STEP);
            let mut steps = STEPS;
            carried.begin(REAR, &mut steps);
            for water in 0..12 {
                let mut anew = STEPS;
                anew.limit(line.factor, line.room(REAR, water * WATER_STEP));
                assert_eq!((steps.low, steps.high), (anew.low, anew.high));
                carried.advance(&mut steps);
            }
        }
    }
}
