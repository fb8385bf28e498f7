//! The same answers, solved directly, on a record lent as its file.
//!
//! The record is the file at the front of a byte buffer: its first 4 + L bytes,
//! where L is the number in the first four. What stands behind it is free and
//! is left alone. A buffer that ends before 4 + L bytes, or whose front is not
//! the file of any record, holds no record: number 12. On a refusal no byte of
//! any buffer changes. A file of version 1 is taken as it is; the first call
//! that changes it leaves one of version 2.
//!
//! All numbers fit in 64 bits once their ranges are tested; sums are in half
//! grams. The moment of a weighing is at most 2·8e12 = 1.6e13 either way, and 63
//! changes add at most 63·8e12, so M stays below 5.3e14. A front and a rear load
//! add 2e12 each and the water 8e12, so S stays below 5.4e14 and 20·S below
//! 1.1e16. On the other side T is at most 2·5e6 = 1e7 and 19·AFT + FWD at most
//! 4e7, so their product is at most 4e14. The coefficients of P, at most 8e6 and
//! 1.6e8, times a front step of 5e5 come to 8e13. An `i64` holds 9.2e18. The fraction
//! of a float, below 2^53, times 1000 stays below 2^63, and with half a gram more below
//! 2^64.

use crate::paper::{Call, Cell, Centre, Change, Columns, Counts, Indicated, Message};
use crate::paper::{Paired, Seat, Sheet, Weighing};
use std::collections::BTreeMap;

/// Half grams in a gram.
pub(crate) const HALVES: i64 = 2;

const WEIGHT: u64 = 2_000_000;
const ARM: i64 = 2_000_000;
const LOAD: u64 = 500_000;
pub(crate) const MOST_ROWS: u64 = 256;
const MOST_ENTRIES: u8 = 64;

/// Bytes of the length field, and of all that stands before the entries; where
/// the version stands among them, and the one that is written.
const LENGTH: usize = 4;
const HEAD: usize = 6;
const VERSION_AT: usize = 4;
const VERSION: u8 = 2;
/// Bytes of an entry with its kind byte.
const WEIGHING: usize = 22;
const SHEET: usize = 61;
pub(crate) const CHANGE: usize = 10;
const PAIRED: usize = 30;
const SEAT: usize = 9;
/// The kind byte of a change.
pub(crate) const CHANGE_KIND: u8 = 3;
/// Bytes of a line and of one of its fields.
pub(crate) const LINE: usize = 36;
pub(crate) const FIELD: usize = 8;

/// An accepted call, or the number of its refusal.
pub(crate) type Answer<T> = Result<T, u64>;

// ---- The entries and their conditions ----

/// G, M and n of the last weighing and the changes behind it, in half grams.
#[derive(Clone, Copy)]
pub(crate) struct Sums {
    g: i64,
    m: i64,
    n: i64,
}

fn is_arm(arm: i64) -> bool {
    (-ARM..=ARM).contains(&arm)
}

/// G of one reading in grams; refused with 1.
fn total(m: u64, p: u64, q: u64) -> Answer<i64> {
    if p > WEIGHT || q > WEIGHT {
        return Err(1);
    }
    let (p, q) = (p as i64, q as i64);
    let g = match m {
        1 | 2 if q <= p => p,
        3 => p + q,
        4 => p - q,
        _ => return Err(1),
    };
    if (1..=WEIGHT as i64).contains(&g) {
        Ok(g)
    } else {
        Err(1)
    }
}

/// M of readings that were accepted, or of their sums: it is linear in them.
fn moment(m: u64, p: i64, q: i64, a: i64, b: i64) -> i64 {
    match m {
        1 => p * a + q * b,
        2 => (p - q) * b - p * a,
        3 => q * b - (p + q) * a,
        _ => (p - q) * a - q * b,
    }
}

/// Refused with 2.
fn distances(a: i64, b: u64) -> Answer<()> {
    if is_arm(a) && (1..=ARM as u64).contains(&b) {
        Ok(())
    } else {
        Err(2)
    }
}

/// A weighing's sums; refused with 1, 2 or 3. Inlined, so that a file's fields are
/// tested in registers.
#[inline(always)]
fn weigh(w: &Weighing) -> Answer<Sums> {
    let g = total(w.m, w.p, w.q)?;
    distances(w.a, w.b)?;
    if w.n > g as u64 {
        return Err(3);
    }
    let m = moment(w.m, w.p as i64, w.q as i64, w.a, w.b as i64);
    Ok(Sums {
        g: HALVES * g,
        m: HALVES * m,
        n: HALVES * w.n as i64,
    })
}

/// A paired weighing's sums; refused with 1, 2 or 3. Inlined as a weighing is.
#[inline(always)]
fn pair(x: &Paired) -> Answer<Sums> {
    let first = total(x.m, x.p, x.q)?;
    let second = total(x.m, x.p2, x.q2)?;
    distances(x.a, x.b)?;
    if x.n > first.min(second) as u64 {
        return Err(3);
    }
    let (p, q) = ((x.p + x.p2) as i64, (x.q + x.q2) as i64);
    Ok(Sums {
        g: first + second,
        m: moment(x.m, p, q, x.a, x.b as i64),
        n: HALVES * x.n as i64,
    })
}

/// Bits of a float's fraction, and the floats minus nought, 2000 and infinity.
const FRACTION: u32 = 52;
const MINUS_NOUGHT: u64 = 1 << 63;
const MOST_KILOGRAMS: u64 = 0x409f_4000_0000_0000;
const INFINITE: u64 = 0x7ff << FRACTION;

/// A float's bits, minus nought being nought. From nought to infinity they rise as the
/// floats do; those of what is below nought and of a NaN are greater than all of them.
fn rank(float: u64) -> u64 {
    if float == MINUS_NOUGHT {
        0
    } else {
        float
    }
}

/// Grams of a load by its rank: the fraction times 1000, shifted to its place behind the
/// point. Before that half a gram is added, or a bit less where the gram is even, so that a
/// tie stays there.
fn grams(load: u64) -> i64 {
    let exponent = load >> FRACTION;
    let leading = u64::from(exponent != 0) << FRACTION;
    let fraction = load & ((1 << FRACTION) - 1);
    let thousands = 1_000 * (leading | fraction);
    // At most 2000 kg, so that the point is 42 bits or more from the end.
    let shift = 1_075 - exponent.max(1);
    if shift > 63 {
        // Less than half a gram: the thousands have 63 bits at most.
        return 0;
    }
    let odd = thousands >> shift & 1;
    let below_half = (1 << (shift - 1)) - 1;
    ((thousands + below_half + odd) >> shift) as i64
}

/// The float of a stable reading; refused with 13.
fn stable(message: &Message) -> Answer<u64> {
    match message.bytes.split_first_chunk::<1>() {
        Some(([1], float)) => float.try_into().map(u64::from_be_bytes).map_err(|_| 13),
        _ => Err(13),
    }
}

/// Reading less zero in grams; refused with 14.
fn over_zero(reading: u64, cell: &Cell) -> Answer<i64> {
    let (load, rated, zero) = (rank(reading), rank(cell.rated), rank(cell.zero));
    if load.max(zero) > MOST_KILOGRAMS || load > rated || rated >= INFINITE {
        return Err(14);
    }
    Ok(grams(load) - grams(zero))
}

/// What four messages come to; refused with 13 or 14.
pub fn nets(x: &Indicated) -> Result<Paired, u64> {
    let messages = [&x.p, &x.q, &x.p2, &x.q2];
    let mut readings = [0; 4];
    for (reading, message) in readings.iter_mut().zip(messages) {
        *reading = stable(message)?;
    }
    // The zero of the lift holds the jury ballast.
    let lift = if x.m == 4 { -1 } else { 1 };
    let mut nets = [1, lift, 1, lift];
    for ((net, reading), message) in nets.iter_mut().zip(readings).zip(messages) {
        *net *= over_zero(reading, &message.cell)?;
        if *net < 0 {
            return Err(14);
        }
    }
    let [p, q, p2, q2] = nets.map(|net| net as u64);
    let Indicated { m, a, b, n, .. } = *x;
    Ok(Paired {
        m,
        p,
        q,
        p2,
        q2,
        a,
        b,
        n,
    })
}

/// Refused with 2, 4 or 5.
fn install(s: &Sheet) -> Answer<()> {
    let arms = [s.fwd, s.aft, s.front_arm, s.rear_arm, s.water_arm];
    if !arms.into_iter().all(is_arm) {
        return Err(2);
    }
    let ranges = s.fwd < s.aft
        && 1 <= s.dry
        && s.dry <= s.wet
        && s.wet <= WEIGHT
        && s.nlp <= WEIGHT
        && s.front_least <= s.front_most
        && s.front_most <= LOAD
        && s.rear_most <= LOAD
        && s.capacity <= WEIGHT;
    if !ranges {
        return Err(4);
    }
    let steps = (1..=LOAD).contains(&s.front_step)
        && (1..=LOAD).contains(&s.rear_step)
        && (1..=WEIGHT).contains(&s.water_step);
    if !steps || rears(s) * waters(s) > MOST_ROWS {
        return Err(5);
    }
    Ok(())
}

/// Rear loads of a sheet, at most 500,001: the ranges are tested before.
fn rears(s: &Sheet) -> u64 {
    s.rear_most / s.rear_step + 1
}

/// Waters of a sheet, at most 2,000,001.
fn waters(s: &Sheet) -> u64 {
    s.capacity / s.water_step + 1
}

/// The sums after a change; refused with 7, 2, 6 or 3.
pub(crate) fn change(before: Option<Sums>, change: &Change) -> Answer<Sums> {
    let before = before.ok_or(7u64)?;
    if !is_arm(change.arm) {
        return Err(2);
    }
    let (c, most) = (change.c, WEIGHT as i64);
    if c == 0 || !(-most..=most).contains(&c) || change.flag > 1 {
        return Err(6);
    }
    let c = HALVES * c;
    let g = before.g + c;
    if !(HALVES..=HALVES * most).contains(&g) {
        return Err(6);
    }
    let n = before.n + c * change.flag as i64;
    if !(0..=g).contains(&n) {
        return Err(3);
    }
    let m = before.m + c * change.arm;
    Ok(Sums { g, m, n })
}

/// Refused with 8 or 2.
fn adjust(sheet: Option<usize>, seat: &Seat) -> Answer<()> {
    sheet.ok_or(8u64)?;
    if -ARM <= seat.lower && seat.lower <= seat.higher && seat.higher <= ARM {
        Ok(())
    } else {
        Err(2)
    }
}

// ---- The file ----

fn unsigned<const N: usize>(bytes: &[u8; N], at: usize) -> u64 {
    u64::from(u32::from_be_bytes([
        bytes[at],
        bytes[at + 1],
        bytes[at + 2],
        bytes[at + 3],
    ]))
}

fn signed<const N: usize>(bytes: &[u8; N], at: usize) -> i64 {
    i64::from(unsigned(bytes, at) as u32 as i32)
}

fn weighing_from(bytes: &[u8; WEIGHING]) -> Weighing {
    Weighing {
        m: u64::from(bytes[1]),
        p: unsigned(bytes, 2),
        q: unsigned(bytes, 6),
        a: signed(bytes, 10),
        b: unsigned(bytes, 14),
        n: unsigned(bytes, 18),
    }
}

fn sheet_from(bytes: &[u8; SHEET]) -> Sheet {
    Sheet {
        fwd: signed(bytes, 1),
        aft: signed(bytes, 5),
        dry: unsigned(bytes, 9),
        wet: unsigned(bytes, 13),
        nlp: unsigned(bytes, 17),
        front_arm: signed(bytes, 21),
        front_least: unsigned(bytes, 25),
        front_most: unsigned(bytes, 29),
        front_step: unsigned(bytes, 33),
        rear_arm: signed(bytes, 37),
        rear_most: unsigned(bytes, 41),
        rear_step: unsigned(bytes, 45),
        water_arm: signed(bytes, 49),
        capacity: unsigned(bytes, 53),
        water_step: unsigned(bytes, 57),
    }
}

pub(crate) fn change_from(bytes: &[u8; CHANGE]) -> Change {
    Change {
        c: signed(bytes, 1),
        arm: signed(bytes, 5),
        flag: u64::from(bytes[9]),
    }
}

fn paired_from(bytes: &[u8; PAIRED]) -> Paired {
    Paired {
        m: u64::from(bytes[1]),
        p: unsigned(bytes, 2),
        q: unsigned(bytes, 6),
        p2: unsigned(bytes, 10),
        q2: unsigned(bytes, 14),
        a: signed(bytes, 18),
        b: unsigned(bytes, 22),
        n: unsigned(bytes, 26),
    }
}

fn seat_from(bytes: &[u8; SEAT]) -> Seat {
    Seat {
        lower: signed(bytes, 1),
        higher: signed(bytes, 5),
    }
}

/// Puts the low four bytes of a field: accepted values fit, and a negative one
/// is then in two's complement.
fn put<const N: usize>(bytes: &mut [u8; N], at: usize, field: u64) {
    bytes[at..at + 4].copy_from_slice(&(field as u32).to_be_bytes());
}

fn weighing_bytes(w: &Weighing) -> [u8; WEIGHING] {
    let mut bytes = [0; WEIGHING];
    bytes[0] = 1;
    bytes[1] = w.m as u8;
    let fields = [w.p, w.q, w.a as u64, w.b, w.n];
    for (i, field) in fields.into_iter().enumerate() {
        put(&mut bytes, 2 + 4 * i, field);
    }
    bytes
}

fn sheet_bytes(s: &Sheet) -> [u8; SHEET] {
    let mut bytes = [0; SHEET];
    bytes[0] = 2;
    let fields = [
        s.fwd as u64,
        s.aft as u64,
        s.dry,
        s.wet,
        s.nlp,
        s.front_arm as u64,
        s.front_least,
        s.front_most,
        s.front_step,
        s.rear_arm as u64,
        s.rear_most,
        s.rear_step,
        s.water_arm as u64,
        s.capacity,
        s.water_step,
    ];
    for (i, field) in fields.into_iter().enumerate() {
        put(&mut bytes, 1 + 4 * i, field);
    }
    bytes
}

fn change_bytes(change: &Change) -> [u8; CHANGE] {
    let mut bytes = [0; CHANGE];
    bytes[0] = CHANGE_KIND;
    put(&mut bytes, 1, change.c as u64);
    put(&mut bytes, 5, change.arm as u64);
    bytes[9] = change.flag as u8;
    bytes
}

fn paired_bytes(x: &Paired) -> [u8; PAIRED] {
    let mut bytes = [0; PAIRED];
    bytes[0] = 4;
    bytes[1] = x.m as u8;
    let fields = [x.p, x.q, x.p2, x.q2, x.a as u64, x.b, x.n];
    for (i, field) in fields.into_iter().enumerate() {
        put(&mut bytes, 2 + 4 * i, field);
    }
    bytes
}

fn seat_bytes(seat: &Seat) -> [u8; SEAT] {
    let mut bytes = [0; SEAT];
    bytes[0] = 5;
    put(&mut bytes, 1, seat.lower as u64);
    put(&mut bytes, 5, seat.higher as u64);
    bytes
}

/// What one pass over a file tells of its record.
pub(crate) struct Record {
    /// Bytes of the whole file.
    pub(crate) length: usize,
    /// Its version, 1 or 2.
    version: u8,
    /// Entries that stand.
    pub(crate) count: u8,
    /// Where the last entry begins.
    pub(crate) last: usize,
    /// G, M and n, where something was weighed.
    pub(crate) sums: Option<Sums>,
    /// Where the sheet in force begins, if there is one.
    sheet: Option<usize>,
    /// The seat in force, if one stands behind that sheet.
    seat: Option<Seat>,
}

impl Record {
    /// A record of no entries yet, by the head of the file at the front of a
    /// buffer, and the bytes of its entries.
    pub(crate) fn open(buffer: &[u8]) -> Option<(Record, &[u8])> {
        let head = buffer.first_chunk::<HEAD>()?;
        let length = LENGTH.checked_add(unsigned(head, 0) as usize)?;
        let entries = buffer.get(HEAD..length)?;
        let [_, _, _, _, version, count] = *head;
        if !(1..=VERSION).contains(&version) || count > MOST_ENTRIES {
            return None;
        }
        let record = Record {
            length,
            version,
            count,
            last: HEAD,
            sums: None,
            sheet: None,
            seat: None,
        };
        Some((record, entries))
    }

    /// Takes in the entry at the front of `rest`, tested as its call tests it,
    /// and gives what stands behind it. The count is at most 64, so that no
    /// entry is refused with 9. Inlined, so that a walk has the record in registers.
    #[inline(always)]
    pub(crate) fn take<'a>(&mut self, rest: &'a [u8]) -> Option<&'a [u8]> {
        match *rest.first()? {
            1 => {
                let (entry, rest) = rest.split_first_chunk()?;
                self.sums = Some(weigh(&weighing_from(entry)).ok()?);
                Some(rest)
            }
            2 => {
                let (entry, rest) = rest.split_first_chunk()?;
                install(&sheet_from(entry)).ok()?;
                self.sheet = Some(self.last);
                self.seat = None;
                Some(rest)
            }
            CHANGE_KIND => {
                let (entry, rest) = rest.split_first_chunk()?;
                self.sums = Some(change(self.sums, &change_from(entry)).ok()?);
                Some(rest)
            }
            4 if self.version == VERSION => {
                let (entry, rest) = rest.split_first_chunk()?;
                self.sums = Some(pair(&paired_from(entry)).ok()?);
                Some(rest)
            }
            5 if self.version == VERSION => {
                let (entry, rest) = rest.split_first_chunk()?;
                let seat = seat_from(entry);
                adjust(self.sheet, &seat).ok()?;
                self.seat = Some(seat);
                Some(rest)
            }
            _ => None,
        }
    }
}

/// The record at the front of a buffer; refused with 12 where there is none.
fn record(buffer: &[u8]) -> Answer<Record> {
    walk(buffer).ok_or(12)
}

/// Walks the entries; none where the front of the buffer is no file.
fn walk(buffer: &[u8]) -> Option<Record> {
    let (mut record, mut rest) = Record::open(buffer)?;
    for _ in 0..record.count {
        record.last = record.length - rest.len();
        rest = record.take(rest)?;
    }
    rest.is_empty().then_some(record)
}

/// Sets length, version and count of the file at the front of a buffer.
fn set_head(buffer: &mut [u8], length: usize, count: u8) {
    let behind = (length - LENGTH) as u32;
    buffer[..LENGTH].copy_from_slice(&behind.to_be_bytes());
    buffer[VERSION_AT] = VERSION;
    buffer[HEAD - 1] = count;
}

// ---- The calls ----

/// Writes a fresh record's file to the front of a buffer; refused with 11 where
/// the buffer has fewer than 6 bytes.
pub fn fresh(buffer: &mut [u8]) -> u64 {
    match buffer.first_chunk_mut::<HEAD>() {
        Some(front) => {
            *front = [0, 0, 0, 2, VERSION, 0];
            0
        }
        None => 11,
    }
}

/// 0 where the buffer holds a record, else 12.
pub fn check(buffer: &[u8]) -> u64 {
    record(buffer).err().unwrap_or(0)
}

/// A call on the record in a buffer: 12 where it holds none, then the call's own
/// number in the paper's order, then 11 where the buffer is too short for the
/// file afterwards; else the file is changed and the number is 0. Reading back
/// asks nothing of the buffer but its length.
pub fn call(buffer: &mut [u8], call: &Call) -> u64 {
    call_by(record, buffer, call)
}

/// The same by any reader of the record in a buffer.
pub(crate) fn call_by(
    record: impl Fn(&[u8]) -> Answer<Record>,
    buffer: &mut [u8],
    call: &Call,
) -> u64 {
    let read = match call {
        Call::Read(bytes) => record(bytes),
        _ => record(buffer),
    };
    let answer = read.and_then(|record| match call {
        Call::Weigh(w) => add_weighing(buffer, &record, w),
        Call::Pair(x) => add_pair(buffer, &record, x),
        Call::Indicate(x) => add_pair(buffer, &record, &nets(x)?),
        Call::Install(s) => add_sheet(buffer, &record, s),
        Call::Change(c) => add_change(buffer, &record, c),
        Call::Seat(s) => add_seat(buffer, &record, s),
        Call::Undo => undo(buffer, &record),
        Call::Read(bytes) => replace(buffer, bytes, &record),
    });
    answer.err().unwrap_or(0)
}

fn add_weighing(buffer: &mut [u8], record: &Record, w: &Weighing) -> Answer<()> {
    has_place(record)?;
    weigh(w)?;
    append(buffer, record, &weighing_bytes(w))
}

fn add_pair(buffer: &mut [u8], record: &Record, x: &Paired) -> Answer<()> {
    has_place(record)?;
    pair(x)?;
    append(buffer, record, &paired_bytes(x))
}

fn add_sheet(buffer: &mut [u8], record: &Record, s: &Sheet) -> Answer<()> {
    has_place(record)?;
    install(s)?;
    append(buffer, record, &sheet_bytes(s))
}

fn add_change(buffer: &mut [u8], record: &Record, c: &Change) -> Answer<()> {
    has_place(record)?;
    change(record.sums, c)?;
    append(buffer, record, &change_bytes(c))
}

fn add_seat(buffer: &mut [u8], record: &Record, s: &Seat) -> Answer<()> {
    has_place(record)?;
    adjust(record.sheet, s)?;
    append(buffer, record, &seat_bytes(s))
}

/// Whether there is a place for one more entry; refused with 9.
fn has_place(record: &Record) -> Answer<()> {
    if record.count == MOST_ENTRIES {
        return Err(9);
    }
    Ok(())
}

/// Puts an accepted entry behind the file; refused with 11.
fn append(buffer: &mut [u8], record: &Record, entry: &[u8]) -> Answer<()> {
    let length = record.length + entry.len();
    let place = buffer.get_mut(record.length..length).ok_or(11u64)?;
    place.copy_from_slice(entry);
    set_head(buffer, length, record.count + 1);
    Ok(())
}

/// Takes the last entry back: its bytes stay, behind the shorter file.
fn undo(buffer: &mut [u8], record: &Record) -> Answer<()> {
    let count = record.count.checked_sub(1).ok_or(10u64)?;
    set_head(buffer, record.last, count);
    Ok(())
}

/// Reads a file back, with the record at its front: 12 where the bytes are not
/// exactly a file, then 11. What it leaves is of version 2.
fn replace(buffer: &mut [u8], bytes: &[u8], record: &Record) -> Answer<()> {
    if record.length != bytes.len() {
        return Err(12);
    }
    let front = buffer.get_mut(..bytes.len()).ok_or(11u64)?;
    front.copy_from_slice(bytes);
    front[VERSION_AT] = VERSION;
    Ok(())
}

/// The empty centre of gravity, its total and moment in half grams; refused with
/// 12 or 7.
pub fn centre(buffer: &[u8]) -> Result<Centre, u64> {
    record(buffer)?.centre()
}

impl Record {
    /// Refused with 7.
    pub(crate) fn centre(&self) -> Answer<Centre> {
        let Sums { g, m, .. } = self.sums.ok_or(7u64)?;
        Ok(Centre {
            total: g as u64,
            moment: m,
            // Halves towards the tail: half a unit more, rounded down.
            centre: (2 * m + g).div_euclid(2 * g),
        })
    }
}

// ---- A row ----

/// The limits of a sheet and a seat, made ready for the number k of front steps.
///
/// With P = k·step every line of "A row" reads factor·k ≤ room in half grams.
/// The factor is the same for all rows; only the room depends on rear load and
/// water. So a row takes three divisions: the weights, S ≥ FWD·T and the safe
/// aft limit.
///
/// A load is never negative, so that S is least at the lower end of the seat and
/// greatest at the higher one: of all its arms S ≥ FWD·T is hardest at the one, the
/// safe aft limit at the other.
pub(crate) struct Limits {
    /// Front steps between the least and the greatest front load; 0 is none of
    /// them, since somebody must be in the seat.
    pub(crate) steps: Steps,
    /// The front step in grams.
    pub(crate) step: i64,
    /// The same in half grams, which is the factor of the weights.
    pub(crate) factor: i64,
    /// What DRY and NLP leave for both loads.
    pub(crate) dry: i64,
    /// What WET leaves for both loads and the water.
    pub(crate) wet: i64,
    /// S ≥ FWD·T.
    pub(crate) forward: Line,
    /// 20·S ≤ (19·AFT + FWD)·T.
    pub(crate) aft: Line,
}

/// factor·k ≤ room + r·rear + v·water, with r and v in half grams.
#[derive(Clone, Copy)]
pub(crate) struct Line {
    pub(crate) factor: i64,
    pub(crate) room: i64,
    pub(crate) rear: i64,
    pub(crate) water: i64,
}

impl Line {
    /// The least room for any water from 0 to w. It changes evenly with the
    /// water and the factor does not, so that one of the ends is the tightest.
    pub(crate) fn room(&self, r: i64, w: i64) -> i64 {
        self.room + r * self.rear + (w * self.water).min(0)
    }
}

/// The numbers of front steps from low to high; none where low > high.
#[derive(Clone, Copy)]
pub(crate) struct Steps {
    pub(crate) low: i64,
    pub(crate) high: i64,
}

impl Steps {
    /// Keeps those with factor·k ≤ room.
    pub(crate) fn limit(&mut self, factor: i64, room: i64) {
        self.bound(factor, room.div_euclid(factor.abs().max(1)));
    }

    /// The same by the room over the size of the factor, rounded down. A negative
    /// factor makes it a least number; a factor of 0 keeps all or none.
    pub(crate) fn bound(&mut self, factor: i64, quotient: i64) {
        if factor > 0 {
            self.high = self.high.min(quotient);
        } else if factor < 0 {
            self.low = self.low.max(-quotient);
        } else if quotient < 0 {
            // The least number is never negative.
            self.high = -1;
        }
    }
}

impl Limits {
    fn new(sums: &Sums, sheet: &Sheet, seat: &Seat) -> Limits {
        let Sums { g, m, n } = *sums;
        let halves = |grams: u64| HALVES * grams as i64;
        let factor = halves(sheet.front_step);
        let (fwd, safe) = (sheet.fwd, 19 * sheet.aft + sheet.fwd);
        let (rear, water) = (sheet.rear_arm, sheet.water_arm);
        let mut dry = halves(sheet.dry) - g;
        if sheet.nlp != 0 {
            dry = dry.min(halves(sheet.nlp) - n);
        }
        Limits {
            steps: Steps {
                low: sheet.front_least.div_ceil(sheet.front_step).max(1) as i64,
                high: (sheet.front_most / sheet.front_step) as i64,
            },
            step: sheet.front_step as i64,
            factor,
            dry,
            wet: halves(sheet.wet) - g,
            forward: Line {
                factor: (fwd - seat.lower) * factor,
                room: m - fwd * g,
                rear: rear - fwd,
                water: water - fwd,
            },
            aft: Line {
                factor: (20 * seat.higher - safe) * factor,
                room: safe * g - 20 * m,
                rear: safe - 20 * rear,
                water: safe - 20 * water,
            },
        }
    }

    /// The smallest and the largest front load of the row with rear load r and
    /// water w, all in grams; none where it is blank.
    fn row(&self, r: i64, w: i64) -> Option<(u32, u32)> {
        let (r, w) = (HALVES * r, HALVES * w);
        let mut steps = self.steps;
        steps.limit(self.factor, self.dry.min(self.wet - w) - r);
        steps.limit(self.forward.factor, self.forward.room(r, w));
        steps.limit(self.aft.factor, self.aft.room(r, w));
        let load = |k: i64| (k * self.step) as u32;
        (steps.low <= steps.high).then(|| (load(steps.low), load(steps.high)))
    }
}

// ---- The placard ----

/// A line before its fields are written.
const BLANK: [u8; LINE] = *b"0000.000 0000.000 -------- --------\n";

/// Four digits of kilograms, a point and three of grams.
pub(crate) fn field(weight: u32) -> [u8; FIELD] {
    let digit = |unit: u32| b'0' + (weight / unit % 10) as u8;
    [
        digit(1_000_000),
        digit(100_000),
        digit(10_000),
        digit(1_000),
        b'.',
        digit(100),
        digit(10),
        digit(1),
    ]
}

/// Writes one field of a line, counted from the left.
fn set_field(line: &mut [u8; LINE], index: usize, text: [u8; FIELD]) {
    let at = index * (FIELD + 1);
    line[at..at + FIELD].copy_from_slice(&text);
}

/// What a placard is made of, and its lines, which are still to be written.
pub(crate) struct Page<'a> {
    pub(crate) sheet: Sheet,
    pub(crate) limits: Limits,
    /// Rows beside each rear load.
    pub(crate) waters: usize,
    pub(crate) lines: &'a mut [[u8; LINE]],
}

impl Record {
    /// The sheet in force, from the buffer that the record was read from.
    fn sheet_in(&self, buffer: &[u8]) -> Option<Sheet> {
        let entry = buffer.get(self.sheet?..)?.first_chunk()?;
        Some(sheet_from(entry))
    }

    /// The seat in force, or the front arm of the sheet as both ends.
    fn ends(&self, sheet: &Sheet) -> Seat {
        self.seat.unwrap_or(Seat {
            lower: sheet.front_arm,
            higher: sheet.front_arm,
        })
    }

    /// The page of a placard at the front of `out`; refused with 7, 8 or 11.
    pub(crate) fn page<'a>(&self, buffer: &[u8], out: &'a mut [u8]) -> Answer<Page<'a>> {
        let sums = self.sums.ok_or(7u64)?;
        let sheet = self.sheet_in(buffer).ok_or(8u64)?;
        let waters = waters(&sheet) as usize;
        let rows = rears(&sheet) as usize * waters;
        let (lines, _) = out.get_mut(..rows * LINE).ok_or(11u64)?.as_chunks_mut();
        Ok(Page {
            sheet,
            limits: Limits::new(&sums, &sheet, &self.ends(&sheet)),
            waters,
            lines,
        })
    }
}

/// The placard of the record in a buffer, written to the front of `out`; refused
/// with 12, 7, 8 or 11.
pub fn placard(buffer: &[u8], out: &mut [u8]) -> Result<Counts, u64> {
    let Page {
        sheet,
        limits,
        waters,
        lines,
    } = record(buffer)?.page(buffer, out)?;
    let (rows, mut blank) = (lines.len(), 0);
    for (i, lines) in lines.chunks_exact_mut(waters).enumerate() {
        let rear = i as u32 * sheet.rear_step as u32;
        let rear_field = field(rear);
        for (j, line) in lines.iter_mut().enumerate() {
            let water = j as u32 * sheet.water_step as u32;
            *line = BLANK;
            set_field(line, 0, rear_field);
            set_field(line, 1, field(water));
            match limits.row(rear.into(), water.into()) {
                Some((smallest, largest)) => {
                    set_field(line, 2, field(smallest));
                    set_field(line, 3, field(largest));
                }
                None => blank += 1,
            }
        }
    }
    let bytes = rows * LINE;
    Ok(Counts { bytes, rows, blank })
}

// ---- Equipment by station ----

/// Bytes of an accepted entry of a kind.
fn length_of(kind: u8) -> usize {
    match kind {
        1 => WEIGHING,
        2 => SHEET,
        CHANGE_KIND => CHANGE,
        4 => PAIRED,
        _ => SEAT,
    }
}

/// The columns cut to so many arms; refused with 11.
pub(crate) fn cut(columns: Columns<'_>, arms: usize) -> Answer<Columns<'_>> {
    Ok(Columns {
        arms: columns.arms.get_mut(..arms).ok_or(11u64)?,
        weights: columns.weights.get_mut(..arms).ok_or(11u64)?,
        nonlifting: columns.nonlifting.get_mut(..arms).ok_or(11u64)?,
    })
}

/// The equipment by station of the record in a buffer: how many arms it has; refused
/// with 12, 7 or 11. A map keeps the arms apart and in their order.
pub fn equipment(buffer: &[u8], columns: Columns) -> Answer<usize> {
    let record = record(buffer)?;
    record.sums.ok_or(7u64)?;
    let mut nets: BTreeMap<i64, [i64; 2]> = BTreeMap::new();
    let mut rest = &buffer[HEAD..record.length];
    while let Some(kind) = rest.first() {
        match (*kind, rest.first_chunk()) {
            (1 | 4, _) => nets.clear(),
            (CHANGE_KIND, Some(entry)) => {
                let Change { c, arm, flag } = change_from(entry);
                let net = nets.entry(arm).or_default();
                net[0] += c;
                net[1] += c * flag as i64;
            }
            _ => {}
        }
        rest = &rest[length_of(*kind)..];
    }
    let count = nets.len();
    let columns = cut(columns, count)?;
    for (i, (arm, [weight, nonlifting])) in nets.into_iter().enumerate() {
        columns.arms[i] = arm;
        columns.weights[i] = weight;
        columns.nonlifting[i] = nonlifting;
    }
    Ok(count)
}
