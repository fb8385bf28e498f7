//! Calls and a placard run to their end by one implementation or another, so
//! that all that can be seen of them is compared as a whole: every number and
//! every byte.

use crate::direct;
use crate::fast;
use crate::generate::Case;
use crate::paper::{Call, Cell, Centre, Change, Columns, Counts, Indicated, Journal, Message};
use crate::paper::{Paired, Seat, Sheet, Weighing};
use std::marker::PhantomData;
use std::sync::LazyLock;

/// A placard of more tests of the limits than this takes plain loops too long.
pub const WORK: u64 = 2_000_000;

/// The number of a buffer that holds no record.
const FILE: u64 = 12;

/// Bytes of the longest placard.
const LONGEST_PLACARD: usize = 9_216;

/// A record lent at the front of a buffer, and the calls on it.
pub trait Lent {
    /// Takes a buffer as it is: its front may be a record's file.
    fn found(buffer: &[u8]) -> Self;

    /// The whole buffer.
    fn buffer(&self) -> &[u8];

    /// Begins a fresh record; its number.
    fn fresh(&mut self) -> u64;

    /// Whether a record stands: 0 or 12.
    fn check(&self) -> u64;

    /// Makes a call; its number.
    fn call(&mut self, call: &Call) -> u64;

    /// The empty centre of gravity, or the number of its refusal.
    fn centre(&self) -> Result<Centre, u64>;

    /// The placard's counts, its lines in the front of `out`, or the number of
    /// its refusal.
    fn placard(&self, out: &mut [u8]) -> Result<Counts, u64>;

    /// How many arms the equipment has, filled in from the columns' front, or the
    /// number of its refusal.
    fn equipment(&self, columns: Columns) -> Result<usize, u64>;
}

// ---- By the paper ----

/// A record by plain loops: a journal of the calls' arguments, which is written
/// to the buffer after each accepted call and never read from it again.
pub struct Paper {
    /// The journal, where the buffer holds a record.
    pub journal: Option<Journal>,
    buffer: Vec<u8>,
}

impl Paper {
    /// What plain loops would take for the placard.
    pub fn work(&self) -> u64 {
        self.journal.as_ref().map_or(0, Journal::placard_work)
    }

    /// Writes a journal's file to the front; 0, or 11 where it does not fit.
    fn put(&mut self, journal: Journal) -> u64 {
        match journal.write(&mut self.buffer) {
            Ok(_) => {
                self.journal = Some(journal);
                0
            }
            Err(number) => number,
        }
    }
}

impl Lent for Paper {
    fn found(buffer: &[u8]) -> Paper {
        let journal = front_file(buffer).and_then(|file| Journal::read(file).ok());
        let buffer = buffer.to_vec();
        Paper { journal, buffer }
    }

    fn buffer(&self) -> &[u8] {
        &self.buffer
    }

    fn fresh(&mut self) -> u64 {
        self.put(Journal::new())
    }

    fn check(&self) -> u64 {
        if self.journal.is_some() {
            0
        } else {
            FILE
        }
    }

    /// 12 without a record, then the journal's number, then 11.
    fn call(&mut self, call: &Call) -> u64 {
        let mut after = match (&self.journal, call) {
            (Some(journal), _) => journal.clone(),
            (None, Call::Read(_)) => Journal::new(),
            (None, _) => return FILE,
        };
        match after.call(call) {
            0 => self.put(after),
            number => number,
        }
    }

    fn centre(&self) -> Result<Centre, u64> {
        self.journal.as_ref().ok_or(FILE)?.centre()
    }

    fn placard(&self, out: &mut [u8]) -> Result<Counts, u64> {
        self.journal.as_ref().ok_or(FILE)?.placard(out)
    }

    fn equipment(&self, columns: Columns) -> Result<usize, u64> {
        self.journal.as_ref().ok_or(FILE)?.equipment(columns)
    }
}

/// The first 4 + L bytes of a buffer, L being the number in the first four,
/// where it has as many.
pub fn front_file(buffer: &[u8]) -> Option<&[u8]> {
    let length = u32::from_be_bytes(*buffer.first_chunk()?);
    buffer.get(..4 + length as usize)
}

// ---- By functions on a buffer ----

/// The calls as functions that know the buffer alone, as [`Lent`] has them.
pub trait Calls {
    /// Begins a fresh record.
    fn fresh(buffer: &mut [u8]) -> u64;

    /// Whether a record stands.
    fn check(buffer: &[u8]) -> u64;

    /// Makes a call.
    fn call(buffer: &mut [u8], call: &Call) -> u64;

    /// The empty centre of gravity.
    fn centre(buffer: &[u8]) -> Result<Centre, u64>;

    /// The placard.
    fn placard(buffer: &[u8], out: &mut [u8]) -> Result<Counts, u64>;

    /// The equipment by station.
    fn equipment(buffer: &[u8], columns: Columns) -> Result<usize, u64>;
}

/// The direct functions.
pub struct Direct;

impl Calls for Direct {
    fn fresh(buffer: &mut [u8]) -> u64 {
        direct::fresh(buffer)
    }

    fn check(buffer: &[u8]) -> u64 {
        direct::check(buffer)
    }

    fn call(buffer: &mut [u8], call: &Call) -> u64 {
        direct::call(buffer, call)
    }

    fn centre(buffer: &[u8]) -> Result<Centre, u64> {
        direct::centre(buffer)
    }

    fn placard(buffer: &[u8], out: &mut [u8]) -> Result<Counts, u64> {
        direct::placard(buffer, out)
    }

    fn equipment(buffer: &[u8], columns: Columns) -> Result<usize, u64> {
        direct::equipment(buffer, columns)
    }
}

/// The fast functions; a fresh record is begun the same way.
pub struct Fast;

impl Calls for Fast {
    fn fresh(buffer: &mut [u8]) -> u64 {
        direct::fresh(buffer)
    }

    fn check(buffer: &[u8]) -> u64 {
        fast::check(buffer)
    }

    fn call(buffer: &mut [u8], call: &Call) -> u64 {
        fast::call(buffer, call)
    }

    fn centre(buffer: &[u8]) -> Result<Centre, u64> {
        fast::centre(buffer)
    }

    fn placard(buffer: &[u8], out: &mut [u8]) -> Result<Counts, u64> {
        fast::placard(buffer, out)
    }

    fn equipment(buffer: &[u8], columns: Columns) -> Result<usize, u64> {
        fast::equipment(buffer, columns)
    }
}

/// Elements of a guard: an odd number, so that a buffer of bytes between two is at no
/// even address.
const GUARD: usize = 29;
const GUARD_BYTE: u8 = 0x5c;

/// A buffer or a column between two guards, by which a write beside it is seen.
#[derive(Clone, Debug, PartialEq, Eq)]
pub struct Guarded<T = u8>(Vec<T>);

impl<T: Copy + PartialEq + From<u8>> Guarded<T> {
    /// A copy of a buffer or a column.
    pub fn new(buffer: &[T]) -> Guarded<T> {
        let guard = [T::from(GUARD_BYTE); GUARD];
        Guarded([&guard, buffer, &guard].concat())
    }

    /// What stands between the guards.
    pub fn inside(&self) -> &[T] {
        &self.0[GUARD..self.0.len() - GUARD]
    }

    /// The same, to be written.
    pub fn inside_mut(&mut self) -> &mut [T] {
        let end = self.0.len() - GUARD;
        &mut self.0[GUARD..end]
    }

    /// Whether nothing was written beside it.
    pub fn holds(&self) -> bool {
        let (front, rest) = self.0.split_at(GUARD);
        let behind = &rest[rest.len() - GUARD..];
        let guard = T::from(GUARD_BYTE);
        front.iter().chain(behind).all(|element| *element == guard)
    }
}

/// A record by such functions, in a guarded buffer.
pub struct By<C> {
    buffer: Guarded,
    calls: PhantomData<C>,
}

impl<C> By<C> {
    /// Whether nothing was written beside the buffer.
    pub fn guards_hold(&self) -> bool {
        self.buffer.holds()
    }
}

impl<C: Calls> Lent for By<C> {
    fn found(buffer: &[u8]) -> By<C> {
        By {
            buffer: Guarded::new(buffer),
            calls: PhantomData,
        }
    }

    fn buffer(&self) -> &[u8] {
        self.buffer.inside()
    }

    fn fresh(&mut self) -> u64 {
        C::fresh(self.buffer.inside_mut())
    }

    fn check(&self) -> u64 {
        C::check(self.buffer())
    }

    fn call(&mut self, call: &Call) -> u64 {
        C::call(self.buffer.inside_mut(), call)
    }

    fn centre(&self) -> Result<Centre, u64> {
        C::centre(self.buffer())
    }

    fn placard(&self, out: &mut [u8]) -> Result<Counts, u64> {
        C::placard(self.buffer(), out)
    }

    fn equipment(&self, columns: Columns) -> Result<usize, u64> {
        C::equipment(self.buffer(), columns)
    }
}

// ---- Running ----

/// What is run: a record's buffer, calls on it, a placard's buffer, and columns for the
/// equipment.
#[derive(Clone, Debug)]
pub struct Trial<'a> {
    /// The record's buffer as it is lent.
    pub buffer: Vec<u8>,
    /// Whether a fresh record is begun before the calls.
    pub fresh: bool,
    /// The calls in order.
    pub calls: &'a [Call],
    /// The placard's buffer as it is lent.
    pub plate: Vec<u8>,
    /// Elements of the equipment's columns.
    pub columns: [usize; 3],
}

/// What every element of a column is before the call: no arm and no weight.
pub const UNWRITTEN: i64 = -1_000_000_007;

/// All that can be seen of the calls.
#[derive(Clone, Debug, PartialEq, Eq)]
pub struct Answers {
    /// Number of the fresh record, where one is begun.
    pub fresh: Option<u64>,
    /// Numbers of the calls.
    pub numbers: Vec<u64>,
    /// The record's buffer before the first call and after each.
    pub buffers: Vec<Vec<u8>>,
    /// Whether a record stands in the end: 0 or 12.
    pub check: u64,
    /// The centre of gravity in the end.
    pub centre: Result<Centre, u64>,
}

/// All that can be seen of the placard.
#[derive(Clone, Debug, PartialEq, Eq)]
pub struct Plate {
    /// Its counts, or the number of its refusal.
    pub answer: Result<Counts, u64>,
    /// Its buffer afterwards.
    pub bytes: Vec<u8>,
    /// The record's buffer afterwards.
    pub record: Vec<u8>,
}

/// All that can be seen of the equipment.
#[derive(Clone, Debug, PartialEq, Eq)]
pub struct Inventory {
    /// How many arms it has, or the number of its refusal.
    pub answer: Result<usize, u64>,
    /// Its columns afterwards, and what is beside them: arms, net weights and net
    /// non-lifting weights.
    pub columns: [Guarded<i64>; 3],
    /// The record's buffer afterwards.
    pub record: Vec<u8>,
}

/// A part, a weighing, the same read again and by an indicator, a sheet and a seat, to be
/// put into a record that was found.
const PART: Change = Change {
    c: 700,
    arm: -90_000,
    flag: 1,
};
const WEIGHED: Weighing = Weighing {
    m: 1,
    p: 288_000,
    q: 37_300,
    a: 9_900,
    b: 413_000,
    n: 146_700,
};
const AGAIN: Paired = Paired {
    m: 1,
    p: 288_000,
    q: 37_300,
    p2: 288_005,
    q2: 37_280,
    a: 9_900,
    b: 413_000,
    n: 146_700,
};
/// On cells with a zero of three quarters of a kilogram.
fn indicated() -> Indicated {
    let [zero, rated] = [0.75_f64, 500.0].map(f64::to_bits);
    let sent = |kilograms: f64| Message::stable(kilograms.to_bits(), Cell { rated, zero });
    Indicated {
        m: 1,
        p: sent(288.75),
        q: sent(38.05),
        p2: sent(288.755),
        q2: sent(38.03),
        a: 9_900,
        b: 413_000,
        n: 146_700,
    }
}

const INSTALLED: Sheet = Sheet {
    fwd: 25_000,
    aft: 42_500,
    dry: 380_000,
    wet: 450_000,
    nlp: 240_000,
    front_arm: -47_500,
    front_least: 0,
    front_most: 110_000,
    front_step: 1_000,
    rear_arm: 0,
    rear_most: 0,
    rear_step: 1,
    water_arm: 30_000,
    capacity: 100_000,
    water_step: 50_000,
};

const ADJUSTED: Seat = Seat {
    lower: -55_000,
    higher: -40_000,
};

/// Bytes behind a file that is lent as it is: room for the longest entry, and more.
pub const BEHIND: usize = 90;

/// What is called on a record that was found: each call as the first, so that it
/// meets the file in the version that it was found in, and calls that are refused.
static LATER: LazyLock<[Vec<Call>; 9]> = LazyLock::new(|| {
    [
        vec![Call::Change(PART), Call::Undo, Call::Undo],
        vec![Call::Undo, Call::Pair(AGAIN)],
        vec![Call::Pair(AGAIN), Call::Change(PART)],
        vec![Call::Weigh(WEIGHED), Call::Undo],
        vec![Call::Install(INSTALLED), Call::Undo],
        vec![Call::Seat(ADJUSTED), Call::Change(PART), Call::Undo],
        vec![Call::Indicate(indicated()), Call::Change(PART)],
        vec![Call::Undo, Call::Indicate(indicated()), Call::Undo],
        refused(),
    ]
});

/// Calls that every record refuses.
fn refused() -> Vec<Call> {
    let good = indicated();
    let mut moving = good.clone();
    moving.q2.bytes[0] = 2;
    let mut heavy = good;
    heavy.p2.cell.rated = 288.0_f64.to_bits();
    vec![
        Call::Weigh(Weighing { m: 0, ..WEIGHED }),
        Call::Pair(Paired { p2: 0, ..AGAIN }),
        Call::Indicate(moving),
        Call::Indicate(heavy),
        Call::Install(Sheet {
            dry: 0,
            ..INSTALLED
        }),
        Call::Change(Change { c: 0, ..PART }),
        Call::Seat(Seat {
            lower: -39_999,
            ..ADJUSTED
        }),
        Call::Read(Vec::new()),
    ]
}

/// The calls on what a case reads back last, where that is lent as it is: the
/// case's fill says which.
pub fn later(case: &Case) -> &'static [Call] {
    &LATER[usize::from(case.fill) % LATER.len()]
}

impl Trial<'_> {
    /// A case as it is meant, its calls on a fresh record.
    pub fn of(case: &Case) -> Trial<'_> {
        Trial {
            buffer: vec![case.fill; case.room],
            fresh: true,
            calls: &case.calls,
            plate: vec![case.fill; case.plate],
            columns: case.columns,
        }
    }

    /// The file that a case reads back last, good or damaged, lent as it is: as
    /// the whole of a buffer and with bytes behind it, as it stands and with
    /// later calls.
    pub fn of_content(case: &Case) -> Vec<Trial<'static>> {
        let Some(content) = case.content() else {
            return Vec::new();
        };
        let longer = [content, &[case.fill; BEHIND]].concat();
        [content.to_vec(), longer]
            .into_iter()
            .flat_map(|buffer| [(buffer.clone(), &[][..]), (buffer, later(case))])
            .map(|(buffer, calls)| Trial {
                buffer,
                fresh: false,
                calls,
                plate: vec![case.fill; LONGEST_PLACARD],
                columns: case.columns,
            })
            .collect()
    }

    /// Makes the calls; the record in the end, and all that was seen.
    pub fn run<L: Lent>(&self) -> (L, Answers) {
        let mut lent = L::found(&self.buffer);
        let fresh = self.fresh.then(|| lent.fresh());
        let mut numbers = Vec::with_capacity(self.calls.len());
        let mut buffers = vec![lent.buffer().to_vec()];
        for call in self.calls {
            numbers.push(lent.call(call));
            buffers.push(lent.buffer().to_vec());
        }
        let answers = Answers {
            fresh,
            numbers,
            buffers,
            check: lent.check(),
            centre: lent.centre(),
        };
        (lent, answers)
    }

    /// Asks for the placard of a record in the end.
    pub fn placard(&self, lent: &impl Lent) -> Plate {
        let mut bytes = self.plate.clone();
        let answer = lent.placard(&mut bytes);
        Plate {
            answer,
            bytes,
            record: lent.buffer().to_vec(),
        }
    }

    /// The columns as they are lent.
    pub fn lent_columns(&self) -> [Guarded<i64>; 3] {
        self.columns
            .map(|length| Guarded::new(&vec![UNWRITTEN; length]))
    }

    /// Asks for the equipment of a record in the end.
    pub fn equipment(&self, lent: &impl Lent) -> Inventory {
        let mut columns = self.lent_columns();
        let [arms, weights, nonlifting] = &mut columns;
        let answer = lent.equipment(Columns {
            arms: arms.inside_mut(),
            weights: weights.inside_mut(),
            nonlifting: nonlifting.inside_mut(),
        });
        Inventory {
            answer,
            columns,
            record: lent.buffer().to_vec(),
        }
    }
}
