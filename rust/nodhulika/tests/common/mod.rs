//! The paper's cases that several tests begin with.

// Each test file is a program of its own and uses a part of these.
#![allow(dead_code)]

use nodhulika::{Cell, Change, Indicated, Message, Paired, Record, Seat, Sheet, Station, Weighing};

/// Bytes of the header and of each kind of entry.
pub const HEADER: usize = 6;
pub const WEIGHING: usize = 22;
pub const SHEET: usize = 61;
pub const CHANGE: usize = 10;
pub const PAIRED: usize = 30;
pub const SEAT: usize = 9;

/// Where a file has its version, and the one that is no longer written.
pub const VERSION: usize = 4;
pub const OLD: u8 = 1;

/// What stands in a buffer where nothing was written.
pub const FREE: u8 = 0x5a;

/// The weighing of case G.
pub const G_WEIGHING: Weighing = Weighing {
    m: Weighing::WHEEL_AND_TAIL,
    p: 288_000,
    q: 0,
    a: 63_334,
    b: 500_000,
    n: 140_000,
};

/// The same read again: a gram more.
pub const G_PAIRED: Paired = Paired {
    m: Weighing::WHEEL_AND_TAIL,
    p: 288_000,
    q: 0,
    p2: 288_001,
    q2: 0,
    a: 63_334,
    b: 500_000,
    n: 140_000,
};

/// The message of a stable reading.
pub const fn stable(kilograms: f64) -> [u8; 9] {
    let [a, b, c, d, e, f, g, h] = kilograms.to_be_bytes();
    [1, a, b, c, d, e, f, g, h]
}

/// The cells that case G is weighed on by an indicator.
pub const G_WHEEL: Cell = Cell {
    rated: 500.0,
    zero: 1.25,
};
pub const G_TAIL: Cell = Cell {
    rated: 50.0,
    zero: 0.5,
};

/// The same pair as an indicator sends it.
pub const G_INDICATED: Indicated = Indicated {
    m: Weighing::WHEEL_AND_TAIL,
    p: Message::new(&stable(289.25), G_WHEEL),
    q: Message::new(&stable(0.5), G_TAIL),
    p2: Message::new(&stable(289.251), G_WHEEL),
    q2: Message::new(&stable(0.5), G_TAIL),
    a: 63_334,
    b: 500_000,
    n: 140_000,
};

pub const fn station(arm: i64, most: u64, step: u64) -> Station {
    Station { arm, most, step }
}

/// The data sheet of case G.
pub const G_SHEET: Sheet = Sheet {
    fwd: 25_000,
    aft: 42_500,
    dry: 380_000,
    wet: 450_000,
    nlp: 240_000,
    front: station(-47_500, 110_000, 1_000),
    front_least: 55_000,
    rear: station(0, 0, 1),
    water: station(30_000, 100_000, 50_000),
};

/// The placard of case G.
pub const G_PLACARD: &str = "\
0000.000 0000.000 0071.000 0092.000
0000.000 0050.000 0071.000 0092.000
0000.000 0100.000 -------- --------
";

/// The change of case H.
pub const H_CHANGE: Change = Change {
    c: 4_500,
    arm: -100_000,
    flag: Change::NON_LIFTING,
};

/// A seat in the glider of case G, far ahead and not so far aft of its front arm.
pub const G_SEAT: Seat = Seat {
    lower: -100_000,
    higher: -37_500,
};

/// The placard of case G with that seat: the lower end bounds the load by the forward
/// limit, the higher one by the safe aft limit.
pub const G_SEAT_PLACARD: &str = "\
0000.000 0000.000 0080.000 0088.000
0000.000 0050.000 0080.000 0088.000
0000.000 0100.000 -------- --------
";

/// The record of a weighing and a data sheet.
pub fn record_of(weighing: &Weighing, sheet: &Sheet) -> Record {
    let mut record = Record::new();
    assert_eq!(record.weigh(weighing), Ok(()));
    assert_eq!(record.install(sheet), Ok(()));
    record
}

/// The record of case G.
pub fn case_g() -> Record {
    record_of(&G_WEIGHING, &G_SHEET)
}

/// A buffer of `length` bytes with the record at its front and free bytes behind.
pub fn lent(record: &Record, length: usize) -> Vec<u8> {
    let mut buffer = vec![FREE; length];
    assert_eq!(
        nodhulika::lent::read(&mut buffer, record.as_bytes()),
        Ok(())
    );
    buffer
}

/// The same bytes as a file of version 1.
pub fn of_version_1(file: &[u8]) -> Vec<u8> {
    let mut old = file.to_vec();
    old[VERSION] = OLD;
    old
}

/// A record of 64 entries: a weighing, and the same sheet 63 times.
pub fn full() -> Record {
    let mut record = Record::new();
    assert_eq!(record.weigh(&G_WEIGHING), Ok(()));
    for _ in 1..64 {
        assert_eq!(record.install(&G_SHEET), Ok(()));
    }
    record
}
