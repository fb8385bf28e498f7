//! Weighings by a load-cell indicator: from the bytes that it sends to whole grams.

mod common;

use common::{case_g, of_version_1, stable};
use common::{G_INDICATED, G_PAIRED, G_PLACARD, G_SHEET};
use nodhulika::{lent, Cell, Indicated, Message, Paired, Record, Refusal, Weighing};

/// Where a record that begins with a paired weighing has p, q, p' and q'.
const READINGS: [usize; 4] = [8, 12, 16, 20];

const NOTHING: Cell = Cell {
    rated: 2_500.0,
    zero: 0.0,
};

/// The four nets of a weighing, as the record has them.
fn nets(weighing: &Indicated) -> Result<[u32; 4], Refusal> {
    let mut record = Record::new();
    record.weigh_indicated(weighing)?;
    let file = record.as_bytes();
    assert_eq!(file[..8], [0, 0, 0, 32, 2, 1, 4, weighing.m as u8]);
    Ok(READINGS.map(|at| {
        let number = file[at..].first_chunk().copied().unwrap();
        u32::from_be_bytes(number)
    }))
}

/// The net of a message beside three of a kilogram, by a method that asks no more of it
/// than that it be a load: two slings.
fn net_of(q: Message) -> Result<u32, Refusal> {
    let kilogram = stable(1.0);
    let one = Message::new(&kilogram, NOTHING);
    let weighing = Indicated {
        m: Weighing::TWO_SLINGS,
        p: Message {
            cell: Cell {
                zero: 1.0,
                ..NOTHING
            },
            ..one
        },
        q,
        p2: one,
        q2: one,
        a: 0,
        b: 1,
        n: 0,
    };
    // A total of 0 is refused, but for what is asked here it is enough that it is read.
    match nets(&weighing) {
        Err(Refusal::Reading) => Ok(0),
        answer => answer.map(|nets| nets[1]),
    }
}

/// The grams of a reading on a cell.
fn net(reading: f64, cell: Cell) -> Result<u32, Refusal> {
    net_of(Message::new(&stable(reading), cell))
}

/// The grams of a reading with a zero of nought.
fn grams(reading: f64) -> Result<u32, Refusal> {
    net(reading, NOTHING)
}

#[test]
fn the_nearest_whole_gram() {
    for (kilograms, due) in [
        (0.0025, 3),
        (0.0005, 1),
        (0.0055, 5),
        (0.0625, 62),
        (0.1875, 188),
        (2_000.0, 2_000_000),
        (2_000.0_f64.next_down(), 2_000_000),
        (1999.9375, 1_999_938),
        (0.0005_f64.next_down(), 0),
        (0.0004, 0),
        (0.0, 0),
        (-0.0, 0),
        (f64::MIN_POSITIVE, 0),
        (f64::from_bits(1), 0),
        (310.0, 310_000),
    ] {
        assert_eq!(grams(kilograms), Ok(due), "{kilograms}");
    }
    assert_eq!(grams(2_000.0_f64.next_up()), Err(Refusal::Load));
}

/// The odd sixteenths of a kilogram are halfway between two grams, and no other float is.
#[test]
fn a_tie_goes_to_the_even_gram() {
    for sixteenth in (1..32_000).step_by(2) {
        let tie = f64::from(sixteenth) / 16.0;
        let below = sixteenth as u32 * 1_000 / 16;
        assert_eq!(grams(tie), Ok(below + below % 2), "{tie}");
        assert_eq!(grams(tie.next_down()), Ok(below), "{tie}");
        assert_eq!(grams(tie.next_up()), Ok(below + 1), "{tie}");
    }
}

#[test]
fn the_zero_is_taken_off_in_grams() {
    let over = |reading, zero| net(reading, Cell { zero, ..NOTHING });
    assert_eq!(over(1.0001, 1.0002), Ok(0));
    assert_eq!(over(0.0004, 0.0005), Err(Refusal::Load));
    assert_eq!(over(0.0005, 0.0004), Ok(1));
    assert_eq!(over(0.0625, 0.0625), Ok(0));
    assert_eq!(over(2_000.0, 2_000.0), Ok(0));
    assert_eq!(over(2_000.0, 2_000.0_f64.next_up()), Err(Refusal::Load));
    assert_eq!(over(1.0, -0.0), Ok(1_000));
    assert_eq!(over(-0.0, -0.0), Ok(0));
    assert_eq!(over(1.0, -f64::from_bits(1)), Err(Refusal::Load));
}

/// It is compared with what was sent.
#[test]
fn the_rating() {
    let on = |reading, rated| net(reading, Cell { rated, zero: 0.0 });
    for reading in [0.0, f64::from_bits(1), 0.0004, 0.1, 77.0, 1_999.0_f64] {
        assert!(on(reading, reading).is_ok(), "{reading}");
        assert_eq!(on(reading.next_up(), reading), Err(Refusal::Load));
    }
    assert_eq!(on(1.0, f64::MAX), Ok(1_000));
    assert_eq!(on(0.0, -0.0), Ok(0));
    for below in [-f64::from_bits(1), -1.0, f64::MIN] {
        assert_eq!(on(0.0, below), Err(Refusal::Load));
        assert_eq!(on(below, below), Err(Refusal::Load));
    }
    // Before the zero is taken off, with which it is not compared.
    let cell = Cell {
        rated: 5.0,
        zero: 4.0,
    };
    assert_eq!(net(5.001, cell), Err(Refusal::Load));
    let cell = Cell {
        rated: 5.0,
        zero: 5.0004,
    };
    assert_eq!(net(5.0, cell), Ok(0));
}

/// Infinities, and NaNs of every sort of payload, whatever becomes of them on the way.
#[test]
fn floats_that_are_not_finite() {
    const INFINITE: u64 = 0x7ff << 52;
    let one = Cell {
        rated: 1.0,
        zero: 1.0,
    };
    for fraction in [
        0,
        1,
        1 << 51,
        1 << 51 | 1,
        0x000d_eadb_eef0_0d00,
        (1 << 52) - 1,
    ] {
        for sign in [0, 1 << 63] {
            let bad = f64::from_bits(sign | INFINITE | fraction);
            assert_eq!(net(bad, one), Err(Refusal::Load));
            assert_eq!(net(1.0, Cell { rated: bad, ..one }), Err(Refusal::Load));
            assert_eq!(net(1.0, Cell { zero: bad, ..one }), Err(Refusal::Load));
        }
    }
    assert_eq!(grams(f64::MAX), Err(Refusal::Load));
    assert_eq!(grams(-f64::MIN_POSITIVE), Err(Refusal::Load));
}

#[test]
fn states() {
    for state in 0..=255 {
        let mut bytes = stable(1.0);
        bytes[0] = state;
        let due = if state == 1 {
            Ok(1_000)
        } else {
            Err(Refusal::Unsteady)
        };
        assert_eq!(net_of(Message::new(&bytes, NOTHING)), due, "{state}");
        // Of any other the float is not looked at.
        bytes[1..].fill(0xff);
        let due = Err(if state == 1 {
            Refusal::Load
        } else {
            Refusal::Unsteady
        });
        assert_eq!(net_of(Message::new(&bytes, NOTHING)), due, "{state}");
    }
}

#[test]
fn nine_bytes() {
    let mut bytes = stable(1.0).to_vec();
    bytes.resize(24, 0);
    for length in 0..bytes.len() {
        let due = if length == 9 {
            Ok(1_000)
        } else {
            Err(Refusal::Unsteady)
        };
        assert_eq!(net_of(Message::new(&bytes[..length], NOTHING)), due);
    }
}

/// q and q' of method 4 are the zero's grams less the reading's, as the zero holds the jury
/// ballast; p and p' are not.
#[test]
fn turned_round_in_method_4() {
    let [wheel, tail] = [stable(460.5), stable(5.25)];
    let [platform, ballast] = [0.5, 20.25].map(|zero| Cell { zero, ..NOTHING });
    let (p, q) = (Message::new(&wheel, platform), Message::new(&tail, ballast));
    let weighing = Indicated {
        m: Weighing::JURY_BALLAST,
        p,
        q,
        p2: p,
        q2: q,
        a: 3_000,
        b: 10_300,
        n: 0,
    };
    assert_eq!(nets(&weighing), Ok([460_000, 15_000, 460_000, 15_000]));
    // The paper's case E, a thousand times as heavy.
    let mut record = Record::new();
    assert_eq!(record.weigh_indicated(&weighing), Ok(()));
    let centre = record.centre_of_gravity().unwrap();
    assert_eq!((centre.total, centre.moment), (890_000, 2_361_000_000));

    for m in [1, 2, 3, 0, 5] {
        let weighing = Indicated { m, ..weighing };
        assert_eq!(nets(&weighing), Err(Refusal::Load));
    }
    for turned in [
        Indicated { p: q, ..weighing },
        Indicated { p2: q, ..weighing },
        Indicated { q: p, ..weighing },
        Indicated { q2: p, ..weighing },
    ] {
        assert_eq!(nets(&turned), Err(Refusal::Load));
    }
}

/// Each message in its place, and each with its own cell.
#[test]
fn four_messages_and_four_cells() {
    let bytes = [10.0, 2.0, 30.0, 4.0].map(stable);
    let zeros = [0.1, 0.02, 0.3, 0.004];
    let [p, q, p2, q2] = [0, 1, 2, 3].map(|i| {
        let zero = zeros[i];
        Message::new(&bytes[i], Cell { zero, ..NOTHING })
    });
    let weighing = Indicated {
        p,
        q,
        p2,
        q2,
        n: 9_900,
        ..G_INDICATED
    };
    assert_eq!(nets(&weighing), Ok([9_900, 1_980, 29_700, 3_996]));
    let heavy = Indicated {
        n: 9_901,
        ..weighing
    };
    assert_eq!(nets(&heavy), Err(Refusal::NonLifting));
}

/// The four may be the same bytes: they are only read.
#[test]
fn messages_that_overlap() {
    let mut twice = [0; 17];
    twice[..9].copy_from_slice(&stable(1.0));
    twice[8..].copy_from_slice(&stable(2.0));
    // The last byte of the first is the state of the second.
    assert_eq!(twice[8], 1);
    let (first, second) = (&twice[..9], &twice[8..]);
    let [p, q, p2, q2] = [second, first, second, second].map(|bytes| Message::new(bytes, NOTHING));
    let weighing = Indicated {
        p,
        q,
        p2,
        q2,
        n: 0,
        ..G_INDICATED
    };
    assert_eq!(nets(&weighing), Ok([2_000, 1_000, 2_000, 2_000]));
}

/// What is added is the paired weighing of the nets, byte for byte, and nothing else.
#[test]
fn it_is_a_paired_weighing() {
    let mut sent = Record::new();
    assert_eq!(sent.weigh_indicated(&G_INDICATED), Ok(()));
    let mut paired = Record::new();
    assert_eq!(paired.weigh_paired(&G_PAIRED), Ok(()));
    assert_eq!(sent, paired);
    assert_eq!(Record::from_file(sent.as_bytes()), Ok(paired));

    assert_eq!(sent.install(&G_SHEET), Ok(()));
    let text = sent.placard_text().unwrap();
    assert_eq!(text, G_PLACARD.replace("92.000", "91.000"));
    assert_eq!(sent.undo(), Ok(()));
    assert_eq!(sent.undo(), Ok(()));
    assert_eq!(sent, Record::new());
}

#[test]
fn on_a_lent_file_of_version_1() {
    let mut buffer = of_version_1(case_g().as_bytes());
    let end = buffer.len();
    buffer.resize(end + 30, 0);
    assert_eq!(lent::weigh_indicated(&mut buffer, &G_INDICATED), Ok(()));
    let mut again = case_g();
    assert_eq!(again.weigh_paired(&G_PAIRED), Ok(()));
    assert_eq!(buffer, again.as_bytes());
}

/// The heaviest glider that can be weighed, and the lightest.
#[test]
fn the_ends_of_the_range() {
    let most = stable(2_000.0);
    let p = Message::new(&most, NOTHING);
    let weighing = Indicated {
        p,
        p2: p,
        q: p,
        q2: p,
        n: 2_000_000,
        ..G_INDICATED
    };
    assert_eq!(nets(&weighing), Ok([2_000_000; 4]));
    let least = stable(0.000_500_1);
    let p = Message::new(&least, NOTHING);
    let weighing = Indicated {
        p,
        p2: p,
        q: p,
        q2: p,
        n: 1,
        ..G_INDICATED
    };
    assert_eq!(nets(&weighing), Ok([1; 4]));
    let pair = Paired {
        p: 1,
        q: 1,
        p2: 1,
        q2: 1,
        n: 1,
        ..G_PAIRED
    };
    let [mut sent, mut paired] = [Record::new(), Record::new()];
    assert_eq!(sent.weigh_indicated(&weighing), Ok(()));
    assert_eq!(paired.weigh_paired(&pair), Ok(()));
    assert_eq!(sent, paired);
}
