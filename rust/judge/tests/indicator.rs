//! Card 6 of paper 02, the indicator: its numbers one by one, and the paper's way to the
//! grams against the direct one.

mod common;

use common::Sides;
use judge::direct::nets;
use judge::generate::indicated;
use judge::paper::{weighed_by_indicator, Call, Cell, Indicated, Message, Paired, Weighing};

const UNSTEADY: u64 = 13;
const LOAD: u64 = 14;

const SIGN: u64 = 1 << 63;
const INFINITE: u64 = 0x7ff << 52;

/// A stable reading of a float on a cell, all of them as their patterns.
fn shown(reading: u64, rated: u64, zero: u64) -> Message {
    Message::stable(reading, Cell { rated, zero })
}

/// The same in kilograms.
fn sent(reading: f64, rated: f64, zero: f64) -> Message {
    shown(reading.to_bits(), rated.to_bits(), zero.to_bits())
}

/// 300 and 20 kg, read twice on wheel and tail.
fn good() -> Indicated {
    Indicated {
        m: 1,
        p: sent(300.5, 500.0, 0.5),
        q: sent(20.25, 500.0, 0.25),
        p2: sent(300.51, 500.0, 0.5),
        q2: sent(20.251, 500.0, 0.25),
        a: 10_000,
        b: 500_000,
        n: 100_000,
    }
}

/// What both ways make of it.
fn came_to(x: &Indicated) -> Result<Paired, u64> {
    let paired = weighed_by_indicator(x);
    assert_eq!(nets(x), paired, "{x:?}");
    paired
}

/// The first net of a weighing, or the number of its refusal.
fn net(p: Message) -> Result<u64, u64> {
    came_to(&Indicated { p, ..good() }).map(|paired| paired.p)
}

/// The grams of a float, with a zero of nought.
fn grams(reading: f64) -> Result<u64, u64> {
    net(sent(reading, f64::MAX, 0.0))
}

#[test]
fn the_nearest_whole_gram() {
    for (kilograms, due) in [
        (0.0025, 3),
        (0.0005, 1),
        (0.0055, 5),
        (0.0625, 62),
        (0.1875, 188),
        (0.3125, 312),
        (1999.9375, 1_999_938),
        (2000.0, 2_000_000),
        (2000.0_f64.next_down(), 2_000_000),
        (0.0, 0),
        (-0.0, 0),
        (f64::MIN_POSITIVE, 0),
        (f64::from_bits(1), 0),
        (0.0005_f64.next_down(), 0),
        (0.0004, 0),
        (1.0004, 1_000),
        (1.0006, 1_001),
    ] {
        assert_eq!(grams(kilograms), Ok(due), "{kilograms}");
    }
}

/// A tie goes to the even gram, and a float beside it to the nearer one.
#[test]
fn odd_sixteenths_of_a_kilogram() {
    for sixteenth in (1..32_000).step_by(2) {
        let tie = f64::from(sixteenth) / 16.0;
        let below = sixteenth as u64 * 1_000 / 16;
        assert_eq!(grams(tie), Ok(below + below % 2));
        assert_eq!(grams(tie.next_down()), Ok(below));
        assert_eq!(grams(tie.next_up()), Ok(below + 1));
    }
}

#[test]
fn the_zero_is_taken_off_in_grams() {
    assert_eq!(net(sent(1.0001, 9.0, 1.0002)), Ok(0));
    assert_eq!(net(sent(0.0004, 9.0, 0.0005)), Err(LOAD));
    assert_eq!(net(sent(0.0005, 9.0, 0.0004)), Ok(1));
    assert_eq!(net(sent(7.0, 9.0, 7.0)), Ok(0));
    assert_eq!(net(sent(7.0, 9.0, 7.001)), Err(LOAD));
}

#[test]
fn bounds_of_a_load() {
    let (most, over) = (2_000.0, 2_000.0_f64.next_up());
    assert_eq!(grams(over), Err(LOAD));
    assert_eq!(net(sent(most, 3_000.0, most)), Ok(0));
    assert_eq!(net(sent(most, 3_000.0, over)), Err(LOAD));
    for below in [-f64::from_bits(1), -1.0, f64::MIN, -f64::MIN_POSITIVE] {
        assert_eq!(grams(below), Err(LOAD));
        assert_eq!(net(sent(1.0, 2.0, below)), Err(LOAD));
        assert_eq!(net(sent(0.0, below, 0.0)), Err(LOAD));
        assert_eq!(net(sent(below, below, 0.0)), Err(LOAD));
    }
    assert_eq!(net(sent(-0.0, 2.0, -0.0)), Ok(0));
    assert_eq!(net(sent(1.0, 2.0, -0.0)), Ok(1_000));
}

/// As it was sent: before it is rounded, and before the zero is taken off.
#[test]
fn the_rating_is_compared_exactly() {
    for kilograms in [0.0, 1e-300, 0.1, 0.0004, 77.0, 2_000.0_f64] {
        assert!(net(sent(kilograms, kilograms, 0.0)).is_ok());
        let above = kilograms.next_up().min(2_000.0);
        if above > kilograms {
            assert_eq!(net(sent(above, kilograms, 0.0)), Err(LOAD));
        }
    }
    for nought in [0.0, -0.0] {
        assert_eq!(net(sent(0.0, nought, 0.0)), Ok(0));
        assert_eq!(net(sent(-0.0, nought, 0.0)), Ok(0));
    }
    // The zero may be above it.
    assert_eq!(net(sent(1.0, 1.0, 1.0004)), Ok(0));
}

#[test]
fn floats_that_are_not_finite() {
    let good = 1.0_f64.to_bits();
    for fraction in [0, 1, 1 << 51, 1 << 51 | 5, (1 << 52) - 1] {
        for bad in [INFINITE | fraction, SIGN | INFINITE | fraction] {
            assert_eq!(net(shown(bad, good, good)), Err(LOAD));
            assert_eq!(net(shown(good, bad, good)), Err(LOAD));
            assert_eq!(net(shown(good, good, bad)), Err(LOAD));
        }
    }
    let greatest = INFINITE - 1;
    assert_eq!(net(shown(good, greatest, 0)), Ok(1_000));
}

/// Floats of every exponent and sign as the reading, the rating, the zero, and all three, by
/// the paper, directly and by the library.
#[test]
fn every_exponent() {
    let [nought, one, heavy, most] = [0.0, 1.0, 2_000.0, f64::MAX].map(f64::to_bits);
    for high in 0..1 << 12 {
        for fraction in [0, 1, 1 << 51, (1 << 52) - 1, 0xe_dcba_9876_5432] {
            let float = high << 52 | fraction;
            for q in [
                shown(float, most, nought),
                shown(one, float, nought),
                shown(heavy, most, float),
                shown(float, float, float),
            ] {
                let x = Indicated { m: 3, q, ..good() };
                let (paired, mut sides) = (came_to(&x), Sides::new());
                let number = sides.call(&Call::Indicate(x));
                assert!(paired.map_or_else(|bad| bad == number, |_| number < UNSTEADY));
            }
        }
    }
}

#[test]
fn states_and_lengths() {
    for state in 0..=255 {
        let mut p = good().p;
        p.bytes[0] = state;
        let due = if state == 1 {
            Ok(300_000)
        } else {
            Err(UNSTEADY)
        };
        assert_eq!(net(p), due, "state {state}");
    }
    for length in (0..20).filter(|length| *length != 9) {
        let mut p = good().p;
        p.bytes.resize(length, 0);
        assert_eq!(net(p), Err(UNSTEADY), "{length} bytes");
    }
}

#[test]
fn unsteady_in_any_before_a_load_in_any() {
    let mut x = good();
    x.p.cell.rated = INFINITE;
    assert_eq!(came_to(&x), Err(LOAD));
    x.q2.bytes[0] = 3;
    assert_eq!(came_to(&x), Err(UNSTEADY));
    // A moving reading's float is not looked at.
    let mut x = good();
    set_float(&mut x.q, INFINITE | 1);
    assert_eq!(came_to(&x), Err(LOAD));
    x.q.bytes[0] = 2;
    assert_eq!(came_to(&x), Err(UNSTEADY));
}

fn set_float(message: &mut Message, pattern: u64) {
    message.bytes[1..].copy_from_slice(&pattern.to_be_bytes());
}

/// The zero of the lift holds the jury ballast; that of the platform does not.
#[test]
fn turned_round_in_method_4_for_q_alone() {
    let turned = Indicated {
        m: 4,
        q: sent(0.25, 500.0, 20.25),
        q2: sent(0.25, 500.0, 20.251),
        ..good()
    };
    let paired = came_to(&turned).unwrap();
    let readings = [paired.p, paired.q, paired.p2, paired.q2];
    assert_eq!(readings, [300_000, 20_000, 300_010, 20_001]);
    let m = 4;
    assert_eq!(came_to(&Indicated { m, ..good() }), Err(LOAD));
    let p = sent(0.25, 500.0, 20.25);
    assert_eq!(
        came_to(&Indicated {
            p,
            ..turned.clone()
        }),
        Err(LOAD)
    );
    // In a method that is none they are as in any but that.
    for m in [0, 1, 2, 3, 5, 260, u64::MAX] {
        assert!(came_to(&Indicated { m, ..good() }).is_ok());
        assert_eq!(
            came_to(&Indicated {
                m,
                ..turned.clone()
            }),
            Err(LOAD)
        );
    }
}

fn full() -> Sides {
    let (m, p, q, a, b, n) = (1, 2, 1, 0, 1, 0);
    let mut sides = Sides::new();
    for _ in 0..64 {
        sides.accept(&Call::Weigh(Weighing { m, p, q, a, b, n }));
    }
    sides
}

#[test]
fn refused_in_the_order_13_14_9_1_2_3() {
    let mut x = Indicated {
        m: 5,
        b: 0,
        n: u64::MAX,
        ..good()
    };
    x.p.cell.zero = SIGN | 1;
    x.q2.bytes.pop();
    let number = |x: &Indicated| Sides::new().call(&Call::Indicate(x.clone()));
    let full_number = |x: &Indicated| full().call(&Call::Indicate(x.clone()));
    assert_eq!((number(&x), full_number(&x)), (UNSTEADY, UNSTEADY));
    x.q2 = good().q2;
    assert_eq!((number(&x), full_number(&x)), (LOAD, LOAD));
    x.p = good().p;
    assert_eq!((number(&x), full_number(&x)), (1, 9));
    x.m = 1;
    assert_eq!(number(&x), 2);
    x.b = 1;
    assert_eq!(number(&x), 3);
    x.n = 300_000;
    assert_eq!(number(&x), 0);
}

/// What is added is the paired weighing of the nets, and nothing else.
#[test]
fn it_is_entered_as_a_pair() {
    let mut sides = Sides::new();
    sides.accept(&Call::Indicate(good()));
    let sent = sides.buffer()[..36].to_vec();
    sides.accept(&Call::Undo);
    sides.accept(&Call::Pair(came_to(&good()).unwrap()));
    assert_eq!(sides.buffer()[..36], sent);
    assert_eq!(sides.centre().map(|centre| centre.total), Ok(600_010));
}

/// A million weighings, and among them each sort of float and of message often enough.
#[test]
fn the_paper_and_the_direct_way() {
    let mut reached = [0; 3];
    let mut refused_alone = [[0; 2]; 4];
    for index in 0..1_000_000 {
        let x = indicated(3, index);
        match came_to(&x) {
            Ok(_) => reached[0] += 1,
            Err(number) => {
                reached[number as usize - 12] += 1;
                let turned = x.m == 4;
                let messages = [&x.p, &x.q, &x.p2, &x.q2];
                for (i, message) in messages.into_iter().enumerate() {
                    let alone = alone(message, turned && i % 2 == 1);
                    refused_alone[i][number as usize - 13] += u64::from(alone == Err(number));
                }
            }
        }
    }
    assert!(reached.iter().all(|count| *count > 150_000), "{reached:?}");
    let least = refused_alone.as_flattened().iter().min();
    assert!(least > Some(&30_000), "{refused_alone:?}");
}

/// One message by itself, in a weighing that is good else.
fn alone(message: &Message, turned: bool) -> Result<u64, u64> {
    if turned {
        let x = Indicated {
            m: 4,
            q: message.clone(),
            q2: sent(0.0, 1.0, 0.0),
            ..good()
        };
        return came_to(&x).map(|paired| paired.q);
    }
    net(message.clone())
}
