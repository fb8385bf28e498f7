//! The table of refusals: the order of the numbers, the edges of the ranges and
//! arguments of any size.

mod common;

use common::Sides;
use judge::paper::{Call, Change, Columns, Paired, Seat, Sheet, Weighing};
use judge::run::{Calls, Direct, Fast};

const WEIGHING: Weighing = Weighing {
    m: 1,
    p: 300_000,
    q: 20_000,
    a: 10_000,
    b: 500_000,
    n: 100_000,
};

const PAIRED: Paired = Paired {
    m: 1,
    p: 300_000,
    q: 20_000,
    p2: 300_010,
    q2: 20_001,
    a: 10_000,
    b: 500_000,
    n: 100_000,
};

const SHEET: Sheet = Sheet {
    fwd: 20_000,
    aft: 40_000,
    dry: 420_000,
    wet: 500_000,
    nlp: 300_000,
    front_arm: -60_000,
    front_least: 50_000,
    front_most: 110_000,
    front_step: 1_000,
    rear_arm: 0,
    rear_most: 100_000,
    rear_step: 50_000,
    water_arm: 30_000,
    capacity: 100_000,
    water_step: 50_000,
};

const CHANGE: Change = Change {
    c: 1_000,
    arm: -50_000,
    flag: 1,
};

const SEAT: Seat = Seat {
    lower: -65_000,
    higher: -55_000,
};

/// The number of a call on a record with one weighing.
fn number(call: Call) -> u64 {
    let mut sides = Sides::new();
    sides.accept(&Call::Weigh(WEIGHING));
    sides.call(&call)
}

fn weigh(w: Weighing) -> u64 {
    number(Call::Weigh(w))
}

/// A pair with its readings in the other order.
fn turned(x: Paired) -> Paired {
    Paired {
        p: x.p2,
        q: x.q2,
        p2: x.p,
        q2: x.q,
        ..x
    }
}

/// The number of a pair, which is the same whichever reading comes first.
fn pair(x: Paired) -> u64 {
    let given = number(Call::Pair(x));
    assert_eq!(number(Call::Pair(turned(x))), given, "{x:?}");
    given
}

fn install(s: Sheet) -> u64 {
    number(Call::Install(s))
}

fn change(c: Change) -> u64 {
    number(Call::Change(c))
}

/// The number of a seat behind a sheet.
fn seat(s: Seat) -> u64 {
    let mut sides = Sides::new();
    sides.accept(&Call::Install(SHEET));
    sides.call(&Call::Seat(s))
}

fn full() -> Sides {
    let mut sides = Sides::new();
    for _ in 0..64 {
        sides.accept(&Call::Weigh(WEIGHING));
    }
    sides
}

#[test]
fn weighing_is_refused_in_the_order_9_1_2_3() {
    let mut w = Weighing {
        m: 5,
        b: 0,
        n: 300_001,
        ..WEIGHING
    };
    assert_eq!(full().call(&Call::Weigh(w)), 9);
    assert_eq!(weigh(w), 1);
    w.m = 1;
    assert_eq!(weigh(w), 2);
    w.b = 1;
    assert_eq!(weigh(w), 3);
    w.n = 300_000;
    assert_eq!(weigh(w), 0);
}

/// By number, and not reading by reading: a total of 0 counts before n over the
/// total of the other reading.
#[test]
fn pair_is_refused_in_the_order_9_1_2_3() {
    let mut x = Paired {
        p: 99_999,
        p2: 0,
        q2: 0,
        b: 0,
        ..PAIRED
    };
    assert_eq!(full().call(&Call::Pair(x)), 9);
    assert_eq!(pair(x), 1);
    x.p2 = 300_010;
    assert_eq!(pair(x), 2);
    x.b = 1;
    assert_eq!(pair(x), 3);
    x.n = 99_999;
    assert_eq!(pair(x), 0);
}

/// n is at most the smaller total.
#[test]
fn the_smaller_total_counts() {
    for (m, smaller) in [(1, 299_999), (2, 299_999), (3, 319_999), (4, 279_999)] {
        let p = 299_999;
        let at = |n| pair(Paired { m, p, n, ..PAIRED });
        assert_eq!(at(smaller), 0, "method {m}");
        assert_eq!(at(smaller + 1), 3, "method {m}");
    }
}

#[test]
fn sheet_is_refused_in_the_order_9_2_4_5() {
    let mut s = Sheet {
        water_arm: 2_000_001,
        dry: 0,
        rear_step: 0,
        ..SHEET
    };
    assert_eq!(full().call(&Call::Install(s)), 9);
    assert_eq!(install(s), 2);
    s.water_arm = 2_000_000;
    assert_eq!(install(s), 4);
    s.dry = 1;
    assert_eq!(install(s), 5);
    s.rear_step = 1;
    assert_eq!(install(s), 5);
    s.rear_step = 10_000;
    assert_eq!(install(s), 0);
}

#[test]
fn change_is_refused_in_the_order_9_7_2_6_3() {
    let mut c = Change {
        c: 0,
        arm: -2_000_001,
        flag: 2,
    };
    assert_eq!(full().call(&Call::Change(c)), 9);
    assert_eq!(Sides::new().call(&Call::Change(c)), 7);
    assert_eq!(change(c), 2);
    c.arm = -2_000_000;
    assert_eq!(change(c), 6);
    c.c = -100_001;
    assert_eq!(change(c), 6);
    c.flag = 1;
    assert_eq!(change(c), 3);
    c.c = -100_000;
    assert_eq!(change(c), 0);
}

#[test]
fn seat_is_refused_in_the_order_9_8_2() {
    let mut s = Seat {
        lower: 2_000_001,
        higher: -2_000_001,
    };
    assert_eq!(full().call(&Call::Seat(s)), 9);
    assert_eq!(Sides::new().call(&Call::Seat(s)), 8);
    // A weighing does not stand for a sheet.
    assert_eq!(number(Call::Seat(s)), 8);
    assert_eq!(number(Call::Seat(SEAT)), 8);
    assert_eq!(seat(s), 2);
    s.lower = 2_000_000;
    assert_eq!(seat(s), 2);
    s.higher = 1_999_999;
    assert_eq!(seat(s), 2);
    s.higher = 2_000_000;
    assert_eq!(seat(s), 0);
}

const TOP: u64 = 2_000_000;

/// Methods and readings with their numbers.
const READINGS: [(u64, u64, u64, u64); 21] = [
    (0, 10, 5, 1),
    (5, 10, 5, 1),
    (1, 0, 0, 1),
    (1, 1, 1, 0),
    (1, 1, 2, 1),
    (2, 9, 9, 0),
    (2, 9, 10, 1),
    (1, TOP, TOP, 0),
    (1, TOP + 1, 0, 1),
    (3, 0, 0, 1),
    (3, 0, 1, 0),
    (3, TOP, 0, 0),
    (3, TOP, 1, 1),
    (3, 5, TOP + 1, 1),
    (4, 1, 0, 0),
    (4, 1, 1, 1),
    (4, 1, 2, 1),
    (4, TOP, TOP - 1, 0),
    (4, TOP + 1, 1, 1),
    (4, u64::MAX, u64::MAX - 1, 1),
    (3, u64::MAX, 2, 1),
];

/// Each as a weighing of its own, and as one reading of a pair.
#[test]
fn readings_by_method() {
    for (m, p, q, expected) in READINGS {
        let n = 0;
        let plain = Weighing {
            m,
            p,
            q,
            n,
            ..WEIGHING
        };
        let first = Paired {
            m,
            p,
            q,
            n,
            ..PAIRED
        };
        assert_eq!(weigh(plain), expected, "{plain:?}");
        assert_eq!(pair(first), expected, "{first:?}");
    }
}

#[test]
fn sheet_ranges() {
    let arms = |fwd, aft| install(Sheet { fwd, aft, ..SHEET });
    assert_eq!(arms(-2_000_000, 2_000_000), 0);
    assert_eq!(arms(-2_000_001, 2_000_000), 2);
    assert_eq!(arms(5, 6), 0);
    assert_eq!(arms(5, 5), 4);
    assert_eq!(arms(6, 5), 4);
    let weights = |dry, wet, nlp| {
        install(Sheet {
            dry,
            wet,
            nlp,
            ..SHEET
        })
    };
    assert_eq!(weights(1, 1, 0), 0);
    assert_eq!(weights(0, 1, 0), 4);
    assert_eq!(weights(2, 1, 0), 4);
    assert_eq!(weights(2_000_000, 2_000_000, 2_000_000), 0);
    assert_eq!(weights(2_000_000, 2_000_001, 0), 4);
    assert_eq!(weights(1, 1, 2_000_001), 4);
    let front = |front_least, front_most, front_step| {
        install(Sheet {
            front_least,
            front_most,
            front_step,
            ..SHEET
        })
    };
    assert_eq!(front(500_000, 500_000, 500_000), 0);
    assert_eq!(front(500_001, 500_000, 1), 4);
    assert_eq!(front(0, 500_001, 1), 4);
    assert_eq!(front(0, 0, 1), 0);
    assert_eq!(front(0, 0, 0), 5);
    assert_eq!(front(0, 0, 500_001), 5);
}

#[test]
fn rear_and_water_ranges() {
    let rear = |rear_most, rear_step| {
        install(Sheet {
            rear_most,
            rear_step,
            ..SHEET
        })
    };
    assert_eq!(rear(500_000, 500_000), 0);
    assert_eq!(rear(500_001, 500_000), 4);
    assert_eq!(rear(0, 0), 5);
    assert_eq!(rear(0, 500_001), 5);
    let water = |capacity, water_step| {
        install(Sheet {
            capacity,
            water_step,
            ..SHEET
        })
    };
    assert_eq!(water(2_000_000, 2_000_000), 0);
    assert_eq!(water(2_000_001, 2_000_000), 4);
    assert_eq!(water(0, 0), 5);
    assert_eq!(water(0, 2_000_001), 5);
    assert_eq!(water(u64::MAX, 1), 4);
}

#[test]
fn seat_ranges() {
    let ends = |lower, higher| seat(Seat { lower, higher });
    assert_eq!(ends(-2_000_000, 2_000_000), 0);
    assert_eq!(ends(-2_000_001, 2_000_000), 2);
    assert_eq!(ends(-2_000_000, 2_000_001), 2);
    assert_eq!(ends(-2_000_000, -2_000_000), 0);
    assert_eq!(ends(2_000_001, 2_000_001), 2);
    assert_eq!(ends(5, 6), 0);
    assert_eq!(ends(5, 5), 0);
    assert_eq!(ends(6, 5), 2);
    assert_eq!(ends(0, -1), 2);
}

#[test]
fn weight_after_a_change() {
    let flagged = |c, flag| change(Change { c, flag, ..CHANGE });
    // G is 300,000 and n 100,000 before.
    assert_eq!(flagged(-299_999, 0), 3);
    assert_eq!(flagged(-300_000, 0), 6);
    assert_eq!(flagged(1_700_000, 0), 0);
    assert_eq!(flagged(1_700_001, 0), 6);
    assert_eq!(flagged(-200_000, 0), 0);
    assert_eq!(flagged(-200_001, 0), 3);
    assert_eq!(flagged(-100_000, 1), 0);
    assert_eq!(flagged(-100_001, 1), 3);
    assert_eq!(flagged(i64::MIN, 1), 6);
    assert_eq!(flagged(i64::MAX, 1), 6);
    assert_eq!(flagged(1, u64::MAX), 6);
}

/// Picks a field of an entry.
type Field<Entry, Value> = fn(&mut Entry) -> &mut Value;

/// Far out, or good in the low four bytes only.
const BIG: [u64; 6] = [
    1 << 31,
    1 << 32,
    (1 << 32) + 1,
    1 << 63,
    i64::MAX as u64,
    u64::MAX,
];
const BIG_SIGNED: [i64; 6] = [
    1 << 31,
    -(1 << 31),
    1 << 32,
    (1 << 32) + 1,
    i64::MIN,
    i64::MAX,
];

#[test]
fn weighing_arguments_of_any_size() {
    let fields: [(Field<Weighing, u64>, u64); 5] = [
        (|w| &mut w.m, 1),
        (|w| &mut w.p, 1),
        (|w| &mut w.q, 1),
        (|w| &mut w.b, 2),
        (|w| &mut w.n, 3),
    ];
    for (field, number) in fields {
        for value in BIG {
            let mut w = WEIGHING;
            *field(&mut w) = value;
            assert_eq!(weigh(w), number, "{w:?}");
        }
    }
    for a in BIG_SIGNED {
        assert_eq!(weigh(Weighing { a, ..WEIGHING }), 2);
    }
}

#[test]
fn pair_arguments_of_any_size() {
    let fields: [(Field<Paired, u64>, u64); 7] = [
        (|x| &mut x.m, 1),
        (|x| &mut x.p, 1),
        (|x| &mut x.q, 1),
        (|x| &mut x.p2, 1),
        (|x| &mut x.q2, 1),
        (|x| &mut x.b, 2),
        (|x| &mut x.n, 3),
    ];
    for (field, number) in fields {
        for value in BIG {
            let mut x = PAIRED;
            *field(&mut x) = value;
            assert_eq!(pair(x), number, "{x:?}");
        }
    }
    for a in BIG_SIGNED {
        assert_eq!(pair(Paired { a, ..PAIRED }), 2);
    }
}

#[test]
fn sheet_arguments_of_any_size() {
    let weights: [(Field<Sheet, u64>, u64); 10] = [
        (|s| &mut s.dry, 4),
        (|s| &mut s.wet, 4),
        (|s| &mut s.nlp, 4),
        (|s| &mut s.front_least, 4),
        (|s| &mut s.front_most, 4),
        (|s| &mut s.rear_most, 4),
        (|s| &mut s.capacity, 4),
        (|s| &mut s.front_step, 5),
        (|s| &mut s.rear_step, 5),
        (|s| &mut s.water_step, 5),
    ];
    for (field, number) in weights {
        for value in BIG {
            let mut s = SHEET;
            *field(&mut s) = value;
            assert_eq!(install(s), number, "{s:?}");
        }
    }
    let arms: [Field<Sheet, i64>; 5] = [
        |s| &mut s.fwd,
        |s| &mut s.aft,
        |s| &mut s.front_arm,
        |s| &mut s.rear_arm,
        |s| &mut s.water_arm,
    ];
    for field in arms {
        for value in BIG_SIGNED {
            let mut s = SHEET;
            *field(&mut s) = value;
            assert_eq!(install(s), 2, "{s:?}");
        }
    }
}

#[test]
fn change_arguments_of_any_size() {
    for value in BIG_SIGNED {
        assert_eq!(change(Change { c: value, ..CHANGE }), 6);
        let arm = value;
        assert_eq!(change(Change { arm, ..CHANGE }), 2);
    }
    for flag in BIG {
        assert_eq!(change(Change { flag, ..CHANGE }), 6);
    }
}

#[test]
fn seat_arguments_of_any_size() {
    for value in BIG_SIGNED {
        let lower = value;
        assert_eq!(seat(Seat { lower, ..SEAT }), 2);
        let higher = value;
        assert_eq!(seat(Seat { higher, ..SEAT }), 2);
        assert_eq!(seat(Seat { lower, higher }), 2);
    }
}

#[test]
fn placard_and_centre_need_their_entries() {
    let mut sides = Sides::new();
    assert_eq!(sides.centre(), Err(7));
    assert_eq!(sides.placard(0), Err(7));
    sides.accept(&Call::Install(SHEET));
    assert_eq!(sides.placard(0), Err(7));
    sides.accept(&Call::Undo);
    sides.accept(&Call::Weigh(WEIGHING));
    assert_eq!(sides.placard(0), Err(8));
    sides.accept(&Call::Install(SHEET));
    assert_eq!(sides.placard(0), Err(11));
}

/// The equipment's order is 7, 11; each column counts.
#[test]
fn equipment_is_refused_in_the_order_7_11() {
    let mut sides = Sides::new();
    assert_eq!(sides.equipment_into([0; 3]), Err(7));
    sides.accept(&Call::Install(SHEET));
    assert_eq!(sides.equipment_into([70; 3]), Err(7));
    sides.accept(&Call::Weigh(WEIGHING));
    let nothing = Ok([vec![], vec![], vec![]]);
    assert_eq!(sides.equipment_into([0; 3]), nothing);
    assert_eq!(sides.equipment_into([2, 0, 1]), nothing);
    sides.accept(&Call::Change(CHANGE));
    for arm in [CHANGE.arm, 7] {
        sides.accept(&Call::Change(Change { arm, ..CHANGE }));
    }
    for (lengths, accepted) in [
        ([0, 0, 0], false),
        ([1, 2, 2], false),
        ([2, 1, 2], false),
        ([2, 2, 1], false),
        ([1, 9, 9], false),
        ([2, 2, 2], true),
        ([3, 2, 70], true),
    ] {
        let answer = sides.equipment_into(lengths);
        assert_eq!(answer.is_ok(), accepted, "{lengths:?}");
        assert_eq!(answer.err().unwrap_or(11), 11);
    }
}

/// "G, M and n are those of the last weighing in the list and the changes
/// behind it", also after taking back.
#[test]
fn the_last_weighing_counts() {
    let mut sides = Sides::new();
    sides.accept(&Call::Weigh(WEIGHING));
    sides.accept(&Call::Change(CHANGE));
    let before = sides.centre();
    assert_eq!(before.unwrap().total, 602_000);
    sides.accept(&Call::Weigh(Weighing {
        p: 250_000,
        ..WEIGHING
    }));
    assert_eq!(sides.centre().unwrap().total, 500_000);
    sides.accept(&Call::Pair(Paired {
        p2: 250_001,
        ..PAIRED
    }));
    assert_eq!(sides.centre().unwrap().total, 550_001);
    sides.accept(&Call::Undo);
    sides.accept(&Call::Undo);
    assert_eq!(sides.centre(), before);
}

#[test]
fn a_lent_buffer() {
    lend_a_buffer::<Direct>();
    lend_a_buffer::<Fast>();
}

/// Columns of no element.
fn no_columns() -> Columns<'static> {
    Columns {
        arms: &mut [],
        weights: &mut [],
        nonlifting: &mut [],
    }
}

fn lend_a_buffer<C: Calls>() {
    let mut tiny = [9; 5];
    assert_eq!(C::fresh(&mut tiny), 11);
    assert_eq!(C::check(&tiny), 12);
    assert_eq!(C::call(&mut tiny, &Call::Undo), 12);
    assert_eq!(C::equipment(&tiny, no_columns()), Err(12));
    assert_eq!(tiny, [9; 5]);
    // Just enough for a weighing; nothing fits behind it, and what the call
    // itself refuses comes before that.
    let mut buffer = [9; 28];
    assert_eq!(C::fresh(&mut buffer), 0);
    assert_eq!(C::equipment(&buffer, no_columns()), Err(7));
    assert_eq!(C::call(&mut buffer, &Call::Weigh(WEIGHING)), 0);
    assert_eq!(C::equipment(&buffer, no_columns()), Ok(0));
    let written = buffer;
    assert_eq!(C::call(&mut buffer, &Call::Change(CHANGE)), 11);
    let bad = Change { flag: 2, ..CHANGE };
    assert_eq!(C::call(&mut buffer, &Call::Change(bad)), 6);
    assert_eq!(buffer, written);
    // Taking back leaves the entry's bytes where they were.
    assert_eq!(C::call(&mut buffer, &Call::Undo), 0);
    assert_eq!(buffer[..6], [0, 0, 0, 2, 2, 0]);
    assert_eq!(buffer[6..], written[6..]);
    // Bytes that are no file are refused before the room is looked at.
    assert_eq!(C::call(&mut tiny, &Call::Read(vec![0; 40])), 12);
    let file = written[..28].to_vec();
    assert_eq!(C::call(&mut tiny, &Call::Read(file)), 11);
}

/// A file of version 1 is taken as it is. The first call that changes it leaves
/// one of version 2; a refused one leaves every byte.
#[test]
fn a_lent_buffer_of_version_1() {
    lend_a_buffer_of_version_1::<Direct>();
    lend_a_buffer_of_version_1::<Fast>();
}

fn lend_a_buffer_of_version_1<C: Calls>() {
    let mut sides = Sides::new();
    sides.accept(&Call::Weigh(WEIGHING));
    sides.accept(&Call::Install(SHEET));
    let old = sides.journal.file_as(1);
    let lent = [&old[..], &[9; 120]].concat();
    assert_eq!(C::check(&lent), 0);
    assert_eq!(C::centre(&lent), sides.centre());
    refuse_on::<C>(&lent);
    for call in [
        Call::Weigh(WEIGHING),
        Call::Pair(PAIRED),
        Call::Install(SHEET),
        Call::Change(CHANGE),
        Call::Seat(SEAT),
        Call::Undo,
        Call::Read(old),
    ] {
        let (mut after, mut journal) = (lent.clone(), sides.journal.clone());
        assert_eq!(C::call(&mut after, &call), 0);
        assert_eq!(journal.call(&call), 0);
        let file = journal.file();
        assert_eq!((after[4], &after[..file.len()]), (2, &file[..]));
    }
}

/// Calls that a record of a weighing and a sheet refuses.
fn refuse_on<C: Calls>(lent: &[u8]) {
    for call in [
        Call::Weigh(Weighing { m: 0, ..WEIGHING }),
        Call::Pair(Paired {
            q2: 300_011,
            ..PAIRED
        }),
        Call::Install(Sheet { dry: 0, ..SHEET }),
        Call::Change(Change { c: 0, ..CHANGE }),
        Call::Seat(Seat {
            higher: 0,
            lower: 1,
        }),
        Call::Read(vec![0; 6]),
    ] {
        let mut after = lent.to_vec();
        assert_ne!(C::call(&mut after, &call), 0);
        assert_eq!(after, lent);
    }
}
