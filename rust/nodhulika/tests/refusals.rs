//! Every number of refusal, and that a refusal changes no byte of any buffer.

mod common;

use common::{case_g, full, lent, of_version_1, FREE};
use common::{
    stable, G_INDICATED, G_PAIRED, G_SEAT, G_SHEET, G_TAIL, G_WEIGHING, G_WHEEL, H_CHANGE,
};
use nodhulika::lent::{
    centre, change, check, equipment, fresh, placard, read, seat, sheet, undo, weigh,
    weigh_indicated, weigh_paired,
};
use nodhulika::{Change, Indicated, Message, Paired, Record, Refusal, Seat, Sheet, Weighing};
use nodhulika::{UnknownNumber, LONGEST_FILE};

/// Makes the call on the record at the front of a long buffer: it gets this
/// refusal, and the buffer stays as it was, free bytes included.
fn refused<T: std::fmt::Debug + PartialEq>(
    record: &Record,
    refusal: Refusal,
    call: impl FnOnce(&mut [u8]) -> Result<T, Refusal>,
) {
    let mut buffer = lent(record, LONGEST_FILE + 64);
    let before = buffer.clone();
    assert_eq!(call(&mut buffer), Err(refusal));
    assert_eq!(buffer, before);
}

/// The weighing of case G with something changed in it.
fn weighing_refused(refusal: Refusal, edit: impl Fn(&mut Weighing)) {
    let mut weighing = G_WEIGHING;
    edit(&mut weighing);
    refused(&case_g(), refusal, |buffer| weigh(buffer, &weighing));
}

/// The paired weighing with something changed in it.
fn pair_refused(refusal: Refusal, edit: impl Fn(&mut Paired)) {
    let mut paired = G_PAIRED;
    edit(&mut paired);
    refused(&case_g(), refusal, |buffer| weigh_paired(buffer, &paired));
}

/// The paired weighing as an indicator sends it, with something changed in it.
fn indicated_refused(refusal: Refusal, edit: impl Fn(&mut Indicated)) {
    let mut weighing = G_INDICATED;
    edit(&mut weighing);
    refused(&case_g(), refusal, |buffer| {
        weigh_indicated(buffer, &weighing)
    });
}

/// The data sheet of case G with something changed in it.
fn sheet_refused(refusal: Refusal, edit: impl Fn(&mut Sheet)) {
    let mut data = G_SHEET;
    edit(&mut data);
    refused(&case_g(), refusal, |buffer| sheet(buffer, &data));
}

/// The change of case H with something changed in it.
fn change_refused(refusal: Refusal, edit: impl Fn(&mut Change)) {
    let mut part = H_CHANGE;
    edit(&mut part);
    refused(&case_g(), refusal, |buffer| change(buffer, &part));
}

/// The seat of case G with something changed in it.
fn seat_refused(refusal: Refusal, edit: impl Fn(&mut Seat)) {
    let mut adjusted = G_SEAT;
    edit(&mut adjusted);
    refused(&case_g(), refusal, |buffer| seat(buffer, &adjusted));
}

#[test]
fn number_1_reading() {
    for m in [0, 5, u64::MAX] {
        weighing_refused(Refusal::Reading, |w| w.m = m);
    }
    for p in [0, 2_000_001, u64::MAX] {
        weighing_refused(Refusal::Reading, |w| (w.p, w.n) = (p, 0));
    }
    for m in 1..=4 {
        // More than p in methods 1 and 2, a total over the most in 3, under 1 in 4.
        weighing_refused(Refusal::Reading, |w| (w.m, w.q) = (m, 2_000_000));
        pair_refused(Refusal::Reading, |x| (x.m, x.q) = (m, 2_000_000));
        pair_refused(Refusal::Reading, |x| (x.m, x.q2) = (m, 2_000_000));
    }
}

#[test]
fn number_1_reading_of_a_pair() {
    for m in [0, 5, u64::MAX] {
        pair_refused(Refusal::Reading, |x| x.m = m);
    }
    for reading in [0, 2_000_001, u64::MAX] {
        pair_refused(Refusal::Reading, |x| (x.p, x.n) = (reading, 0));
        pair_refused(Refusal::Reading, |x| (x.p2, x.n) = (reading, 0));
    }
    for reading in [288_002, 2_000_001, u64::MAX] {
        pair_refused(Refusal::Reading, |x| x.q = reading);
        pair_refused(Refusal::Reading, |x| x.q2 = reading);
    }
}

#[test]
fn number_1_reading_of_an_indicator() {
    for m in [0, 5, u64::MAX] {
        indicated_refused(Refusal::Reading, |x| x.m = m);
    }
    // A total of 0: the wheel shows no more than its zero.
    let empty = stable(1.25);
    let p = Message::new(&empty, G_WHEEL);
    let light = Indicated {
        n: 0,
        ..G_INDICATED
    };
    for weighing in [Indicated { p, ..light }, Indicated { p2: p, ..light }] {
        refused(&case_g(), Refusal::Reading, |buffer| {
            weigh_indicated(buffer, &weighing)
        });
    }
}

#[test]
fn number_2_arm() {
    for arm in [-2_000_001, 2_000_001, i64::MIN, i64::MAX] {
        weighing_refused(Refusal::Arm, |w| w.a = arm);
        pair_refused(Refusal::Arm, |x| x.a = arm);
        indicated_refused(Refusal::Arm, |x| x.a = arm);
        change_refused(Refusal::Arm, |x| x.arm = arm);
        sheet_refused(Refusal::Arm, |s| s.fwd = arm);
        sheet_refused(Refusal::Arm, |s| s.aft = arm);
        sheet_refused(Refusal::Arm, |s| s.front.arm = arm);
        sheet_refused(Refusal::Arm, |s| s.rear.arm = arm);
        sheet_refused(Refusal::Arm, |s| s.water.arm = arm);
        seat_refused(Refusal::Arm, |s| s.lower = arm);
        seat_refused(Refusal::Arm, |s| s.higher = arm);
        seat_refused(Refusal::Arm, |s| (s.lower, s.higher) = (arm, arm));
    }
    for b in [0, 2_000_001, u64::MAX] {
        weighing_refused(Refusal::Arm, |w| w.b = b);
        pair_refused(Refusal::Arm, |x| x.b = b);
        indicated_refused(Refusal::Arm, |x| x.b = b);
    }
    // Reversed ends.
    seat_refused(Refusal::Arm, |s| s.lower = s.higher + 1);
    seat_refused(Refusal::Arm, |s| s.higher = s.lower - 1);
}

#[test]
fn number_3_non_lifting() {
    for n in [288_001, u64::MAX] {
        weighing_refused(Refusal::NonLifting, |w| w.n = n);
        // Over the first total, and over the second one, which is then smaller.
        pair_refused(Refusal::NonLifting, |x| x.n = n);
        pair_refused(Refusal::NonLifting, |x| (x.p, x.p2, x.n) = (x.p2, x.p, n));
        indicated_refused(Refusal::NonLifting, |x| x.n = n);
    }
    // One gram more taken out than the glider has of the kind.
    for (c, flag) in [(-140_001, Change::NON_LIFTING), (-148_001, Change::LIFTING)] {
        change_refused(Refusal::NonLifting, |x| (x.c, x.flag) = (c, flag));
    }
}

#[test]
fn number_4_sheet() {
    sheet_refused(Refusal::Sheet, |s| s.fwd = s.aft);
    sheet_refused(Refusal::Sheet, |s| s.dry = 0);
    sheet_refused(Refusal::Sheet, |s| s.wet = s.dry - 1);
    sheet_refused(Refusal::Sheet, |s| s.front_least = s.front.most + 1);
    for weight in [2_000_001, u64::MAX] {
        sheet_refused(Refusal::Sheet, |s| s.wet = weight);
        sheet_refused(Refusal::Sheet, |s| s.nlp = weight);
        sheet_refused(Refusal::Sheet, |s| s.water.most = weight);
    }
    for load in [500_001, u64::MAX] {
        sheet_refused(Refusal::Sheet, |s| s.front.most = load);
        sheet_refused(Refusal::Sheet, |s| s.rear.most = load);
    }
}

#[test]
fn number_5_rows() {
    for step in [0, 500_001, u64::MAX] {
        sheet_refused(Refusal::Rows, |s| s.front.step = step);
        sheet_refused(Refusal::Rows, |s| s.rear.step = step);
    }
    for step in [0, 2_000_001, u64::MAX] {
        sheet_refused(Refusal::Rows, |s| s.water.step = step);
    }
    // 257 rows.
    sheet_refused(Refusal::Rows, |s| (s.water.most, s.water.step) = (256, 1));
}

#[test]
fn number_6_change() {
    for c in [0, 2_000_001, -2_000_001, i64::MIN, i64::MAX] {
        change_refused(Refusal::Change, |x| x.c = c);
    }
    // A total of 0, and of one gram over the most.
    for c in [-288_000, 1_712_001] {
        change_refused(Refusal::Change, |x| x.c = c);
    }
    for flag in [2, u64::MAX] {
        change_refused(Refusal::Change, |x| x.flag = flag);
    }
}

#[test]
fn number_7_unweighed() {
    let record = Record::new();
    refused(&record, Refusal::Unweighed, |buffer| {
        change(buffer, &H_CHANGE)
    });
    refused(&record, Refusal::Unweighed, |buffer| centre(buffer));
    refused(&record, Refusal::Unweighed, |buffer| {
        equipment(buffer, &mut [], &mut [], &mut [])
    });
    let mut out = [FREE; 108];
    refused(&record, Refusal::Unweighed, |buffer| {
        placard(buffer, &mut out)
    });
    assert_eq!(out, [FREE; 108]);
}

#[test]
fn number_8_no_sheet() {
    let mut record = Record::new();
    assert_eq!(record.weigh(&G_WEIGHING), Ok(()));
    let mut out = [FREE; 108];
    refused(&record, Refusal::NoSheet, |buffer| {
        placard(buffer, &mut out)
    });
    assert_eq!(out, [FREE; 108]);
    for record in [Record::new(), record] {
        refused(&record, Refusal::NoSheet, |buffer| seat(buffer, &G_SEAT));
    }
}

#[test]
fn number_9_full() {
    let record = full();
    refused(&record, Refusal::Full, |buffer| weigh(buffer, &G_WEIGHING));
    refused(&record, Refusal::Full, |buffer| {
        weigh_paired(buffer, &G_PAIRED)
    });
    refused(&record, Refusal::Full, |buffer| {
        weigh_indicated(buffer, &G_INDICATED)
    });
    refused(&record, Refusal::Full, |buffer| sheet(buffer, &G_SHEET));
    refused(&record, Refusal::Full, |buffer| change(buffer, &H_CHANGE));
    refused(&record, Refusal::Full, |buffer| seat(buffer, &G_SEAT));
}

#[test]
fn number_10_bare() {
    refused(&Record::new(), Refusal::Bare, undo);
}

#[test]
fn number_11_short() {
    let record = case_g();
    let file = record.as_bytes();
    // The buffer ends with the file: no room for an entry.
    for call in [
        |buffer: &mut [u8]| weigh(buffer, &G_WEIGHING),
        |buffer: &mut [u8]| weigh_paired(buffer, &G_PAIRED),
        |buffer: &mut [u8]| weigh_indicated(buffer, &G_INDICATED),
        |buffer: &mut [u8]| sheet(buffer, &G_SHEET),
        |buffer: &mut [u8]| change(buffer, &H_CHANGE),
        |buffer: &mut [u8]| seat(buffer, &G_SEAT),
    ] {
        let mut buffer = file.to_vec();
        assert_eq!(call(&mut buffer), Err(Refusal::Short));
        assert_eq!(buffer, file);
    }
    let mut shorter = vec![FREE; file.len() - 1];
    assert_eq!(read(&mut shorter, file), Err(Refusal::Short));
    assert_eq!(shorter, vec![FREE; file.len() - 1]);

    let mut out = [FREE; 107];
    refused(&record, Refusal::Short, |buffer| placard(buffer, &mut out));
    assert_eq!(out, [FREE; 107]);

    let mut fitted = case_g();
    assert_eq!(fitted.change(&H_CHANGE), Ok(()));
    let (mut arms, mut weights) = ([7; 2], [8; 1]);
    refused(&fitted, Refusal::Short, |buffer| {
        equipment(buffer, &mut arms, &mut weights, &mut [])
    });
    assert_eq!((arms, weights), ([7; 2], [8; 1]));

    let mut five = [FREE; 5];
    assert_eq!(fresh(&mut five), Err(Refusal::Short));
    assert_eq!(five, [FREE; 5]);
}

#[test]
fn number_12_file() {
    let mut twice = Record::new();
    assert_eq!(twice.weigh_paired(&G_PAIRED), Ok(()));
    let mut adjusted = case_g();
    assert_eq!(adjusted.seat(&G_SEAT), Ok(()));
    for bytes in [
        &[][..],
        &[0; 3],
        &[FREE; 200],
        &[0, 0, 0, 2, 0, 0],
        &[0, 0, 0, 2, 3, 0],
        &[0, 0, 0, 2, 1, 1],
        &[0, 0, 0, 2, 2, 1],
        &of_version_1(twice.as_bytes()),
        &of_version_1(adjusted.as_bytes()),
        // A seat and no sheet before it.
        &[0, 0, 0, 11, 2, 1, 5, 0, 0, 0, 0, 0, 0, 0, 0],
    ] {
        let mut out = [FREE; 108];
        assert_eq!(placard(bytes, &mut out), Err(Refusal::File));
        assert_eq!(out, [FREE; 108]);
        assert_eq!(centre(bytes), Err(Refusal::File));
        assert_eq!(
            equipment(bytes, &mut [], &mut [], &mut []),
            Err(Refusal::File)
        );
        assert_eq!(check(bytes), Err(Refusal::File));
        assert_eq!(nodhulika::lent::file(bytes), Err(Refusal::File));

        for call in [
            |buffer: &mut [u8]| weigh(buffer, &G_WEIGHING),
            |buffer: &mut [u8]| weigh_paired(buffer, &G_PAIRED),
            |buffer: &mut [u8]| weigh_indicated(buffer, &G_INDICATED),
            |buffer: &mut [u8]| sheet(buffer, &G_SHEET),
            |buffer: &mut [u8]| change(buffer, &H_CHANGE),
            |buffer: &mut [u8]| seat(buffer, &G_SEAT),
            |buffer: &mut [u8]| undo(buffer),
        ] {
            let mut buffer = bytes.to_vec();
            assert_eq!(call(&mut buffer), Err(Refusal::File));
            assert_eq!(buffer, bytes);
        }
        refused(&case_g(), Refusal::File, |buffer| read(buffer, bytes));
    }
}

/// Each of the four messages by itself.
fn each_message_refused(refusal: Refusal, edit: impl Fn(&mut Message)) {
    indicated_refused(refusal, |x| edit(&mut x.p));
    indicated_refused(refusal, |x| edit(&mut x.q));
    indicated_refused(refusal, |x| edit(&mut x.p2));
    indicated_refused(refusal, |x| edit(&mut x.q2));
}

#[test]
fn number_13_unsteady() {
    for bytes in [
        &[][..],
        &[1],
        &[1, 0x3f, 0xe0, 0, 0, 0, 0, 0],
        &[1, 0x3f, 0xe0, 0, 0, 0, 0, 0, 0, 0],
        &[0, 0x3f, 0xe0, 0, 0, 0, 0, 0, 0],
        &[2, 0x3f, 0xe0, 0, 0, 0, 0, 0, 0],
        &[3, 0x3f, 0xe0, 0, 0, 0, 0, 0, 0],
        &[4, 0x3f, 0xe0, 0, 0, 0, 0, 0, 0],
        &[0xff; 9],
    ] {
        indicated_refused(Refusal::Unsteady, |x| x.p = Message { bytes, ..x.p });
        indicated_refused(Refusal::Unsteady, |x| x.q = Message { bytes, ..x.q });
        indicated_refused(Refusal::Unsteady, |x| x.p2 = Message { bytes, ..x.p2 });
        indicated_refused(Refusal::Unsteady, |x| x.q2 = Message { bytes, ..x.q2 });
    }
}

#[test]
fn number_14_load() {
    for float in [
        f64::NAN,
        f64::INFINITY,
        f64::NEG_INFINITY,
        -1.0,
        -f64::MIN_POSITIVE,
    ] {
        each_message_refused(Refusal::Load, |message| message.cell.rated = float);
        each_message_refused(Refusal::Load, |message| message.cell.zero = float);
        let bytes = &stable(float);
        for place in 0..4 {
            let mut weighing = G_INDICATED;
            let Indicated { p, q, p2, q2, .. } = &mut weighing;
            [p, q, p2, q2][place].bytes = bytes;
            refused(&case_g(), Refusal::Load, |buffer| {
                weigh_indicated(buffer, &weighing)
            });
        }
    }
    // Above the rating, and with a zero above 2000 kg, and above the reading.
    each_message_refused(Refusal::Load, |message| message.cell.rated = 0.25);
    each_message_refused(Refusal::Load, |message| message.cell.zero = 2000.5);
    each_message_refused(Refusal::Load, |message| message.cell.zero = 400.0);
}

/// Where several conditions hold, the first in the call's order counts.
#[test]
fn the_first_in_order_is_given() {
    weighing_refused(Refusal::Reading, |w| (w.m, w.b, w.n) = (5, 0, u64::MAX));
    weighing_refused(Refusal::Arm, |w| (w.b, w.n) = (0, u64::MAX));
    // By number, and not reading by reading.
    pair_refused(Refusal::Reading, |x| (x.p2, x.b, x.n) = (0, 0, u64::MAX));
    pair_refused(Refusal::Reading, |x| (x.p, x.p2) = (139_999, 0));
    pair_refused(Refusal::Reading, |x| (x.p, x.p2) = (0, 139_999));
    pair_refused(Refusal::Arm, |x| (x.p, x.b) = (139_999, 0));
    pair_refused(Refusal::Arm, |x| (x.p2, x.b) = (139_999, 0));
    pair_refused(Refusal::NonLifting, |x| x.p = 139_999);
    pair_refused(Refusal::NonLifting, |x| x.p2 = 139_999);
    sheet_refused(Refusal::Arm, |s| {
        (s.aft, s.dry, s.rear.step) = (i64::MAX, 0, 0)
    });
    sheet_refused(Refusal::Sheet, |s| (s.dry, s.rear.step) = (0, 0));
    change_refused(Refusal::Arm, |x| (x.arm, x.flag) = (i64::MIN, 2));
    change_refused(Refusal::Change, |x| x.c = -288_000);

    let wrong = Change {
        c: 0,
        arm: i64::MAX,
        flag: 2,
    };
    refused(&full(), Refusal::Full, |buffer| change(buffer, &wrong));
    refused(&Record::new(), Refusal::Unweighed, |buffer| {
        change(buffer, &wrong)
    });
    // A buffer that is also too short for the entry.
    let mut tight = case_g().as_bytes().to_vec();
    assert_eq!(change(&mut tight, &wrong), Err(Refusal::Arm));
    assert_eq!(change(&mut tight[1..], &wrong), Err(Refusal::File));
    assert_eq!(tight, case_g().as_bytes());
}

/// 13 of any of the four before 14 of any, and both before a full record.
#[test]
fn the_first_in_order_is_given_of_an_indicator() {
    let moving = [2, 0x3f, 0xe0, 0, 0, 0, 0, 0, 0];
    let mut weighing = Indicated {
        m: 5,
        b: 0,
        n: u64::MAX,
        q2: Message::new(&moving, G_TAIL),
        ..G_INDICATED
    };
    weighing.p.cell.rated = f64::NAN;
    let tight = case_g().as_bytes().to_vec();
    for refusal in [Refusal::Unsteady, Refusal::Load] {
        for record in [Record::new(), case_g(), full()] {
            refused(&record, refusal, |buffer| {
                weigh_indicated(buffer, &weighing)
            });
        }
        let mut buffer = tight.clone();
        assert_eq!(weigh_indicated(&mut buffer, &weighing), Err(refusal));
        assert_eq!(
            weigh_indicated(&mut buffer[1..], &weighing),
            Err(Refusal::File)
        );
        assert_eq!(buffer, tight);
        weighing.q2 = G_INDICATED.q2;
    }
    weighing.p = G_INDICATED.p;
    refused(&full(), Refusal::Full, |buffer| {
        weigh_indicated(buffer, &weighing)
    });
    indicated_refused(Refusal::Reading, |x| (x.m, x.b, x.n) = (5, 0, u64::MAX));
    indicated_refused(Refusal::Arm, |x| (x.b, x.n) = (0, u64::MAX));
}

#[test]
fn the_first_in_order_is_given_of_a_seat() {
    let reversed = Seat {
        lower: i64::MAX,
        higher: i64::MIN,
    };
    let mut unfitted = Record::new();
    for _ in 0..64 {
        assert_eq!(unfitted.weigh(&G_WEIGHING), Ok(()));
    }
    refused(&unfitted, Refusal::Full, |buffer| seat(buffer, &reversed));
    refused(&Record::new(), Refusal::NoSheet, |buffer| {
        seat(buffer, &reversed)
    });
    // A buffer that is also too short for the entry.
    let mut tight = case_g().as_bytes().to_vec();
    assert_eq!(seat(&mut tight, &reversed), Err(Refusal::Arm));
    assert_eq!(seat(&mut tight[1..], &reversed), Err(Refusal::File));
    assert_eq!(tight, case_g().as_bytes());
}

#[test]
fn an_owned_record_is_left_by_a_refusal() {
    let mut record = case_g();
    let before = record.clone();
    assert_eq!(
        record.weigh(&Weighing { m: 5, ..G_WEIGHING }),
        Err(Refusal::Reading)
    );
    let light = Paired { p2: 0, ..G_PAIRED };
    assert_eq!(record.weigh_paired(&light), Err(Refusal::Reading));
    let mut heavy = G_INDICATED;
    heavy.p2.cell.rated = 289.0;
    assert_eq!(record.weigh_indicated(&heavy), Err(Refusal::Load));
    assert_eq!(
        record.install(&Sheet { dry: 0, ..G_SHEET }),
        Err(Refusal::Sheet)
    );
    assert_eq!(
        record.change(&Change { c: 0, ..H_CHANGE }),
        Err(Refusal::Change)
    );
    let lower = G_SEAT.higher + 1;
    assert_eq!(record.seat(&Seat { lower, ..G_SEAT }), Err(Refusal::Arm));
    assert_eq!(record.read(&[]), Err(Refusal::File));
    assert_eq!(record, before);
}

#[test]
fn numbers_and_words() {
    for (refusal, number) in Refusal::ALL.into_iter().zip(1..) {
        assert_eq!(refusal.number(), number);
        assert_eq!(u64::from(refusal), number);
        assert_eq!(Refusal::try_from(number), Ok(refusal));
        assert!(!refusal.to_string().is_empty());
    }
    for number in [0, 15, u64::MAX] {
        assert_eq!(Refusal::try_from(number), Err(UnknownNumber(number)));
    }
}
