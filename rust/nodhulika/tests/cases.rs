//! The paper's worked cases, A to K, with total and moment in half grams, a
//! glider weighed twice, rows for nobody, and adjustable seats.

mod common;

use common::{case_g, record_of, station, H_CHANGE};
use common::{G_PAIRED, G_PLACARD, G_SEAT, G_SEAT_PLACARD, G_SHEET, G_WEIGHING};
use nodhulika::{CentreOfGravity, Counts, Paired, Record, Seat, Sheet, Station, Weighing, LINE};

const A: Weighing = weighing(Weighing::WHEEL_AND_TAIL, [310_000, 29_900], 9_500, 550_000);

/// A weighing as in cases A to F, where n is 0.
const fn weighing(m: u64, [p, q]: [u64; 2], a: i64, b: u64) -> Weighing {
    let n = 0;
    Weighing { m, p, q, a, b, n }
}

fn centre(total: u64, moment: i64, centre: i64) -> CentreOfGravity {
    CentreOfGravity {
        total,
        moment,
        centre,
    }
}

fn counts(rows: usize, blank: usize) -> Counts {
    let bytes = rows * LINE;
    Counts { bytes, rows, blank }
}

/// What a paired weighing comes to.
fn centre_of_pair(paired: Paired) -> CentreOfGravity {
    let mut record = Record::new();
    assert_eq!(record.weigh_paired(&paired), Ok(()));
    record.centre_of_gravity().unwrap()
}

/// The pair of a weighing with itself.
fn alike(w: Weighing) -> Paired {
    Paired {
        m: w.m,
        p: w.p,
        q: w.q,
        p2: w.p,
        q2: w.q,
        a: w.a,
        b: w.b,
        n: w.n,
    }
}

/// What a weighing comes to, and the pair of it with itself.
fn centre_of(weighing: Weighing) -> CentreOfGravity {
    let mut record = Record::new();
    assert_eq!(record.weigh(&weighing), Ok(()));
    let centre = record.centre_of_gravity().unwrap();
    assert_eq!(centre_of_pair(alike(weighing)), centre);
    centre
}

#[test]
fn a_and_b_wheel_and_tail() {
    let found = centre(620_000, 38_780_000_000, 62_548);
    assert_eq!(centre_of(A), found);
}

#[test]
fn c_nose_and_wheel_as_a() {
    let c = Weighing {
        m: Weighing::NOSE_AND_WHEEL,
        q: 280_100,
        a: -9_500,
        ..A
    };
    assert_eq!(centre_of(c), centre_of(A));
}

#[test]
fn d_two_slings() {
    let d = weighing(Weighing::TWO_SLINGS, [355, 90], 50, 13_350);
    let found = centre(890, 2_358_500, 2_650);
    assert_eq!(centre_of(d), found);
}

#[test]
fn e_jury_ballast() {
    let e = weighing(Weighing::JURY_BALLAST, [460, 15], 3_000, 10_300);
    let found = centre(890, 2_361_000, 2_653);
    assert_eq!(centre_of(e), found);
}

#[test]
fn f_halves_go_towards_the_tail() {
    let f = weighing(Weighing::WHEEL_AND_TAIL, [2, 1], 0, 50_001);
    assert_eq!(centre_of(f).centre, 25_001);
    let ahead = centre(4, -100_002, -25_000);
    assert_eq!(centre_of(Weighing { a: -50_001, ..f }), ahead);
}

#[test]
fn g_prints_its_plate() {
    let record = case_g();
    assert_eq!(record.placard_text().unwrap(), G_PLACARD);

    let mut out = [0; 3 * LINE];
    let counts = counts(3, 1);
    assert_eq!(record.placard(&mut out), Ok(counts));
    assert_eq!(out, G_PLACARD.as_bytes());
}

#[test]
fn h_a_part_ahead_moves_the_least_load() {
    let mut record = case_g();
    assert_eq!(record.change(&H_CHANGE), Ok(()));
    let text = record.placard_text().unwrap();
    assert_eq!(
        text.lines().next(),
        Some("0000.000 0000.000 0064.000 0087.000")
    );

    assert_eq!(record.undo(), Ok(()));
    assert_eq!(record.placard_text().unwrap(), G_PLACARD);
}

#[test]
fn i_a_seat_on_the_safe_aft_limit_leaves_blank_rows() {
    let front = Station {
        arm: 41_625,
        ..G_SHEET.front
    };
    let record = record_of(&G_WEIGHING, &Sheet { front, ..G_SHEET });
    let plate = "\
0000.000 0000.000 -------- --------
0000.000 0050.000 -------- --------
0000.000 0100.000 -------- --------
";
    assert_eq!(record.placard_text().unwrap(), plate);
    let counts = counts(3, 3);
    assert_eq!(record.placard(&mut [0; 3 * LINE]), Ok(counts));
}

#[test]
fn j_two_seats() {
    let sheet = Sheet {
        fwd: 11_200,
        aft: 30_000,
        dry: 500_000,
        wet: 500_000,
        nlp: 0,
        front: station(-123_200, 110_000, 1_000),
        front_least: 0,
        rear: station(-11_200, 110_000, 55_000),
        water: station(0, 0, 1),
    };
    let plate = "\
0000.000 0000.000 0069.000 0110.000
0055.000 0000.000 0054.000 0109.000
0110.000 0000.000 0040.000 0080.000
";
    assert_eq!(record_of(&A, &sheet).placard_text().unwrap(), plate);
}

#[test]
fn k_the_file_of_a_fresh_record() {
    assert_eq!(Record::new().as_bytes(), [0, 0, 0, 2, 2, 0]);
    assert_eq!(Record::default(), Record::new());
}

#[test]
fn both_readings_count() {
    let twice = centre(576_001, 576_001 * 63_334, 63_334);
    assert_eq!(centre_of_pair(G_PAIRED), twice);
    // Each argument by itself: p, q, p2, q2, then a and b.
    let pair = Paired {
        m: Weighing::TWO_SLINGS,
        p: 30,
        q: 4,
        p2: 31,
        q2: 6,
        a: 100,
        b: 1_000,
        n: 5,
    };
    assert_eq!(centre_of_pair(pair), centre(71, 2_900, 41));
    let a = -100;
    assert_eq!(
        centre_of_pair(Paired { a, ..pair }),
        centre(71, 17_100, 241)
    );
}

/// Totals of 288,000 and 288,001 g under 380 kg leave 91 kg, and not 92.
#[test]
fn half_a_gram_over_is_over() {
    let mut record = case_g();
    assert_eq!(record.weigh_paired(&G_PAIRED), Ok(()));
    let plate = "\
0000.000 0000.000 0071.000 0091.000
0000.000 0050.000 0071.000 0091.000
0000.000 0100.000 -------- --------
";
    assert_eq!(record.placard_text().unwrap(), plate);

    assert_eq!(record.weigh_paired(&alike(G_WEIGHING)), Ok(()));
    assert_eq!(record.placard_text().unwrap(), G_PLACARD);
}

/// The glider of A has 50 kg to spare for both seats, and balances anywhere. Rows
/// begin at the first step above 0; where the rear load takes all that is spare,
/// 0 alone would keep the limits, and the row is blank.
#[test]
fn nobody_in_the_front_seat() {
    let sheet = Sheet {
        fwd: -2_000_000,
        aft: 2_000_000,
        dry: 360_000,
        wet: 360_000,
        nlp: 0,
        front: station(0, 110_000, 1_000),
        front_least: 0,
        rear: station(0, 50_000, 25_000),
        water: station(0, 0, 1),
    };
    let plate = "\
0000.000 0000.000 0001.000 0050.000
0025.000 0000.000 0001.000 0025.000
0050.000 0000.000 -------- --------
";
    let record = record_of(&A, &sheet);
    assert_eq!(record.placard_text().unwrap(), plate);
    assert_eq!(record.placard(&mut [0; 3 * LINE]), Ok(counts(3, 1)));
}

/// Each end by the limit that it is the worse for.
#[test]
fn every_arm_of_a_seat_counts() {
    for (lower, higher, range) in [
        (-47_500, -47_500, "0071.000 0092.000"),
        (-55_000, -40_000, "0077.000 0092.000"),
        (-100_000, -47_500, "0071.000 0088.000"),
        (-100_000, -30_000, "0088.000 0088.000"),
        (-100_000, -29_000, "-------- --------"),
    ] {
        let mut record = case_g();
        assert_eq!(record.seat(&Seat { lower, higher }), Ok(()));
        let line = format!("0000.000 0000.000 {range}");
        let text = record.placard_text().unwrap();
        assert_eq!(text.lines().next(), Some(&line[..]));
    }
}

/// Weighings and changes leave a seat in force. Another seat or a sheet, even an
/// equal one, ends it, and taken back brings it back.
#[test]
fn until_the_next_sheet_or_seat() {
    let mut record = Record::new();
    assert_eq!(record.install(&G_SHEET), Ok(()));
    assert_eq!(record.seat(&G_SEAT), Ok(()));
    assert_eq!(record.weigh_paired(&G_PAIRED), Ok(()));
    assert_eq!(record.change(&H_CHANGE), Ok(()));
    assert_eq!(record.weigh(&G_WEIGHING), Ok(()));
    assert_eq!(record.placard_text().unwrap(), G_SEAT_PLACARD);

    assert_eq!(record.install(&G_SHEET), Ok(()));
    assert_eq!(record.placard_text().unwrap(), G_PLACARD);
    assert_eq!(record.undo(), Ok(()));
    assert_eq!(record.placard_text().unwrap(), G_SEAT_PLACARD);

    let arm = G_SHEET.front.arm;
    let fixed = Seat {
        lower: arm,
        higher: arm,
    };
    assert_eq!(record.seat(&fixed), Ok(()));
    assert_eq!(record.placard_text().unwrap(), G_PLACARD);
    assert_eq!(record.undo(), Ok(()));
    assert_eq!(record.placard_text().unwrap(), G_SEAT_PLACARD);
}
