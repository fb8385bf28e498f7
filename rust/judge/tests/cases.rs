//! The paper's plates A to K, in half grams, the figures of document 000 that it
//! quotes, what it says to be run, and what cards 1, 2, 4 and 5 of paper 02 add.

mod common;

use common::Sides;
use judge::paper::{Call, Change, Journal, Paired, Seat, Sheet, Weighing};
use judge::run::{Calls, Direct, Fast};

fn weigh(m: u64, p: u64, q: u64, a: i64, b: u64, n: u64) -> Call {
    Call::Weigh(Weighing { m, p, q, a, b, n })
}

/// A paired weighing: the readings and, in common, a, b and n.
fn pair(m: u64, first: [u64; 2], second: [u64; 2], (a, b, n): (i64, u64, u64)) -> Call {
    let ([p, q], [p2, q2]) = (first, second);
    Call::Pair(Paired {
        m,
        p,
        q,
        p2,
        q2,
        a,
        b,
        n,
    })
}

/// A weighing as the pair of itself with itself.
fn as_pair(call: &Call) -> Call {
    match *call {
        Call::Weigh(Weighing { m, p, q, a, b, n }) => pair(m, [p, q], [p, q], (a, b, n)),
        _ => panic!("{call:?} is no weighing"),
    }
}

fn change(c: i64, arm: i64, flag: u64) -> Call {
    Call::Change(Change { c, arm, flag })
}

fn seat(lower: i64, higher: i64) -> Call {
    Call::Seat(Seat { lower, higher })
}

/// The weighing of cases A, B and J.
fn blanik() -> Call {
    weigh(1, 310_000, 29_900, 9_500, 550_000, 0)
}

/// The weighing of case G.
fn astir() -> Call {
    weigh(1, 288_000, 0, 63_334, 500_000, 140_000)
}

/// The sheet of case G.
const ASTIR: Sheet = Sheet {
    fwd: 25_000,
    aft: 42_500,
    dry: 380_000,
    wet: 450_000,
    nlp: 240_000,
    front_arm: -47_500,
    front_least: 55_000,
    front_most: 110_000,
    front_step: 1_000,
    rear_arm: 0,
    rear_most: 0,
    rear_step: 1,
    water_arm: 30_000,
    capacity: 100_000,
    water_step: 50_000,
};

/// The sheet of case J.
const BLANIK: Sheet = Sheet {
    fwd: 11_200,
    aft: 30_000,
    dry: 500_000,
    wet: 500_000,
    nlp: 0,
    front_arm: -123_200,
    front_least: 0,
    front_most: 110_000,
    front_step: 1_000,
    rear_arm: -11_200,
    rear_most: 110_000,
    rear_step: 55_000,
    water_arm: 0,
    capacity: 0,
    water_step: 1,
};

/// A sheet of one row that limits nothing but the front load.
const LAX: Sheet = Sheet {
    fwd: -2_000_000,
    aft: 2_000_000,
    dry: 2_000_000,
    wet: 2_000_000,
    nlp: 0,
    front_arm: 0,
    front_least: 0,
    front_most: 500_000,
    front_step: 1_000,
    rear_arm: 0,
    rear_most: 0,
    rear_step: 1,
    water_arm: 0,
    capacity: 0,
    water_step: 1,
};

/// Case G with other front steps and some ballast bars at the nose.
fn astir_with_bars(bars: i64, front_step: u64) -> String {
    let mut sides = Sides::new();
    sides.accept(&astir());
    sides.accept(&Call::Install(Sheet {
        front_step,
        front_least: 0,
        ..ASTIR
    }));
    if bars != 0 {
        sides.accept(&change(bars, -100_000, 1));
    }
    sides.placard_text()
}

/// Smallest and largest front load of a placard's line.
fn range(placard: &str, line: usize) -> (&str, &str) {
    let line = placard.lines().nth(line).unwrap();
    (&line[18..26], &line[27..35])
}

/// Total, moment and centre of one weighing, plain or paired.
fn centre_of(call: &Call) -> (u64, i64, i64) {
    let mut sides = Sides::new();
    sides.accept(call);
    let centre = sides.centre().unwrap();
    (centre.total, centre.moment, centre.centre)
}

/// The same, which the pair of it with itself must have too.
fn centre(call: Call) -> (u64, i64, i64) {
    let centre = centre_of(&call);
    assert_eq!(centre_of(&as_pair(&call)), centre);
    centre
}

#[test]
fn a_to_f_total_moment_and_centre() {
    let a = (620_000, 38_780_000_000, 62_548);
    assert_eq!(centre(blanik()), a);
    assert_eq!(centre(weigh(2, 310_000, 280_100, -9_500, 550_000, 0)), a);
    let (total, moment, _) = centre(weigh(3, 355, 90, 50, 13_350, 0));
    assert_eq!((total, moment), (890, 2_358_500));
    let (total, moment, _) = centre(weigh(4, 460, 15, 3_000, 10_300, 0));
    assert_eq!((total, moment), (890, 2_361_000));
    assert_eq!(centre(weigh(1, 2, 1, 0, 50_001, 0)).2, 25_001);
    assert_eq!(centre(weigh(1, 2, 1, -50_001, 50_001, 0)).2, -25_000);
}

#[test]
fn both_readings_stay() {
    let odd = pair(1, [288_000, 0], [288_001, 0], (63_334, 500_000, 140_000));
    assert_eq!(centre_of(&odd), (576_001, 576_001 * 63_334, 63_334));
    // Half a gram of moment either side of the datum, over one gram.
    assert_eq!(centre_of(&pair(1, [1, 0], [1, 1], (0, 1, 0))), (2, 1, 1));
    assert_eq!(centre_of(&pair(1, [1, 0], [1, 1], (-1, 1, 0))), (2, -1, 0));
    // Each method by its own readings.
    let common = (100, 1_000, 5);
    assert_eq!(centre_of(&pair(1, [30, 4], [31, 5], common)).1, 15_100);
    assert_eq!(centre_of(&pair(2, [30, 4], [31, 5], common)).1, 45_900);
    assert_eq!(centre_of(&pair(3, [30, 4], [31, 5], common)).1, 2_000);
    assert_eq!(centre_of(&pair(4, [30, 4], [31, 5], common)).1, -3_800);
}

/// Totals of 288,000 and 288,001 g under 380 kg leave 91 kg, and not 92.
#[test]
fn half_a_gram_over_is_over() {
    let astir_again = |first, second| {
        let mut sides = Sides::new();
        sides.accept(&pair(
            1,
            [first, 0],
            [second, 0],
            (63_334, 500_000, 140_000),
        ));
        sides.accept(&Call::Install(ASTIR));
        sides.placard_text()
    };
    assert_eq!(
        range(&astir_again(288_000, 288_001), 0),
        ("0071.000", "0091.000")
    );
    for (first, second) in [(288_000, 288_000), (287_999, 288_001)] {
        assert_eq!(
            range(&astir_again(first, second), 0),
            ("0071.000", "0092.000")
        );
    }
}

/// 2 half grams are a gram, and 1 is none.
#[test]
fn what_a_change_leaves_is_in_half_grams() {
    for (first, second, c, number) in [
        (3, 4, -3, 6),
        (3, 4, -2, 0),
        (3, 3, -2, 0),
        (3, 3, -3, 6),
        (1_999_999, 2_000_000, 1, 6),
        (1_999_999, 1_999_999, 1, 0),
        (1_999_998, 1_999_999, 1, 0),
    ] {
        let mut sides = Sides::new();
        sides.accept(&pair(1, [first, 0], [second, 0], (0, 1, 0)));
        assert_eq!(sides.call(&change(c, 0, 0)), number, "{first} {second} {c}");
    }
}

#[test]
fn g_prints_its_three_rows() {
    let mut sides = Sides::new();
    sides.accept(&astir());
    sides.accept(&Call::Install(ASTIR));
    assert_eq!(
        sides.placard_text(),
        "0000.000 0000.000 0071.000 0092.000\n\
         0000.000 0050.000 0071.000 0092.000\n\
         0000.000 0100.000 -------- --------\n"
    );
}

#[test]
fn h_begins_at_64_kg() {
    let placard = astir_with_bars(4_500, 1_000);
    assert_eq!(range(&placard, 0), ("0064.000", "0087.000"));
    // The exact minimum is between 63.000 and 63.001.
    let placard = astir_with_bars(4_500, 1);
    assert_eq!(range(&placard, 0).0, "0063.001");
}

#[test]
fn i_is_blank() {
    let mut sides = Sides::new();
    sides.accept(&astir());
    sides.accept(&Call::Install(Sheet {
        front_arm: 41_625,
        ..ASTIR
    }));
    assert_eq!(sides.placard(9_216).unwrap().blank, 3);
}

#[test]
fn j_prints_three_rear_loads() {
    let mut sides = Sides::new();
    sides.accept(&blanik());
    sides.accept(&Call::Install(BLANIK));
    assert_eq!(
        sides.placard_text(),
        "0000.000 0000.000 0069.000 0110.000\n\
         0055.000 0000.000 0054.000 0109.000\n\
         0110.000 0000.000 0040.000 0080.000\n"
    );
}

#[test]
fn k_is_six_bytes() {
    assert_eq!(Journal::new().file(), [0, 0, 0, 2, 2, 0]);
    for fresh in [Direct::fresh, Fast::fresh] {
        let mut buffer = [9; 8];
        assert_eq!(fresh(&mut buffer), 0);
        assert_eq!(buffer, [0, 0, 0, 2, 2, 0, 9, 9]);
    }
}

#[test]
fn document_000_with_ballast_bars() {
    for (bars, least) in [
        (1_500, "0068.000"),
        (3_000, "0066.000"),
        (6_000, "0061.000"),
    ] {
        assert_eq!(range(&astir_with_bars(bars, 1_000), 0).0, least);
    }
    // 380 kg leaves 89 and 86.
    for (bars, most) in [(3_000, "0089.000"), (6_000, "0086.000")] {
        assert_eq!(range(&astir_with_bars(bars, 1_000), 0).1, most);
    }
    // The formula's 67.77 kg for one bar: 67.767 and a fifth of a gram.
    assert_eq!(range(&astir_with_bars(1_500, 1), 0).0, "0067.768");
}

/// 416.25 mm for 250..425: with a gram in the seat, at that arm, and no water
/// the centre is on the limit, or one unit of moment behind it.
#[test]
fn the_safe_aft_limit_is_five_per_cent_inside() {
    let sheet = Sheet {
        front_arm: 41_625,
        front_least: 1,
        front_most: 1,
        front_step: 1,
        capacity: 0,
        ..ASTIR
    };
    for (behind, blank) in [(0, 0), (1, 1)] {
        let mut sides = Sides::new();
        sides.accept(&weigh(1, 288_000, behind, 41_625, 1, 0));
        sides.accept(&Call::Install(sheet));
        assert_eq!(sides.placard(36).unwrap().blank, blank);
    }
}

/// The lines of a glider of 200 kg, and how many of them are blank.
fn lines_of(sheet: Sheet) -> (String, usize) {
    let mut sides = Sides::new();
    sides.accept(&weigh(1, 200_000, 0, 0, 1, 100_000));
    sides.accept(&Call::Install(sheet));
    (sides.placard_text(), sides.placard(9_216).unwrap().blank)
}

/// Where 0 is a step the row begins at the next one, and is blank where there is
/// none; where it is not, the least load stays.
#[test]
fn nobody_in_the_seat() {
    for (front_least, front_most, front_step, range) in [
        (0, 110_000, 1, "0000.001 0110.000"),
        (0, 110_000, 1_000, "0001.000 0110.000"),
        (0, 110_000, 110_000, "0110.000 0110.000"),
        (0, 110_000, 110_001, "-------- --------"),
        (0, 0, 1, "-------- --------"),
        (0, 0, 1_000, "-------- --------"),
        (1, 110_000, 1, "0000.001 0110.000"),
        (2, 110_000, 1, "0000.002 0110.000"),
        (1, 110_000, 1_000, "0001.000 0110.000"),
        (1_000, 110_000, 1_000, "0001.000 0110.000"),
    ] {
        let (lines, blank) = lines_of(Sheet {
            front_least,
            front_most,
            front_step,
            ..LAX
        });
        assert_eq!(lines, format!("0000.000 0000.000 {range}\n"));
        assert_eq!(blank, usize::from(range.starts_with('-')));
    }
}

/// 50 kg are left for both seats, or for the seat and the water: where rear load
/// or water takes them all, 0 alone would keep the limits.
#[test]
fn a_row_for_nobody_is_blank() {
    let tight = Sheet {
        dry: 250_000,
        wet: 250_000,
        ..LAX
    };
    let rear = Sheet {
        rear_most: 50_000,
        rear_step: 25_000,
        ..tight
    };
    let water = Sheet {
        capacity: 50_000,
        water_step: 25_000,
        ..tight
    };
    let ranges = [
        "0001.000 0050.000",
        "0001.000 0025.000",
        "-------- --------",
    ];
    for (sheet, loads) in [
        (
            rear,
            [
                "0000.000 0000.000",
                "0025.000 0000.000",
                "0050.000 0000.000",
            ],
        ),
        (
            water,
            [
                "0000.000 0000.000",
                "0000.000 0025.000",
                "0000.000 0050.000",
            ],
        ),
    ] {
        let line = |(loads, range)| format!("{loads} {range}\n");
        let lines: String = loads.into_iter().zip(ranges).map(line).collect();
        assert_eq!(lines_of(sheet), (lines, 1));
    }
}

/// Case G, by the first line of its placard.
fn astir_with_seat(lower: i64, higher: i64) -> String {
    let mut sides = Sides::new();
    sides.accept(&astir());
    sides.accept(&Call::Install(ASTIR));
    sides.accept(&seat(lower, higher));
    let placard = sides.placard_text();
    let (smallest, largest) = range(&placard, 0);
    format!("{smallest} {largest}")
}

/// The lower end bounds the load by the forward limit, the higher one by the safe
/// aft limit.
#[test]
fn each_limit_has_its_own_end() {
    for (lower, higher, range) in [
        (-47_500, -47_500, "0071.000 0092.000"),
        (-55_000, -40_000, "0077.000 0092.000"),
        (-100_000, -47_500, "0071.000 0088.000"),
        (-100_000, -37_500, "0080.000 0088.000"),
        (-100_000, -30_000, "0088.000 0088.000"),
        (-100_000, -29_000, "-------- --------"),
        (-65_000, -64_000, "0060.000 0092.000"),
        (-100_000, 41_625, "-------- --------"),
        (-2_000_000, 2_000_000, "-------- --------"),
    ] {
        assert_eq!(astir_with_seat(lower, higher), range, "{lower} {higher}");
    }
}

/// A seat of one arm is a sheet with that front arm.
#[test]
fn equal_ends() {
    for front_arm in [-2_000_000, -60_000, -47_500, 25_000, 41_625, 2_000_000] {
        let mut sides = Sides::new();
        sides.accept(&astir());
        sides.accept(&Call::Install(Sheet { front_arm, ..ASTIR }));
        let placard = sides.placard_text();
        sides.accept(&Call::Install(ASTIR));
        sides.accept(&seat(front_arm, front_arm));
        assert_eq!(sides.placard_text(), placard);
    }
}

/// A glider whose centre is on a limit, with a gram in the seat: an end on that limit
/// keeps it, and one a unit beyond does not, however far off the other end is.
#[test]
fn an_end_on_a_limit() {
    let sheet = Sheet {
        front_least: 1,
        front_most: 1,
        front_step: 1,
        capacity: 0,
        ..ASTIR
    };
    for (centre, lower, higher, blank) in [
        (25_000, 25_000, 25_000, 0),
        (25_000, 25_000, 41_625, 0),
        (25_000, 24_999, 41_625, 1),
        (25_000, 24_999, 24_999, 1),
        (41_625, 41_625, 41_625, 0),
        (41_625, 25_000, 41_625, 0),
        (41_625, 25_000, 41_626, 1),
        (41_625, 41_626, 41_626, 1),
    ] {
        let mut sides = Sides::new();
        sides.accept(&weigh(1, 288_000, 0, centre, 1, 0));
        sides.accept(&Call::Install(sheet));
        sides.accept(&seat(lower, higher));
        let counts = sides.placard(36).unwrap();
        assert_eq!(counts.blank, blank, "{centre} {lower} {higher}");
    }
}

/// Weighings and changes leave a seat in force. Another seat or a sheet, even an
/// equal one, ends it, and taken back brings it back.
#[test]
fn until_the_next_sheet_or_seat() {
    let mut sides = Sides::new();
    // No weighing is asked for.
    sides.accept(&Call::Install(ASTIR));
    sides.accept(&seat(-100_000, -37_500));
    for call in [astir(), change(1_000, 0, 0), as_pair(&astir())] {
        sides.accept(&call);
    }
    let first = |sides: &Sides| {
        let placard = sides.placard_text();
        let (smallest, largest) = range(&placard, 0);
        format!("{smallest} {largest}")
    };
    let adjusted = "0080.000 0088.000";
    assert_eq!(first(&sides), adjusted);
    for (call, other) in [
        (Call::Install(ASTIR), "0071.000 0092.000"),
        (seat(-55_000, -40_000), "0077.000 0092.000"),
    ] {
        sides.accept(&call);
        assert_eq!(first(&sides), other);
        sides.accept(&Call::Undo);
        assert_eq!(first(&sides), adjusted);
    }
}

/// Nine bytes, the lower end first, in files of version 2 alone.
#[test]
fn files_with_a_seat() {
    let mut sides = Sides::new();
    sides.accept(&Call::Install(ASTIR));
    sides.accept(&seat(-100_000, 258));
    let (old, new) = (sides.journal.file_as(1), sides.journal.file());
    assert_eq!(new.len(), 6 + 61 + 9);
    assert_eq!(new[67..], [5, 0xff, 0xfe, 0x79, 0x60, 0, 0, 1, 2]);
    assert_eq!(sides.call(&Call::Read(old)), 12);
    assert_eq!(sides.call(&Call::Read(new.clone())), 0);
    assert_eq!(sides.journal.file(), new);
    // Each as its call would be judged.
    for entries in [
        vec![sides.journal.entries[1]],
        vec![sides.journal.entries[1], sides.journal.entries[0]],
    ] {
        let file = Journal { entries }.file();
        assert_eq!(sides.call(&Call::Read(file)), 12);
    }
    let mut reversed = new;
    reversed[68..72].fill(0x01);
    assert_eq!(sides.call(&Call::Read(reversed)), 12);
}

/// Each arm once, foremost first, by both flags, a net of nought included; sheets and
/// seats between make no difference.
#[test]
fn equipment_by_station() {
    let mut sides = Sides::new();
    sides.accept(&Call::Install(ASTIR));
    sides.accept(&astir());
    assert_eq!(sides.equipment(), Ok(vec![]));
    for (call, equipment) in [
        (change(4_500, -100_000, 1), vec![[-100_000, 4_500, 4_500]]),
        (
            change(700, 12_000, 0),
            vec![[-100_000, 4_500, 4_500], [12_000, 700, 0]],
        ),
        (
            change(-1_500, -100_000, 0),
            vec![[-100_000, 3_000, 4_500], [12_000, 700, 0]],
        ),
        (
            seat(-50_000, -45_000),
            vec![[-100_000, 3_000, 4_500], [12_000, 700, 0]],
        ),
        (
            change(-700, 12_000, 0),
            vec![[-100_000, 3_000, 4_500], [12_000, 0, 0]],
        ),
        (
            Call::Install(ASTIR),
            vec![[-100_000, 3_000, 4_500], [12_000, 0, 0]],
        ),
        (
            change(-800, -2_000, 1),
            vec![
                [-100_000, 3_000, 4_500],
                [-2_000, -800, -800],
                [12_000, 0, 0],
            ],
        ),
    ] {
        sides.accept(&call);
        assert_eq!(sides.equipment(), Ok(equipment), "{call:?}");
    }
}

/// Only the changes behind the last weighing, plain or paired; taken back, it gives way
/// to the older one and its changes. A pair leaves whole grams.
#[test]
fn equipment_behind_the_last_weighing() {
    let mut sides = Sides::new();
    sides.accept(&astir());
    sides.accept(&change(300, 7, 0));
    let before = Ok(vec![[7, 300, 0]]);
    assert_eq!(sides.equipment(), before);
    for weighing in [astir(), pair(3, [150_000, 0], [150_001, 1], (0, 1, 9))] {
        sides.accept(&weighing);
        assert_eq!(sides.equipment(), Ok(vec![]));
        sides.accept(&change(1, -7, 1));
        assert_eq!(sides.equipment(), Ok(vec![[-7, 1, 1]]));
        sides.accept(&Call::Undo);
        sides.accept(&Call::Undo);
        assert_eq!(sides.equipment(), before);
    }
}

/// As many arms as there can be, given in falling order.
#[test]
fn equipment_at_63_arms() {
    let mut sides = Sides::new();
    sides.accept(&astir());
    for i in 0..63 {
        let arm = 2_000_000 - 64_516 * i;
        sides.accept(&change(10 + i, arm, (i % 2) as u64));
    }
    let due: Vec<[i64; 3]> = (0..63)
        .rev()
        .map(|i| [2_000_000 - 64_516 * i, 10 + i, i % 2 * (10 + i)])
        .collect();
    assert_eq!(sides.equipment(), Ok(due));
    assert_eq!(sides.equipment_into([63, 62, 63]), Err(11));
    assert!(sides.equipment_into([63; 3]).is_ok());
}

/// A heavy part that goes in and out: the largest nets of a list of three changes.
#[test]
fn equipment_of_the_greatest_weights() {
    let mut sides = Sides::new();
    sides.accept(&weigh(1, 1, 0, 0, 1, 0));
    sides.accept(&change(1_999_999, -2_000_000, 1));
    sides.accept(&change(-1_999_999, 2_000_000, 1));
    let far = [
        [-2_000_000, 1_999_999, 1_999_999],
        [2_000_000, -1_999_999, -1_999_999],
    ];
    assert_eq!(sides.equipment(), Ok(far.to_vec()));
    sides.accept(&change(1_999_999, -2_000_000, 0));
    assert_eq!(sides.equipment().unwrap()[0][1..], [3_999_998, 1_999_999]);
}

#[test]
fn the_64th_and_the_65th_entry() {
    let mut sides = Sides::new();
    sides.accept(&astir());
    for i in 1..64 {
        sides.accept(&change(if i % 2 == 1 { 500 } else { -500 }, -20_000, 0));
    }
    let pair = as_pair(&astir());
    for call in [astir(), pair.clone(), Call::Install(ASTIR), change(1, 0, 0)] {
        assert_eq!(sides.call(&call), 9);
    }
    assert_eq!(sides.call(&seat(0, 0)), 9);
    sides.accept(&Call::Undo);
    sides.accept(&pair);
    assert_eq!(sides.call(&pair), 9);
    sides.accept(&Call::Undo);
    sides.accept(&Call::Install(ASTIR));
    assert_eq!(sides.call(&change(1, 0, 0)), 9);
    sides.accept(&Call::Undo);
    sides.accept(&Call::Undo);
    sides.accept(&Call::Install(ASTIR));
    sides.accept(&seat(-47_500, -47_500));
    assert_eq!(sides.call(&seat(-47_500, -47_500)), 9);
    for _ in 0..64 {
        sides.accept(&Call::Undo);
    }
    assert_eq!(sides.call(&Call::Undo), 10);
}

#[test]
fn the_longest_file() {
    let mut sides = Sides::new();
    for _ in 0..64 {
        sides.accept(&Call::Install(ASTIR));
    }
    let file = sides.journal.file();
    assert_eq!(file.len(), 3_910);
    assert_eq!(sides.call(&Call::Read(file)), 0);
}

#[test]
fn rows_256_and_257() {
    for (rear_most, capacity, number) in [
        (255, 0, 0),
        (256, 0, 5),
        (0, 255, 0),
        (0, 256, 5),
        (15, 15, 0),
        (15, 16, 5),
        (1, 127, 0),
        (2, 85, 5),
    ] {
        let sheet = Sheet {
            rear_most,
            capacity,
            rear_step: 1,
            water_step: 1,
            ..ASTIR
        };
        let mut sides = Sides::new();
        sides.accept(&astir());
        assert_eq!(sides.call(&Call::Install(sheet)), number);
        if number == 0 {
            assert_eq!(sides.placard(9_216).unwrap().rows, 256);
            assert_eq!(sides.placard(9_215), Err(11));
        }
    }
}

#[test]
fn one_byte_too_few() {
    let mut sides = Sides::new();
    sides.accept(&astir());
    sides.accept(&Call::Install(ASTIR));
    assert_eq!(sides.placard(107), Err(11));
    assert_eq!(sides.placard(108).unwrap().bytes, 108);
    let file = sides.journal.file();
    let mut out = vec![7; file.len() - 1];
    assert_eq!(sides.journal.write(&mut out), Err(11));
    assert!(out.iter().all(|byte| *byte == 7));
    for call in [Direct::call, Fast::call] {
        let mut short = vec![7; file.len() - 1];
        assert_eq!(call(&mut short, &Call::Read(file.clone())), 11);
        assert!(short.iter().all(|byte| *byte == 7));
    }
}

/// The file of version 1 of a record without pairs is read, and none other.
#[test]
fn files_of_version_1() {
    let mut sides = Sides::new();
    sides.accept(&astir());
    sides.accept(&Call::Install(ASTIR));
    let (old, new) = (sides.journal.file_as(1), sides.journal.file());
    assert_eq!((old.len(), &old[5..]), (new.len(), &new[5..]));
    for version in [0, 3, 4, 255] {
        let file = sides.journal.file_as(version);
        assert_eq!(sides.call(&Call::Read(file)), 12);
    }
    let placard = sides.placard_text();
    sides.accept(&Call::Read(old));
    assert_eq!(sides.buffer()[..new.len()], new);
    assert_eq!(sides.placard_text(), placard);
    sides.accept(&as_pair(&astir()));
    let (old, new) = (sides.journal.file_as(1), sides.journal.file());
    assert_eq!(sides.call(&Call::Read(old)), 12);
    assert_eq!(sides.call(&Call::Read(new)), 0);
}
