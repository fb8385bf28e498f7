//! The equipment by station: what the changes behind the last weighing come to at each
//! arm, from the nose aft.

mod common;

use common::{case_g, lent, of_version_1, record_of, HEADER, WEIGHING};
use common::{G_PAIRED, G_SEAT, G_SHEET, G_WEIGHING, H_CHANGE};
use nodhulika::{Change, Equipment, Record, Refusal, Weighing, LONGEST_FILE, MOST_ARMS};

/// What stands in a column where nothing was written: no arm and no weight.
const FREE: i64 = -1_000_000_007;

/// Columns of arms, net weights and net non-lifting weights.
type Columns = [Vec<i64>; 3];

fn fit(record: &mut Record, c: i64, arm: i64, flag: u64) {
    assert_eq!(record.change(&Change { c, arm, flag }), Ok(()));
}

/// Columns of so many elements each, and the answer that fills them.
fn asked(record: &Record, lengths: [usize; 3]) -> (Result<usize, Refusal>, Columns) {
    let mut columns = lengths.map(|length| vec![FREE; length]);
    let [arms, weights, nonlifting] = &mut columns;
    let answer = record.equipment(arms, weights, nonlifting);
    (answer, columns)
}

/// The same of a buffer that a record is lent in.
fn asked_of(buffer: &[u8], lengths: [usize; 3]) -> (Result<usize, Refusal>, Columns) {
    let mut columns = lengths.map(|length| vec![FREE; length]);
    let [arms, weights, nonlifting] = &mut columns;
    let answer = nodhulika::lent::equipment(buffer, arms, weights, nonlifting);
    (answer, columns)
}

/// An arm, the net weight there and the net non-lifting weight.
fn station((arm, weight, nonlifting): (i64, i64, i64)) -> Equipment {
    Equipment {
        arm,
        weight,
        nonlifting,
    }
}

/// The record has just this equipment, in columns that just hold it and in longer ones.
fn has(record: &Record, equipment: &[(i64, i64, i64)]) {
    let stations: Vec<Equipment> = equipment.iter().copied().map(station).collect();
    assert_eq!(record.equipment_list(), Ok(stations));

    let count = equipment.len();
    for more in [0, 1, 9] {
        let (answer, columns) = asked(record, [count + more, count, count + 2 * more]);
        assert_eq!(answer, Ok(count));
        for (column, element) in columns.iter().zip([
            |of: &(i64, i64, i64)| of.0,
            |of: &(i64, i64, i64)| of.1,
            |of: &(i64, i64, i64)| of.2,
        ]) {
            let filled: Vec<i64> = equipment.iter().map(element).collect();
            assert_eq!(column[..count], filled);
            assert!(column[count..].iter().all(|&element| element == FREE));
        }
    }
}

/// The record is refused, and no element of any column changes.
fn refused(buffer: &[u8], lengths: [usize; 3], refusal: Refusal) {
    let (answer, columns) = asked_of(buffer, lengths);
    assert_eq!(answer, Err(refusal), "{lengths:?}");
    assert_eq!(columns, lengths.map(|length| vec![FREE; length]));
}

/// A record with changes at three arms.
fn with_three_arms() -> Record {
    let mut record = case_g();
    for (c, arm, flag) in [
        (900, 400_000, 1),
        (4_500, -100_000, 1),
        (300, 12_000, 0),
        (-500, -100_000, 1),
    ] {
        fit(&mut record, c, arm, flag);
    }
    record
}

#[test]
fn each_arm_once_from_the_nose_aft() {
    has(
        &with_three_arms(),
        &[
            (-100_000, 4_000, 4_000),
            (12_000, 300, 0),
            (400_000, 900, 900),
        ],
    );
}

#[test]
fn no_change_no_arm() {
    has(&case_g(), &[]);
    let (answer, columns) = asked(&case_g(), [0; 3]);
    assert_eq!((answer, columns), (Ok(0), [vec![], vec![], vec![]]));
}

#[test]
fn a_net_of_nought_is_included() {
    let mut record = case_g();
    fit(&mut record, 2_650, -95_000, 1);
    fit(&mut record, -2_650, -95_000, 1);
    has(&record, &[(-95_000, 0, 0)]);
    // By the other flag the non-lifting weight stays, or goes below nought.
    fit(&mut record, 700, -95_000, 1);
    fit(&mut record, -700, -95_000, 0);
    has(&record, &[(-95_000, 0, 700)]);
    fit(&mut record, -800, -95_000, 1);
    fit(&mut record, 800, -95_000, 0);
    has(&record, &[(-95_000, 0, -100)]);
}

#[test]
fn lifting_and_non_lifting_parts_at_one_arm() {
    let mut record = case_g();
    fit(&mut record, 10, 5, 0);
    fit(&mut record, 200, 5, 1);
    fit(&mut record, -3_000, 5, 0);
    fit(&mut record, -40_000, 5, 1);
    has(&record, &[(5, -42_790, -39_800)]);
}

#[test]
fn sheets_and_seats_between_make_no_difference() {
    let mut record = Record::new();
    assert_eq!(record.install(&G_SHEET), Ok(()));
    assert_eq!(record.weigh(&G_WEIGHING), Ok(()));
    fit(&mut record, 10, 7, 0);
    assert_eq!(record.seat(&G_SEAT), Ok(()));
    fit(&mut record, 20, -7, 1);
    assert_eq!(record.install(&G_SHEET), Ok(()));
    fit(&mut record, 30, 7, 0);
    assert_eq!(record.seat(&G_SEAT), Ok(()));
    has(&record, &[(-7, 20, 20), (7, 40, 0)]);
}

#[test]
fn only_the_changes_behind_the_last_weighing() {
    let mut record = case_g();
    fit(&mut record, 10, 7, 0);
    let before = [(7, 10, 0)];
    has(&record, &before);

    assert_eq!(record.weigh(&G_WEIGHING), Ok(()));
    has(&record, &[]);
    fit(&mut record, 5, 8, 1);
    has(&record, &[(8, 5, 5)]);
    assert_eq!(record.weigh_paired(&G_PAIRED), Ok(()));
    has(&record, &[]);
    // Taken back, a weighing gives way to the one before, and to its changes.
    assert_eq!(record.undo(), Ok(()));
    has(&record, &[(8, 5, 5)]);
    assert_eq!(record.undo(), Ok(()));
    assert_eq!(record.undo(), Ok(()));
    has(&record, &before);
}

/// Behind a pair that leaves half a gram too.
#[test]
fn whole_grams_and_not_half_grams() {
    let mut record = Record::new();
    assert_eq!(record.weigh_paired(&G_PAIRED), Ok(()));
    assert_eq!(record.change(&H_CHANGE), Ok(()));
    assert_eq!(record.centre_of_gravity().map(|c| c.total), Ok(585_001));
    has(&record, &[(-100_000, 4_500, 4_500)]);
}

#[test]
fn arms_at_both_ends_of_their_range() {
    let mut record = record_of(&G_WEIGHING, &G_SHEET);
    for arm in [0, 2_000_000, 1, -2_000_000, -1] {
        fit(&mut record, 1, arm, 0);
    }
    let arms = [-2_000_000, -1, 0, 1, 2_000_000];
    has(&record, &arms.map(|arm| (arm, 1, 0)));
}

/// A glider of a gram, and all that can be fitted at one end and taken out at the
/// other, as often as a list has room for.
#[test]
fn the_greatest_nets() {
    let mut record = Record::new();
    let light = Weighing {
        p: 1,
        a: 0,
        n: 0,
        ..G_WEIGHING
    };
    assert_eq!(record.weigh(&light), Ok(()));
    for turn in 0..63 {
        let (c, arm) = [(1_999_999, 2_000_000), (-1_999_999, -2_000_000)][turn % 2];
        fit(&mut record, c, arm, 1);
    }
    let (out, fitted) = (-31 * 1_999_999, 32 * 1_999_999);
    has(
        &record,
        &[(-2_000_000, out, out), (2_000_000, fitted, fitted)],
    );
}

/// The arms of a full record fall, rise, or are all the same.
#[test]
fn as_many_arms_as_there_can_be() {
    let c = |i: i64| 10 + i % 5;
    for step in [-1_000, 1_000] {
        let mut record = Record::new();
        assert_eq!(record.weigh(&G_WEIGHING), Ok(()));
        for i in 0..63 {
            fit(&mut record, c(i), step * i, (i % 2) as u64);
        }
        assert_eq!(record.change(&H_CHANGE), Err(Refusal::Full));
        let at = |i: i64| (step * i, c(i), i % 2 * c(i));
        let mut equipment: Vec<_> = (0..63).map(at).collect();
        equipment.sort();
        assert_eq!(equipment.len(), MOST_ARMS);
        has(&record, &equipment);
    }
    let mut record = Record::new();
    assert_eq!(record.weigh(&G_WEIGHING), Ok(()));
    for _ in 0..63 {
        fit(&mut record, 100, 9, 1);
    }
    has(&record, &[(9, 6_300, 6_300)]);
}

/// Each column by itself, with the others long enough.
#[test]
fn a_column_that_is_too_short() {
    let record = with_three_arms();
    let buffer = lent(&record, LONGEST_FILE + 64);
    for long in [3, 4, MOST_ARMS] {
        for short in 0..3 {
            for column in 0..3 {
                let mut lengths = [long; 3];
                lengths[column] = short;
                refused(&buffer, lengths, Refusal::Short);
            }
        }
    }
    refused(&buffer, [2; 3], Refusal::Short);
    refused(&buffer, [0; 3], Refusal::Short);
    assert_eq!(asked_of(&buffer, [3; 3]).0, Ok(3));
    assert_eq!(buffer, lent(&record, LONGEST_FILE + 64));
}

#[test]
fn a_record_that_was_not_weighed() {
    let mut record = Record::new();
    for _ in 0..3 {
        for lengths in [[0; 3], [MOST_ARMS; 3]] {
            refused(&lent(&record, 500), lengths, Refusal::Unweighed);
        }
        assert_eq!(record.equipment_list(), Err(Refusal::Unweighed));
        assert_eq!(record.install(&G_SHEET), Ok(()));
        assert_eq!(record.seat(&G_SEAT), Ok(()));
    }
}

/// 12 comes before 7, and 7 before 11.
#[test]
fn the_first_in_order_is_given() {
    let record = with_three_arms();
    let whole = record.as_bytes();
    for bytes in [&[][..], &[FREE as u8; 100], &whole[..whole.len() - 1]] {
        for lengths in [[0; 3], [MOST_ARMS; 3]] {
            refused(bytes, lengths, Refusal::File);
        }
    }
    refused(Record::new().as_bytes(), [0, 9, 9], Refusal::Unweighed);
    refused(whole, [9, 9, 2], Refusal::Short);
}

#[test]
fn of_a_lent_file() {
    let record = with_three_arms();
    let due = asked(&record, [5, 4, 3]);
    assert_eq!(due.0, Ok(3));
    let old = of_version_1(record.as_bytes());
    for buffer in [record.as_bytes(), &lent(&record, 300), &old] {
        assert_eq!(asked_of(buffer, [5, 4, 3]), due);
    }
    // A weighing, and nothing behind it.
    let weighed = &record.as_bytes()[HEADER..HEADER + WEIGHING];
    let file = [&[0, 0, 0, 24, 2, 1], weighed].concat();
    assert_eq!(asked_of(&file, [0; 3]).0, Ok(0));
}

#[test]
fn read_back_it_is_the_same() {
    let record = with_three_arms();
    let again = Record::from_file(record.as_bytes()).unwrap();
    assert_eq!(again.equipment_list(), record.equipment_list());
}
