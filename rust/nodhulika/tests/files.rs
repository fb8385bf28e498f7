//! The file of a record, byte by byte, laid out here a second time. An argument
//! that is passed in another's place would stand in another's place.

mod common;

use common::{case_g, of_version_1, station, FREE};
use common::{G_PAIRED, G_SEAT, G_SHEET, G_WEIGHING, H_CHANGE};
use nodhulika::{lent, Change, Paired, Record, Refusal, Seat, Sheet, Weighing};

const WEIGHING: Weighing = Weighing {
    m: Weighing::JURY_BALLAST,
    p: 460_001,
    q: 15_002,
    a: -3_003,
    b: 10_304,
    n: 5,
};

// Each number its own, so that no two can be told for one another.
const SHEET: Sheet = Sheet {
    fwd: -25_001,
    aft: 42_502,
    dry: 1_800_003,
    wet: 1_900_004,
    nlp: 1_700_005,
    front: station(-47_506, 110_008, 1_009),
    front_least: 55_007,
    rear: station(-11_210, 110_011, 55_012),
    water: station(-30_013, 100_014, 50_015),
};

const PAIRED: Paired = Paired {
    m: Weighing::TWO_SLINGS,
    p: 360_001,
    q: 15_002,
    p2: 360_103,
    q2: 14_904,
    a: -2_005,
    b: 9_306,
    n: 7,
};

const CHANGE: Change = Change {
    c: -4_501,
    arm: -100_002,
    flag: Change::NON_LIFTING,
};

const SEAT: Seat = Seat {
    lower: -60_001,
    higher: 40_002,
};

/// Numbers as the file has them: four bytes each, big-endian, two's complement.
fn four_bytes_each(numbers: &[i64]) -> Vec<u8> {
    let bytes_of = |&number| i32::try_from(number).unwrap().to_be_bytes();
    numbers.iter().flat_map(bytes_of).collect()
}

#[test]
fn every_number_stands_in_its_place() {
    let mut record = Record::new();
    assert_eq!(record.weigh(&WEIGHING), Ok(()));
    assert_eq!(record.install(&SHEET), Ok(()));
    assert_eq!(
        record.change(&Change {
            c: 6,
            arm: 7,
            flag: Change::LIFTING
        }),
        Ok(())
    );
    assert_eq!(record.change(&Change { c: 4_501, ..CHANGE }), Ok(()));
    assert_eq!(record.change(&CHANGE), Ok(()));
    assert_eq!(record.weigh_paired(&PAIRED), Ok(()));
    assert_eq!(record.seat(&SEAT), Ok(()));

    let mut file = vec![0, 0, 0, 2 + 22 + 61 + 3 * 10 + 30 + 9, 2, 7];
    file.extend([1, 4]);
    file.extend(four_bytes_each(&[460_001, 15_002, -3_003, 10_304, 5]));
    file.push(2);
    file.extend(four_bytes_each(&[
        -25_001, 42_502, 1_800_003, 1_900_004, 1_700_005,
    ]));
    file.extend(four_bytes_each(&[-47_506, 55_007, 110_008, 1_009]));
    file.extend(four_bytes_each(&[-11_210, 110_011, 55_012]));
    file.extend(four_bytes_each(&[-30_013, 100_014, 50_015]));
    for (c, arm, flag) in [(6, 7, 0), (4_501, -100_002, 1), (-4_501, -100_002, 1)] {
        file.push(3);
        file.extend(four_bytes_each(&[c, arm]));
        file.push(flag);
    }
    file.extend([4, 3]);
    file.extend(four_bytes_each(&[360_001, 15_002, 360_103, 14_904]));
    file.extend(four_bytes_each(&[-2_005, 9_306, 7]));
    file.push(5);
    file.extend(four_bytes_each(&[-60_001, 40_002]));
    assert_eq!(record.as_bytes(), file);
}

#[test]
fn a_file_of_version_1_is_read_and_written_anew() {
    let mut changed = case_g();
    assert_eq!(changed.change(&H_CHANGE), Ok(()));
    for record in [Record::new(), case_g(), changed] {
        let old = of_version_1(record.as_bytes());
        let again = Record::from_file(&old).unwrap();
        assert_eq!(again.as_bytes(), record.as_bytes());
        assert_eq!(again.placard_text(), record.placard_text());
    }
}

#[test]
fn version_1_has_no_pairs_and_no_seats_and_there_is_no_version_3() {
    let (mut twice, mut adjusted) = (case_g(), case_g());
    assert_eq!(twice.weigh_paired(&G_PAIRED), Ok(()));
    assert_eq!(adjusted.seat(&G_SEAT), Ok(()));
    for record in [twice, adjusted] {
        let old = of_version_1(record.as_bytes());
        assert_eq!(Record::from_file(&old), Err(Refusal::File));
        assert_eq!(lent::check(&old), Err(Refusal::File));
    }
    for version in [0, 3, 255] {
        let mut other = case_g().as_bytes().to_vec();
        other[4] = version;
        assert_eq!(Record::from_file(&other), Err(Refusal::File));
    }
}

/// A buffer that holds case G in a file of version 1, with free bytes behind.
fn old_buffer() -> Vec<u8> {
    let mut buffer = of_version_1(case_g().as_bytes());
    buffer.resize(200, FREE);
    buffer
}

#[test]
fn a_lent_file_of_version_1_is_taken_as_it_is() {
    const LIGHT: Paired = Paired { p2: 0, ..G_PAIRED };
    const NOTHING: Change = Change { c: 0, ..H_CHANGE };
    const REVERSED: Seat = Seat {
        lower: 1,
        higher: 0,
    };
    let buffer = old_buffer();
    let old = of_version_1(case_g().as_bytes());
    assert_eq!(lent::file(&buffer), Ok(&old[..]));
    assert_eq!(lent::centre(&buffer), case_g().centre_of_gravity());
    let mut out = [0; 108];
    assert_eq!(lent::placard(&buffer, &mut out).map(|c| c.rows), Ok(3));

    for call in [
        |b: &mut [u8]| lent::weigh_paired(b, &LIGHT),
        |b: &mut [u8]| lent::change(b, &NOTHING),
        |b: &mut [u8]| lent::seat(b, &REVERSED),
        |b: &mut [u8]| lent::read(b, &[]),
    ] {
        let mut after = buffer.clone();
        assert!(call(&mut after).is_err());
        assert_eq!(after, buffer);
    }
}

#[test]
fn the_first_call_that_changes_it_makes_it_version_2() {
    for call in [
        |b: &mut [u8]| lent::weigh(b, &G_WEIGHING),
        |b: &mut [u8]| lent::weigh_paired(b, &G_PAIRED),
        |b: &mut [u8]| lent::sheet(b, &G_SHEET),
        |b: &mut [u8]| lent::change(b, &H_CHANGE),
        |b: &mut [u8]| lent::seat(b, &G_SEAT),
        |b: &mut [u8]| lent::undo(b),
        |b: &mut [u8]| lent::read(b, &of_version_1(case_g().as_bytes())),
    ] {
        let mut old = old_buffer();
        let mut new = common::lent(&case_g(), old.len());
        assert_eq!(call(&mut old), Ok(()));
        assert_eq!(call(&mut new), Ok(()));
        assert_eq!(old, new);
    }
}

#[test]
fn a_record_shows_its_file() {
    assert_eq!(
        format!("{:?}", Record::new()),
        "Record { file: [0, 0, 0, 2, 2, 0] }"
    );
}

#[test]
fn records_are_equal_by_their_files() {
    // One has bytes of an entry taken back behind its file.
    let mut record = Record::new();
    assert_eq!(record.weigh(&common::G_WEIGHING), Ok(()));
    assert_ne!(record, Record::new());
    assert_eq!(record.undo(), Ok(()));
    assert_eq!(record, Record::new());
}
