//! Which bytes of a lent buffer a call writes, and how few it can do with.

mod common;

use common::{case_g, full, lent, CHANGE, FREE, HEADER, PAIRED, SEAT, SHEET, WEIGHING};
use common::{G_INDICATED, G_PAIRED, G_PLACARD, G_SEAT, G_SHEET, G_WEIGHING, H_CHANGE};
use nodhulika::lent::{
    change, check, file, fresh, placard, read, seat, sheet, undo, weigh, weigh_indicated,
    weigh_paired,
};
use nodhulika::{Record, Refusal, Sheet, LONGEST_FILE, LONGEST_PLACARD};

/// Makes the call on the record in buffers with ever more room behind it. It
/// is accepted from `growth` bytes on, and never writes behind those.
fn grows(record: &Record, growth: usize, call: impl Fn(&mut [u8]) -> Result<(), Refusal>) {
    let end = record.as_bytes().len();
    for room in 0..growth + 8 {
        let mut buffer = lent(record, end + room);
        let before = buffer.clone();
        if room < growth {
            assert_eq!(call(&mut buffer), Err(Refusal::Short));
            assert_eq!(buffer, before);
            continue;
        }
        assert_eq!(call(&mut buffer), Ok(()));
        assert_eq!(file(&buffer).map(<[u8]>::len), Ok(end + growth));
        assert_eq!(buffer[HEADER..end], before[HEADER..end]);
        assert_eq!(buffer[end + growth..], before[end + growth..]);
    }
}

#[test]
fn an_entry_takes_its_own_bytes_and_no_more() {
    let record = case_g();
    grows(&record, WEIGHING, |buffer| weigh(buffer, &G_WEIGHING));
    grows(&record, PAIRED, |buffer| weigh_paired(buffer, &G_PAIRED));
    grows(&record, PAIRED, |buffer| {
        weigh_indicated(buffer, &G_INDICATED)
    });
    grows(&record, SHEET, |buffer| sheet(buffer, &G_SHEET));
    grows(&record, CHANGE, |buffer| change(buffer, &H_CHANGE));
    grows(&record, SEAT, |buffer| seat(buffer, &G_SEAT));
}

#[test]
fn a_fresh_record_takes_six_bytes() {
    for length in 0..12 {
        let mut buffer = vec![FREE; length];
        let accepted = fresh(&mut buffer).is_ok();
        assert_eq!(accepted, length >= HEADER);
        if accepted {
            assert_eq!(buffer[..HEADER], [0, 0, 0, 2, 2, 0]);
            assert_eq!(buffer[HEADER..], vec![FREE; length - HEADER]);
        } else {
            assert_eq!(buffer, vec![FREE; length]);
        }
    }
}

#[test]
fn a_buffer_cut_within_its_file_holds_no_record() {
    let record = case_g();
    let whole = record.as_bytes();
    for length in 0..whole.len() {
        assert_eq!(check(&whole[..length]), Err(Refusal::File));
    }
    assert_eq!(check(whole), Ok(()));
    assert_eq!(check(&lent(&record, whole.len() + 1)), Ok(()));
}

#[test]
fn undo_leaves_the_bytes_of_the_entry() {
    let mut buffer = lent(&case_g(), 200);
    let end = file(&buffer).unwrap().len();
    assert_eq!(change(&mut buffer, &H_CHANGE), Ok(()));
    let fitted = buffer.clone();

    assert_eq!(undo(&mut buffer), Ok(()));
    assert_eq!(file(&buffer), Ok(case_g().as_bytes()));
    assert_eq!(buffer[HEADER..], fitted[HEADER..]);
    assert_eq!(
        buffer[end..end + CHANGE],
        [3, 0, 0, 0x11, 0x94, 0xff, 0xfe, 0x79, 0x60, 1]
    );

    // Room enough, as the file gets shorter, even where the buffer ends with it.
    let mut tight = case_g().as_bytes().to_vec();
    assert_eq!(undo(&mut tight), Ok(()));
    assert_eq!(file(&tight).map(<[u8]>::len), Ok(HEADER + WEIGHING));
}

#[test]
fn a_place_taken_back_is_used_again() {
    let mut record = full();
    assert_eq!(record.undo(), Ok(()));
    assert_eq!(record.change(&H_CHANGE), Ok(()));
    assert_eq!(record.change(&H_CHANGE), Err(Refusal::Full));
    assert_eq!(record.undo(), Ok(()));
    assert_eq!(record.seat(&G_SEAT), Ok(()));
    assert_eq!(record.seat(&G_SEAT), Err(Refusal::Full));
    for _ in 0..64 {
        assert_eq!(record.undo(), Ok(()));
    }
    assert_eq!(record.undo(), Err(Refusal::Bare));
    assert_eq!(record, Record::new());
}

#[test]
fn reading_needs_no_record_and_leaves_what_is_behind() {
    let record = case_g();
    let whole = record.as_bytes();
    let mut buffer = vec![FREE; 200];
    assert_eq!(read(&mut buffer, whole), Ok(()));
    assert_eq!(buffer[..whole.len()], *whole);
    assert_eq!(buffer[whole.len()..], vec![FREE; 200 - whole.len()]);

    // A shorter file: the bytes of the longer one stay behind it.
    let fresh_file = [0, 0, 0, 2, 2, 0];
    assert_eq!(read(&mut buffer, &fresh_file), Ok(()));
    assert_eq!(file(&buffer), Ok(&fresh_file[..]));
    assert_eq!(buffer[HEADER..whole.len()], whole[HEADER..]);
}

#[test]
fn reading_takes_the_file_exactly() {
    let record = case_g();
    let mut over = record.as_bytes().to_vec();
    over.push(0);
    assert_eq!(Record::from_file(&over), Err(Refusal::File));
    over.truncate(over.len() - 2);
    assert_eq!(Record::from_file(&over), Err(Refusal::File));
}

#[test]
fn a_record_is_read_back_from_its_own_file() {
    let mut changed = case_g();
    assert_eq!(changed.change(&H_CHANGE), Ok(()));
    let mut twice = changed.clone();
    assert_eq!(twice.weigh_paired(&G_PAIRED), Ok(()));
    let mut adjusted = changed.clone();
    assert_eq!(adjusted.seat(&G_SEAT), Ok(()));
    for record in [Record::new(), case_g(), changed, twice, adjusted, full()] {
        let again = Record::from_file(record.as_bytes()).unwrap();
        assert_eq!(again, record);
        assert_eq!(again.as_bytes(), record.as_bytes());
        assert_eq!(again.centre_of_gravity(), record.centre_of_gravity());
        assert_eq!(again.placard_text(), record.placard_text());
    }
}

#[test]
fn the_longest_file_fits() {
    let mut record = Record::new();
    for _ in 0..64 {
        assert_eq!(record.install(&G_SHEET), Ok(()));
    }
    assert_eq!(record.as_bytes().len(), LONGEST_FILE);
    assert_eq!(Record::from_file(record.as_bytes()), Ok(record));
}

#[test]
fn a_placard_takes_its_lines_and_no_more() {
    let record = case_g();
    for length in 0..G_PLACARD.len() + 8 {
        let mut out = vec![FREE; length];
        if length < G_PLACARD.len() {
            assert_eq!(record.placard(&mut out), Err(Refusal::Short));
            assert_eq!(out, vec![FREE; length]);
            continue;
        }
        assert!(record.placard(&mut out).is_ok());
        assert_eq!(out[..G_PLACARD.len()], *G_PLACARD.as_bytes());
        assert_eq!(out[G_PLACARD.len()..], vec![FREE; length - G_PLACARD.len()]);
    }
}

#[test]
fn the_longest_placard_fits() {
    let mut water = G_SHEET.water;
    (water.most, water.step) = (255, 1);
    let record = common::record_of(&G_WEIGHING, &Sheet { water, ..G_SHEET });

    let mut out = [FREE; LONGEST_PLACARD];
    let counts = record.placard(&mut out).unwrap();
    assert_eq!((counts.bytes, counts.rows), (LONGEST_PLACARD, 256));
    assert_eq!(record.placard_text().unwrap().as_bytes(), out);

    let short = &mut out[1..];
    let before = short.to_vec();
    assert_eq!(placard(record.as_bytes(), short), Err(Refusal::Short));
    assert_eq!(short, before);
}
