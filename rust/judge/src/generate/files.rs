//! Files with something wrong in them, or something that may be wrong.

use super::edges::{edge_change, edge_pair, edge_seat, edge_sheet, edge_weighing};
use super::glider::any_glider;
use super::random::Random;
use crate::paper::{Entry, Journal, Paired, Sheet, Weighing};

/// The two versions of a file.
const OLD: u8 = 1;
const NEW: u8 = 2;

/// Where the entries of a journal's file begin.
fn entry_places(journal: &Journal) -> Vec<usize> {
    let mut places = Vec::new();
    let mut place = 6;
    for entry in &journal.entries {
        places.push(place);
        place += match entry {
            Entry::Weighing(_) => 22,
            Entry::Sheet(_) => 61,
            Entry::Change(_) => 10,
            Entry::Paired(_) => 30,
            Entry::Seat(_) => 9,
        };
    }
    places
}

/// An entry that version 1 has: of a pair the first reading, of a seat none.
fn plain(entry: &Entry) -> Option<Entry> {
    match *entry {
        Entry::Paired(Paired {
            m, p, q, a, b, n, ..
        }) => Some(Entry::Weighing(Weighing { m, p, q, a, b, n })),
        Entry::Seat(_) => None,
        other => Some(other),
    }
}

/// A journal and a version to lay it out in. Version 1 has no pairs and no seats;
/// seldom they stand in it all the same.
fn laid_out(random: &mut Random, journal: &Journal) -> (Journal, u8) {
    if random.one_in(2) {
        return (journal.clone(), NEW);
    }
    let entries = if random.one_in(5) {
        journal.entries.clone()
    } else {
        journal.entries.iter().filter_map(plain).collect()
    };
    (Journal { entries }, OLD)
}

/// A journal's file in either version.
pub(super) fn any_version(random: &mut Random, journal: &Journal) -> Vec<u8> {
    let (journal, version) = laid_out(random, journal);
    journal.file_as(version)
}

/// Sets the length field; bytes too few to have one stay as they are.
fn set_length(file: &mut [u8], length: u64) {
    if let Some(field) = file.first_chunk_mut() {
        *field = (length as u32).to_be_bytes();
    }
}

/// A length that is one off, all FF, shorter or longer.
fn wrong_length(random: &mut Random, file: &mut [u8]) {
    let length = file.len() as u64 - 4;
    let any = random.below(4_000);
    let wrong = random.pick(&[
        length - 1,
        length + 1,
        length + 4,
        0,
        1,
        any,
        u64::MAX,
        length + (1 << 31),
        length << 8,
    ]);
    set_length(file, wrong);
}

/// A wrong count.
fn wrong_count(random: &mut Random, file: &mut [u8]) {
    let count = file[5];
    let (fewer, more) = (count.wrapping_sub(1), count.wrapping_add(1));
    file[5] = random.pick(&[fewer, more, more, 0, 64, 65, 255]);
}

/// A wrong kind byte, where there is an entry.
fn wrong_kind(random: &mut Random, journal: &Journal, file: &mut [u8]) {
    let places = entry_places(journal);
    if !places.is_empty() {
        file[random.pick(&places)] = random.pick(&[0, 6, 255, 1, 2, 3, 4, 5]);
    }
}

/// Cut anywhere, or with bytes over; the length as it was or made right.
fn wrong_end(random: &mut Random, file: &mut Vec<u8>) {
    if random.one_in(2) {
        file.truncate(random.below(file.len() as u64) as usize);
    } else {
        for _ in 0..random.pick(&[1, 1, 1, 9, 10, 22, 30]) {
            file.push(random.pick(&[0, 1, 3, 4, 5, 255]));
        }
    }
    if random.one_in(2) {
        let length = file.len().saturating_sub(4) as u64;
        set_length(file, length);
    }
}

/// A byte changed anywhere; the file may still be a good one.
fn wrong_byte(random: &mut Random, file: &mut [u8]) {
    let at = random.below(file.len() as u64) as usize;
    let any = random.draw() as u8;
    let byte = file[at];
    file[at] = random.pick(&[any, byte ^ 1, byte.wrapping_add(1), byte ^ 0x80]);
}

/// An entry that its call refuses, laid out as if it had been accepted: a change
/// with nothing weighed, n over G, too many rows, a seat before every sheet, or a
/// field at an edge.
fn refused_entry(random: &mut Random, mut journal: Journal) -> Journal {
    let glider = any_glider(random);
    let (w, s, c) = (glider.weigh(random), glider.sheet, glider.part(random));
    let seat = glider.any_seat(random);
    let mut at = random.below(journal.entries.len() as u64 + 1) as usize;
    let entry = match random.below(11) {
        0 => {
            at = 0;
            Entry::Change(c)
        }
        1 => {
            let n = w.p + w.q + 1;
            Entry::Weighing(Weighing { n, ..w })
        }
        2 => {
            at = 0;
            let (capacity, water_step) = (256, 1);
            Entry::Sheet(Sheet {
                capacity,
                water_step,
                ..s
            })
        }
        3 => Entry::Weighing(edge_weighing(random, w)),
        4 => Entry::Sheet(edge_sheet(random, s)),
        5 | 6 => {
            let pair = glider.pair(random);
            Entry::Paired(edge_pair(random, pair))
        }
        7 => {
            at = 0;
            Entry::Seat(seat)
        }
        8 | 9 => Entry::Seat(edge_seat(random, seat)),
        _ => Entry::Change(edge_change(random, c)),
    };
    journal.entries.insert(at, entry);
    journal
}

/// One entry more than may stand, each of them good.
fn too_many(random: &mut Random) -> Journal {
    let glider = any_glider(random);
    let mut entries = vec![Entry::Weighing(glider.weigh(random))];
    entries.resize(random.pick(&[2, 63, 64, 64]), Entry::Sheet(glider.sheet));
    let seat = glider.any_seat(random);
    let last = random.pick(&[Entry::Sheet(glider.sheet), Entry::Seat(seat)]);
    entries.resize(random.pick(&[64, 65, 65, 66]), last);
    Journal { entries }
}

/// Bytes that never were a file.
fn stray_bytes(random: &mut Random) -> Vec<u8> {
    let length = random.pick(&[0, 1, 3, 4, 5, 6, 7, 16, 40, 3_910, 3_911]);
    let limit = random.pick(&[1, 4, 6, 256]);
    (0..length).map(|_| random.below(limit) as u8).collect()
}

/// A journal's file with one thing wrong, or with something that may be wrong.
pub(super) fn damaged(random: &mut Random, journal: &Journal) -> Vec<u8> {
    let (journal, version) = laid_out(random, journal);
    let mut file = journal.file_as(version);
    match random.below(16) {
        0 | 1 => wrong_length(random, &mut file),
        2 => file[4] = random.pick(&[0, 3, 255, OLD, NEW]),
        3 | 4 => wrong_count(random, &mut file),
        5 => wrong_kind(random, &journal, &mut file),
        6..=8 => wrong_end(random, &mut file),
        9..=11 => wrong_byte(random, &mut file),
        12 => file = stray_bytes(random),
        13 => file = too_many(random).file_as(version),
        _ => file = refused_entry(random, journal).file_as(version),
    }
    file
}
