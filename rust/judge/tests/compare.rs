//! The direct and the fast functions against the paper on generated cases.

use judge::classes::{messages, CLASSES};
use judge::generate::{case, Case};
use judge::paper::{weighed_by_indicator, Call, Columns, Entry, Indicated, Journal};
use judge::paper::{Seat, Sheet};
use judge::run::{front_file, Answers, By, Direct, Fast, Guarded, Inventory, Lent, Paper, Plate};
use judge::run::{Trial, WORK};

const CASES: u64 = 20_000;
const SEED: u64 = 1;

/// How often each number was given by a call, a centre, a placard or the equipment.
#[derive(Default)]
struct Numbers([u64; 15]);

impl Numbers {
    fn add(&mut self, answers: &Answers, plate: &Plate, inventory: &Inventory) {
        let last = [
            answers.centre.err(),
            plate.answer.err(),
            inventory.answer.err(),
        ];
        let last = last.into_iter().map(|number| number.unwrap_or(0));
        for number in answers.numbers.iter().copied().chain(last) {
            self.0[number as usize] += 1;
        }
    }
}

/// Paired weighings accepted and refused, and files of version 1 accepted.
#[derive(Default)]
struct Card1([u64; 3]);

impl Card1 {
    fn add(&mut self, calls: &[Call], answers: &Answers) {
        for (call, number) in calls.iter().zip(&answers.numbers) {
            match (call, number) {
                (Call::Pair(_), 0) => self.0[0] += 1,
                (Call::Pair(_), _) => self.0[1] += 1,
                (Call::Read(file), 0) if file[4] == 1 => self.0[2] += 1,
                _ => {}
            }
        }
    }
}

/// Rows of sheets where 0 is a step: those that begin at the next one, and those
/// that are blank.
#[derive(Default)]
struct Card2([u64; 2]);

impl Card2 {
    fn add(&mut self, sheet: &Sheet, plate: &[u8]) {
        if sheet.front_least != 0 {
            return;
        }
        let step = sheet.front_step;
        let next = format!("{:04}.{:03}", step / 1_000, step % 1_000);
        for line in plate.chunks(36) {
            let smallest = &line[18..26];
            self.0[0] += u64::from(smallest == next.as_bytes());
            self.0[1] += u64::from(smallest == b"--------");
        }
    }
}

/// Seats accepted and refused, files with a seat accepted, and placards that the
/// lower end, the middle or the higher end of their seat would change if it were the
/// only arm.
#[derive(Default)]
struct Card4 {
    calls: [u64; 3],
    ends: [u64; 3],
}

impl Card4 {
    fn add(&mut self, calls: &[Call], answers: &Answers) {
        for (call, number) in calls.iter().zip(&answers.numbers) {
            match (call, number) {
                (Call::Seat(_), 0) => self.calls[0] += 1,
                (Call::Seat(_), _) => self.calls[1] += 1,
                (Call::Read(file), 0) => {
                    let journal = Journal::read(file).unwrap();
                    self.calls[2] += u64::from(journal.seat().is_some());
                }
                _ => {}
            }
        }
    }

    fn add_ends(&mut self, journal: &Journal, plate: &[u8]) {
        let Some(Seat { lower, higher }) = journal.seat() else {
            return;
        };
        let arms = [lower, (lower + higher) / 2, higher];
        for (count, arm) in self.ends.iter_mut().zip(arms) {
            *count += u64::from(plate_at(journal, arm) != plate);
        }
    }
}

/// Equipment of two arms and more, of 63, with more changes than arms, with a net of
/// nought, with one that is negative, with a part of both flags, and with a column one
/// element too short.
#[derive(Default)]
struct Card5([u64; 7]);

impl Card5 {
    fn add(&mut self, journal: &Journal, inventory: &Inventory) {
        let columns = inventory.columns.each_ref().map(Guarded::inside);
        let shortest = columns.map(<[i64]>::len).into_iter().min().unwrap();
        let Ok(count) = inventory.answer else {
            let missing = stations_of(journal).is_some_and(|arms| arms == shortest + 1);
            self.0[6] += u64::from(missing);
            return;
        };
        let [_, weights, nonlifting] = columns.map(|column| &column[..count]);
        let any = |of: &dyn Fn(i64, i64) -> bool| {
            let mut nets = weights.iter().zip(nonlifting);
            u64::from(nets.any(|(weight, part)| of(*weight, *part)))
        };
        self.0[0] += u64::from(count >= 2);
        self.0[1] += u64::from(count == 63);
        self.0[2] += u64::from(count < changes_of(journal));
        self.0[3] += any(&|weight, _| weight == 0);
        self.0[4] += any(&|weight, _| weight < 0);
        self.0[5] += any(&|weight, part| part != 0 && part != weight);
    }
}

/// Weighings by an indicator, accepted, of method 4 and accepted, refused with 13, with 14
/// and with another number; placards whose weighing came so, and those of method 4 among
/// them; messages of each class; 13 and 14 on a full record, and 9; and 13 where the last
/// message alone is not steady and the first one is refused too.
#[derive(Default)]
struct Card6 {
    numbers: [u64; 5],
    placards: [u64; 2],
    classes: [u64; CLASSES.len()],
    full: [u64; 3],
    together: u64,
}

impl Card6 {
    fn add(&mut self, calls: &[Call], answers: &Answers) {
        for ((call, number), before) in calls.iter().zip(&answers.numbers).zip(&answers.buffers) {
            let Call::Indicate(x) = call else {
                continue;
            };
            match number {
                0 => {
                    self.numbers[0] += 1;
                    self.numbers[1] += u64::from(x.m == 4);
                }
                13 | 14 => self.numbers[*number as usize - 11] += 1,
                _ => self.numbers[4] += 1,
            }
            for (count, (_, is_of)) in self.classes.iter_mut().zip(CLASSES) {
                *count += messages(x).into_iter().filter(|of| is_of(of)).count() as u64;
            }
            let is_full = before.get(5) == Some(&64);
            for (count, due) in self.full.iter_mut().zip([13, 14, 9]) {
                *count += u64::from(is_full && *number == due);
            }
            self.together += u64::from(*number == 13 && refused_first_and_last(x));
        }
    }

    fn assert_reached(&self) {
        assert_all_over(500, &self.numbers);
        assert_all_over(250, &self.placards);
        assert_all_over(10, &self.classes);
        assert_all_over(25, &self.full);
        assert_all_over(25, &[self.together]);
    }

    /// The placard's weighing, where an indicator sent the last one that was accepted and
    /// nothing was taken or read back behind it.
    fn add_placard(&mut self, calls: &[Call], answers: &Answers) {
        let mut accepted = calls
            .iter()
            .zip(&answers.numbers)
            .filter(|(_, number)| **number == 0)
            .map(|(call, _)| call)
            .rev();
        let deciding = accepted
            .find(|call| !matches!(call, Call::Install(_) | Call::Change(_) | Call::Seat(_)));
        if let Some(Call::Indicate(x)) = deciding {
            self.placards[0] += 1;
            self.placards[1] += u64::from(x.m == 4);
        }
    }
}

/// Whether the first message is refused with 14 by itself, and of the others the last one
/// alone with 13.
fn refused_first_and_last(x: &Indicated) -> bool {
    let first = || x.p.clone();
    let q2 = first();
    let last_as_first = Indicated { q2, ..x.clone() };
    let (m, q, p2) = (1, first(), first());
    let all_as_first = Indicated {
        m,
        q,
        p2,
        ..last_as_first.clone()
    };
    [all_as_first, last_as_first]
        .iter()
        .all(|x| weighed_by_indicator(x) == Err(14))
}

/// Changes behind the last weighing.
fn changes_of(journal: &Journal) -> usize {
    let entries = journal.entries.iter().rev();
    entries
        .take_while(|entry| !matches!(entry, Entry::Weighing(_) | Entry::Paired(_)))
        .filter(|entry| matches!(entry, Entry::Change(_)))
        .count()
}

/// Arms of the equipment, where something was weighed.
fn stations_of(journal: &Journal) -> Option<usize> {
    let [mut arms, mut weights, mut nonlifting] = [[0; 63]; 3];
    let columns = Columns {
        arms: &mut arms,
        weights: &mut weights,
        nonlifting: &mut nonlifting,
    };
    journal.equipment(columns).ok()
}

/// The lines of a placard if its seat had one arm.
fn plate_at(journal: &Journal, arm: i64) -> Vec<u8> {
    let mut journal = journal.clone();
    let is_seat = |entry: &&mut Entry| matches!(entry, Entry::Seat(_));
    let seat = journal.entries.iter_mut().rev().find(is_seat).unwrap();
    *seat = Entry::Seat(Seat {
        lower: arm,
        higher: arm,
    });
    let mut plate = vec![0; 9_216];
    let counts = journal.placard(&mut plate).unwrap();
    plate.truncate(counts.bytes);
    plate
}

/// What the paper, the direct functions and the fast ones all answer, and the
/// paper's record; the placard is none where plain loops would take too long.
fn same(trial: &Trial, case: &Case) -> (Paper, Answers, Inventory, Option<Plate>) {
    let (paper, expected) = trial.run::<Paper>();
    let (direct, given) = trial.run::<By<Direct>>();
    assert_eq!(given, expected, "direct {case:?}");
    let (fast, given) = trial.run::<By<Fast>>();
    assert_eq!(given, expected, "fast {case:?}");
    let inventory = trial.equipment(&paper);
    assert!(inventory.columns.iter().all(Guarded::holds));
    assert_eq!(trial.equipment(&direct), inventory, "direct {case:?}");
    assert_eq!(trial.equipment(&fast), inventory, "fast {case:?}");
    let plate = trial.placard(&direct);
    assert_eq!(trial.placard(&fast), plate, "{case:?}");
    if paper.work() > WORK {
        return (paper, expected, inventory, None);
    }
    assert_eq!(trial.placard(&paper), plate, "{case:?}");
    (paper, expected, inventory, Some(plate))
}

fn assert_all_over(least: u64, counts: &[u64]) {
    assert!(counts.iter().all(|count| *count > least), "{counts:?}");
}

#[test]
fn all_answer_as_the_paper_does() {
    let mut numbers = Numbers::default();
    let (mut card_1, mut card_2) = (Card1::default(), Card2::default());
    let (mut card_4, mut card_5) = (Card4::default(), Card5::default());
    let mut card_6 = Card6::default();
    let (mut compared, mut rows, mut blank) = (0, 0, 0);
    for index in 0..CASES {
        let case = case(SEED, index);
        let (paper, answers, inventory, Some(plate)) = same(&Trial::of(&case), &case) else {
            continue;
        };
        numbers.add(&answers, &plate, &inventory);
        if let Some(journal) = &paper.journal {
            card_5.add(journal, &inventory);
        }
        card_1.add(&case.calls, &answers);
        card_4.add(&case.calls, &answers);
        card_6.add(&case.calls, &answers);
        compared += 1;
        if let Ok(counts) = plate.answer {
            rows += counts.rows;
            blank += counts.blank;
            let (journal, lines) = (paper.journal.unwrap(), &plate.bytes[..counts.bytes]);
            card_2.add(&journal.sheet().unwrap(), lines);
            card_4.add_ends(&journal, lines);
            card_6.add_placard(&case.calls, &answers);
        }
    }
    // The cases are worth something only while they are spread well.
    assert!(compared > CASES * 99 / 100);
    assert_all_over(500, &numbers.0);
    assert_all_over(1_000, &card_1.0);
    assert_all_over(5_000, &card_2.0);
    assert_all_over(500, &card_4.calls);
    assert_all_over(500, &card_4.ends);
    assert_all_over(50, &card_5.0);
    card_6.assert_reached();
    assert!(rows > 300_000 && blank > rows / 5 && blank < rows / 2);
}

/// Every file of the cases, good or damaged, as the whole content of a buffer
/// and with something behind it.
#[test]
fn files_lent_as_they_are() {
    for index in 0..CASES {
        let case = case(SEED + 1, index);
        for trial in Trial::of_content(&case) {
            same(&trial, &case);
        }
    }
}

/// The call that adds an entry.
fn call_of(entry: &Entry) -> Call {
    match *entry {
        Entry::Weighing(w) => Call::Weigh(w),
        Entry::Sheet(s) => Call::Install(s),
        Entry::Change(c) => Call::Change(c),
        Entry::Paired(x) => Call::Pair(x),
        Entry::Seat(s) => Call::Seat(s),
    }
}

/// Weighings, sheets and seats in the same order, and from each weighing to the next or
/// the end the same changes the other way round, behind the sheets and seats that they
/// stood between; none where one of them is refused there.
fn turned(journal: &Journal) -> Option<Journal> {
    let is_weighing = |entry: &Entry| matches!(entry, Entry::Weighing(_) | Entry::Paired(_));
    let is_change = |entry: &&Entry| matches!(entry, Entry::Change(_));
    let mut turned = Journal::new();
    for run in journal.entries.chunk_by(|_, next| !is_weighing(next)) {
        let (changes, others): (Vec<&Entry>, Vec<&Entry>) = run.iter().partition(is_change);
        for entry in others.into_iter().chain(changes.into_iter().rev()) {
            if turned.call(&call_of(entry)) != 0 {
                return None;
            }
        }
    }
    Some(turned)
}

/// "Two records with equal weighing, sheet and seat entries in equal order, and from each
/// weighing to the next or the end the same changes in any order, all accepted, print the
/// same plate", and have the same equipment.
#[test]
fn the_order_of_changes_makes_no_difference() {
    let (mut moved, mut plates) = (0, 0);
    for index in 0..CASES {
        let case = case(SEED + 2, index);
        let trial = Trial {
            columns: [63; 3],
            plate: vec![0; 9_216],
            ..Trial::of(&case)
        };
        let (_, answers) = trial.run::<By<Fast>>();
        let last = answers.buffers.last().unwrap();
        let Some(journal) = front_file(last).and_then(|file| Journal::read(file).ok()) else {
            continue;
        };
        let Some(other) = turned(&journal).filter(|other| *other != journal) else {
            continue;
        };
        moved += 1;
        let [one, other] = [journal, other].map(|journal| By::<Fast>::found(&journal.file()));
        assert_eq!(one.centre(), other.centre(), "{case:?}");
        let [one_plate, other_plate] = [&one, &other].map(|lent| trial.placard(lent));
        assert_eq!(one_plate.answer, other_plate.answer, "{case:?}");
        assert_eq!(one_plate.bytes, other_plate.bytes, "{case:?}");
        plates += u64::from(one_plate.answer.is_ok());
        let [one, other] = [&one, &other].map(|lent| trial.equipment(lent));
        assert_eq!(one.answer, other.answer, "{case:?}");
        assert_eq!(one.columns, other.columns, "{case:?}");
    }
    assert!(moved > 3_000 && plates > 2_500, "{moved} {plates}");
}
