//! The proved library against the paper, on generated cases.
//!
//! `cargo run --release -p judge --bin compare -- [cases] [seed]`
//!
//! Each case is run four times: by the library, through its safe calls on lent
//! buffers; by the paper, with plain loops; by the direct functions; and by the
//! fast ones. Every number and every byte must be the same, of the record's buffer
//! after every call, of the placard's buffer, of the answers' buffers and of the
//! equipment's columns. The files that cases read back, good and damaged, are also
//! lent as a record's buffer. A difference is printed with all of its case and ends
//! the program with 1.

#![deny(unsafe_code)]

use judge::classes::{messages, CLASSES};
use judge::generate::{case, Case};
use judge::paper::Call;
use judge::run::WORK;
use judge::run::{Answers, By, Direct, Fast, Guarded, Inventory, Lent, Paper, Plate, Trial};
use library::Library;
use std::fmt::{self, Display, Formatter};
use std::panic::catch_unwind;
use std::process::ExitCode;

mod library;

/// The calls that write an answer or a count, with its place in sight.
///
/// The safe calls lend 24 bytes or a count of their own and give numbers back: neither
/// a shorter buffer nor what becomes of an answer can be tried through them.
#[allow(unsafe_code)]
mod raw {
    extern "C" {
        fn nodhulika_centre(
            buffer: *const u8,
            buffer_length: usize,
            answer: *mut u8,
            answer_length: usize,
        ) -> u64;

        fn nodhulika_placard(
            buffer: *const u8,
            buffer_length: usize,
            out: *mut u8,
            out_length: usize,
            answer: *mut u8,
            answer_length: usize,
        ) -> u64;

        fn nodhulika_equipment(
            buffer: *const u8,
            buffer_length: usize,
            arms: *mut i64,
            arms_length: usize,
            weights: *mut i64,
            weights_length: usize,
            nonlifting: *mut i64,
            nonlifting_length: usize,
            count: *mut u64,
        ) -> u64;
    }

    /// The centre's number.
    pub fn centre(buffer: &[u8], answer: &mut [u8]) -> u64 {
        // SAFETY: pointers and lengths are those of two slices, and the one that
        // is written is exclusive.
        unsafe {
            nodhulika_centre(
                buffer.as_ptr(),
                buffer.len(),
                answer.as_mut_ptr(),
                answer.len(),
            )
        }
    }

    /// The placard's number.
    pub fn placard(buffer: &[u8], out: &mut [u8], answer: &mut [u8]) -> u64 {
        // SAFETY: pointers and lengths are those of three slices, and the two
        // that are written are exclusive.
        unsafe {
            nodhulika_placard(
                buffer.as_ptr(),
                buffer.len(),
                out.as_mut_ptr(),
                out.len(),
                answer.as_mut_ptr(),
                answer.len(),
            )
        }
    }

    /// The equipment's number.
    pub fn equipment(buffer: &[u8], columns: [&mut [i64]; 3], count: &mut u64) -> u64 {
        let [arms, weights, nonlifting] = columns;
        // SAFETY: pointers and lengths are those of four slices and of a number, and
        // the four that are written are exclusive.
        unsafe {
            nodhulika_equipment(
                buffer.as_ptr(),
                buffer.len(),
                arms.as_mut_ptr(),
                arms.len(),
                weights.as_mut_ptr(),
                weights.len(),
                nonlifting.as_mut_ptr(),
                nonlifting.len(),
                count,
            )
        }
    }
}

// ---- The buffers of the answers ----

/// Bytes of an answer, and what its buffer is filled with.
const ANSWER: usize = 24;
const ANSWER_FILL: u8 = 0xe7;

/// Lengths of the answer's buffer: a byte too few, just enough, and more.
const ANSWER_LENGTHS: [usize; 3] = [ANSWER - 1, ANSWER, ANSWER + 8];

/// The number of refusal where a buffer is too short.
const SHORT: u64 = 11;

/// The number that a call must give and the answer's buffer that it must leave,
/// from its answer where it has room.
fn due(answer: Result<[u64; 3], u64>, length: usize) -> (u64, Vec<u8>) {
    let mut bytes = vec![ANSWER_FILL; length];
    match (answer, bytes.get_mut(..ANSWER)) {
        (Err(number), _) => (number, bytes),
        (Ok(_), None) => (SHORT, bytes),
        (Ok(numbers), Some(front)) => {
            front.copy_from_slice(numbers.map(u64::to_be_bytes).as_flattened());
            (0, bytes)
        }
    }
}

/// Whether the centre's answer is written as it must be.
fn centre_is_written(record: &[u8], answers: &Answers, length: usize) -> bool {
    let numbers = answers
        .centre
        .map(|centre| [centre.total, centre.moment as u64, centre.centre as u64]);
    let (number, bytes) = due(numbers, length);
    let mut answer = Guarded::new(&vec![ANSWER_FILL; length]);
    raw::centre(record, answer.inside_mut()) == number && answer.inside() == bytes && answer.holds()
}

/// Whether the placard and its answer are written as they must be.
fn placard_is_written(record: &[u8], trial: &Trial, plate: &Plate, length: usize) -> bool {
    let numbers = plate
        .answer
        .map(|counts| [counts.bytes, counts.rows, counts.blank].map(|count| count as u64));
    let (number, bytes) = due(numbers, length);
    let lines = if number == 0 {
        &plate.bytes
    } else {
        &trial.plate
    };
    let mut out = Guarded::new(&trial.plate);
    let mut answer = Guarded::new(&vec![ANSWER_FILL; length]);
    raw::placard(record, out.inside_mut(), answer.inside_mut()) == number
        && answer.inside() == bytes
        && answer.holds()
        && out.inside() == lines
        && out.holds()
}

/// What a count is before the call.
const COUNT_FILL: u64 = u64::MAX;

/// Whether the count is written where the equipment is accepted, and only there, and
/// the columns as they must be.
fn equipment_is_written(record: &[u8], trial: &Trial, inventory: &Inventory) -> bool {
    let (number, due) = match inventory.answer {
        Ok(count) => (0, count as u64),
        Err(number) => (number, COUNT_FILL),
    };
    let mut columns = trial.lent_columns();
    let mut count = COUNT_FILL;
    let lent = columns.each_mut().map(Guarded::inside_mut);
    raw::equipment(record, lent, &mut count) == number
        && count == due
        && columns == inventory.columns
}

// ---- A trial on four sides ----

/// What one side answers; its placard is left out where it takes too long.
struct Side {
    name: &'static str,
    answers: Answers,
    plate: Option<Plate>,
    inventory: Inventory,
}

impl Side {
    fn run<L: Lent>(name: &'static str, trial: &Trial, quick: fn(&L) -> bool) -> (L, Side) {
        let (lent, answers) = trial.run::<L>();
        let plate = quick(&lent).then(|| trial.placard(&lent));
        let side = Side {
            name,
            answers,
            plate,
            inventory: trial.equipment(&lent),
        };
        (lent, side)
    }
}

/// What all sides answer, and what is not as it must be.
struct Outcome {
    library: Side,
    paper: Side,
    direct: Side,
    fast: Side,
    /// Whether the record has a seat in force in the end.
    seat: bool,
    faults: Vec<String>,
}

impl Outcome {
    fn of(trial: &Trial) -> Outcome {
        let (lent, library) = Side::run::<By<Library>>("library", trial, |_| true);
        let (record, paper) = Side::run::<Paper>("paper", trial, |paper| paper.work() <= WORK);
        let (_, direct) = Side::run::<By<Direct>>("direct", trial, |_| true);
        let (_, fast) = Side::run::<By<Fast>>("fast", trial, |_| true);
        let mut outcome = Outcome {
            library,
            paper,
            direct,
            fast,
            seat: record
                .journal
                .is_some_and(|journal| journal.seat().is_some()),
            faults: Vec::new(),
        };
        outcome.compare();
        outcome.look_beside(trial, &lent);
        outcome
    }

    fn sides(&self) -> [&Side; 4] {
        [&self.library, &self.paper, &self.direct, &self.fast]
    }

    /// The library's answers against the others'.
    fn compare(&mut self) {
        for side in [&self.paper, &self.direct, &self.fast] {
            if side.answers != self.library.answers {
                self.faults
                    .push(format!("calls, library and {}", side.name));
            }
            if side.plate.is_some() && side.plate != self.library.plate {
                self.faults
                    .push(format!("placard, library and {}", side.name));
            }
            if side.inventory != self.library.inventory {
                self.faults
                    .push(format!("equipment, library and {}", side.name));
            }
        }
    }

    /// The library's writes: beside a record's buffer, and to those of answers.
    fn look_beside(&mut self, trial: &Trial, lent: &By<Library>) {
        if !lent.guards_hold() {
            self.faults.push("bytes beside the record's buffer".into());
        }
        let Side {
            answers,
            plate,
            inventory,
            ..
        } = &self.direct;
        if !inventory.columns.iter().all(Guarded::holds) {
            self.faults.push("elements beside a column".into());
        }
        if !equipment_is_written(lent.buffer(), trial, inventory) {
            self.faults.push("equipment with its count".into());
        }
        for length in ANSWER_LENGTHS {
            if !centre_is_written(lent.buffer(), answers, length) {
                self.faults
                    .push(format!("centre into an answer of {length} bytes"));
            }
            if let Some(plate) = plate {
                if !placard_is_written(lent.buffer(), trial, plate, length) {
                    self.faults
                        .push(format!("placard with an answer of {length} bytes"));
                }
            }
        }
    }
}

// ---- A difference in full ----

fn hex(bytes: &[u8]) -> String {
    bytes.iter().map(|byte| format!("{byte:02x}")).collect()
}

/// A case and all that was answered to it.
struct Report<'a> {
    seed: u64,
    index: u64,
    case: &'a Case,
    trial: &'a Trial<'a>,
    outcome: &'a Outcome,
}

impl Report<'_> {
    /// What each side answers to one question.
    fn answers<T: fmt::Debug>(
        &self,
        f: &mut Formatter,
        question: &str,
        answer: impl Fn(&Side) -> T,
    ) -> fmt::Result {
        writeln!(f, "{question}")?;
        for side in self.outcome.sides() {
            writeln!(f, "    {:8} {:?}", side.name, answer(side))?;
        }
        Ok(())
    }

    /// The record's buffer on each side after so many calls, where it differs.
    fn buffers(&self, f: &mut Formatter, calls: usize) -> fmt::Result {
        let buffers = self
            .outcome
            .sides()
            .map(|side| &side.answers.buffers[calls]);
        if buffers.iter().all(|buffer| *buffer == buffers[0]) {
            return writeln!(f, "    the same buffer");
        }
        for (side, buffer) in self.outcome.sides().into_iter().zip(buffers) {
            writeln!(f, "    {:8} buffer {}", side.name, hex(buffer))?;
        }
        Ok(())
    }
}

impl Display for Report<'_> {
    fn fmt(&self, f: &mut Formatter) -> fmt::Result {
        let Report { trial, case, .. } = self;
        writeln!(f, "difference: {}", self.outcome.faults.join("; "))?;
        write!(f, "kind {}, seed {}, ", case.kind, self.seed)?;
        writeln!(f, "index {}, fill {:#04x}", self.index, case.fill)?;
        writeln!(f, "buffer as lent: {}", hex(&trial.buffer))?;
        self.answers(f, "fresh", |side| side.answers.fresh)?;
        self.buffers(f, 0)?;
        for (i, call) in trial.calls.iter().enumerate() {
            let question = format!("call {}: {call:?}", i + 1);
            self.answers(f, &question, |side| side.answers.numbers[i])?;
            self.buffers(f, i + 1)?;
        }
        self.answers(f, "check", |side| side.answers.check)?;
        self.answers(f, "centre", |side| side.answers.centre)?;
        let question = format!("placard into {} bytes", trial.plate.len());
        self.answers(f, &question, |side| {
            side.plate.as_ref().map(|plate| plate.answer)
        })?;
        for side in self.outcome.sides() {
            if let Some(plate) = &side.plate {
                let bytes = plate.bytes.escape_ascii();
                writeln!(f, "    {:8} placard {bytes}", side.name)?;
                writeln!(f, "    {:8} record {}", side.name, hex(&plate.record))?;
            }
        }
        let question = format!("equipment into {:?} elements", trial.columns);
        self.answers(f, &question, |side| side.inventory.answer)?;
        for side in self.outcome.sides() {
            let columns = side.inventory.columns.each_ref().map(Guarded::inside);
            writeln!(f, "    {:8} columns {columns:?}", side.name)?;
        }
        Ok(())
    }
}

// ---- All cases ----

/// Where a file has its count of entries, and that of a full record.
const COUNT: usize = 5;
const MOST_ENTRIES: u8 = 64;

/// What was compared.
#[derive(Default)]
struct Tally {
    cases: u64,
    /// Files lent as they are.
    found: u64,
    calls: u64,
    /// Weighings by an indicator, those that were accepted, and those of method 4 among
    /// them.
    indicated: [u64; 3],
    /// Messages of each class in weighings that were accepted and in those that were
    /// refused.
    classes: [[u64; 2]; CLASSES.len()],
    /// 13, 14 and 9 that were given to them on a full record.
    full: [u64; 3],
    /// Placards given, those with a seat in force, and their rows.
    placards: u64,
    seats: u64,
    rows: u64,
    /// Placards that took plain loops too long.
    direct_only: u64,
    /// Equipment given, its arms, and those with a net of nought.
    inventories: u64,
    arms: u64,
    noughts: u64,
    /// How often each number was given by calls, centres, placards and equipment.
    numbers: [[u64; 4]; 15],
}

impl Tally {
    fn add(&mut self, trial: &Trial, outcome: &Outcome) {
        let Side {
            answers,
            plate,
            inventory,
            ..
        } = &outcome.library;
        self.cases += u64::from(trial.fresh);
        self.found += u64::from(!trial.fresh);
        self.calls += answers.numbers.len() as u64;
        self.direct_only += u64::from(outcome.paper.plate.is_none());
        for number in answers.fresh.iter().chain(&answers.numbers) {
            self.numbers[*number as usize][0] += 1;
        }
        self.add_indicated(trial, answers);
        self.numbers[answers.centre.err().unwrap_or(0) as usize][1] += 1;
        if let Some(plate) = plate {
            self.numbers[plate.answer.err().unwrap_or(0) as usize][2] += 1;
            if let Ok(counts) = plate.answer {
                self.placards += 1;
                self.seats += u64::from(outcome.seat);
                self.rows += counts.rows as u64;
            }
        }
        self.numbers[inventory.answer.err().unwrap_or(0) as usize][3] += 1;
        if let Ok(count) = inventory.answer {
            let [_, weights, _] = inventory.columns.each_ref().map(Guarded::inside);
            self.inventories += 1;
            self.arms += count as u64;
            self.noughts += weights.iter().filter(|weight| **weight == 0).count() as u64;
        }
    }
}

impl Tally {
    fn add_indicated(&mut self, trial: &Trial, answers: &Answers) {
        let numbers = answers.numbers.iter().zip(&answers.buffers);
        for (call, (number, before)) in trial.calls.iter().zip(numbers) {
            let Call::Indicate(x) = call else {
                continue;
            };
            let accepted = *number == 0;
            self.indicated[0] += 1;
            self.indicated[1] += u64::from(accepted);
            self.indicated[2] += u64::from(accepted && x.m == 4);
            for (counts, (_, is_of)) in self.classes.iter_mut().zip(CLASSES) {
                let of = messages(x).into_iter().filter(|message| is_of(message));
                counts[usize::from(!accepted)] += of.count() as u64;
            }
            let is_full = before.get(COUNT) == Some(&MOST_ENTRIES);
            for (count, due) in self.full.iter_mut().zip([13, 14, 9]) {
                *count += u64::from(is_full && *number == due);
            }
        }
    }

    fn write_classes(&self, f: &mut Formatter) -> fmt::Result {
        writeln!(
            f,
            "\nmessages in weighings                  accepted      refused"
        )?;
        for ((name, _), [accepted, refused]) in CLASSES.iter().zip(self.classes) {
            writeln!(f, "{name:34} {accepted:12} {refused:12}")?;
        }
        let [unsteady, load, full] = self.full;
        writeln!(f, "on a full record 13: {unsteady}, 14: {load}, 9: {full}")
    }
}

impl Display for Tally {
    fn fmt(&self, f: &mut Formatter) -> fmt::Result {
        writeln!(f, "cases                   {:12}", self.cases)?;
        writeln!(f, "files lent as they are  {:12}", self.found)?;
        writeln!(f, "calls                   {:12}", self.calls)?;
        let [indicated, accepted, turned] = self.indicated;
        writeln!(f, "  by an indicator       {indicated:12}")?;
        writeln!(f, "    accepted            {accepted:12}")?;
        writeln!(f, "      by method 4       {turned:12}")?;
        writeln!(f, "placards                {:12}", self.placards)?;
        writeln!(f, "  with a seat           {:12}", self.seats)?;
        writeln!(f, "  with direct only      {:12}", self.direct_only)?;
        writeln!(f, "rows                    {:12}", self.rows)?;
        writeln!(f, "equipment               {:12}", self.inventories)?;
        writeln!(f, "arms                    {:12}", self.arms)?;
        writeln!(f, "  with a net of nought  {:12}", self.noughts)?;
        writeln!(
            f,
            "\nnumber        calls      centres     placards    equipment"
        )?;
        for (number, counts) in self.numbers.iter().enumerate() {
            let [calls, centres, placards, equipment] = counts;
            writeln!(
                f,
                "{number:6} {calls:12} {centres:12} {placards:12} {equipment:12}"
            )?;
        }
        self.write_classes(f)
    }
}

/// Compares all cases of a seed; the first difference, in full.
fn compare(cases: u64, seed: u64) -> Result<Tally, String> {
    let mut tally = Tally::default();
    for index in 0..cases {
        let case = &case(seed, index);
        let mut trials = Trial::of_content(case);
        trials.push(Trial::of(case));
        for trial in &trials {
            // A number that the safe calls do not know makes them panic.
            let outcome = &catch_unwind(|| Outcome::of(trial))
                .map_err(|_| format!("a panic, seed {seed}, index {index}, {case:?}\n"))?;
            if !outcome.faults.is_empty() {
                let report = Report {
                    seed,
                    index,
                    case,
                    trial,
                    outcome,
                };
                return Err(report.to_string());
            }
            tally.add(trial, outcome);
        }
    }
    Ok(tally)
}

fn main() -> ExitCode {
    let arguments: Result<Vec<u64>, _> = std::env::args().skip(1).map(|a| a.parse()).collect();
    let (cases, seed) = match arguments.as_deref() {
        Ok([]) => (200_000, 1),
        Ok([cases]) => (*cases, 1),
        Ok([cases, seed]) => (*cases, *seed),
        _ => {
            eprintln!("usage: compare [cases] [seed]");
            return ExitCode::from(2);
        }
    };
    match compare(cases, seed) {
        Ok(tally) => {
            println!("{tally}\nno difference");
            ExitCode::SUCCESS
        }
        Err(report) => {
            print!("{report}");
            ExitCode::FAILURE
        }
    }
}
