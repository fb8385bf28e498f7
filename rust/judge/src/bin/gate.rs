//! Writes stored cases for a program that tries the library: what it reads, and
//! what it must print.
//!
//! `cargo run --release -p judge --bin gate -- DIR`
//!
//! What must be printed is worked out by the paper with plain loops alone, never
//! by the library. DIR/stdin has a line for each action, its numbers in decimal:
//!
//! | line | action |
//! |---|---|
//! | `Fresh N` | a case begins: a buffer of N bytes, all AA, and a fresh record at its front |
//! | `Lent HEX` | these bytes at the front of the buffer, as they are: no call, and no answer |
//! | `weighing`, `paired`, `sheet`, `change`, `seat`, `undo` | the call, with its numbers as in a logbook |
//! | `Indicated M P RATED ZERO Q RATED ZERO P2 RATED ZERO Q2 RATED ZERO A B N` | a weighing by an indicator: each message in digits of sixteen, `-` where it has no bytes, and behind it the patterns of its cell's two floats, sixteen digits of sixteen each |
//! | `Read HEX` | reading back these bytes; none where nothing stands behind `Read ` |
//! | `Check` | whether a record stands |
//! | `Centre` | the centre of gravity |
//! | `Equipment A B C` | the equipment by station into columns of so many elements, all −1000000007 |
//! | `Placard N` | the placard into a buffer of N bytes, all AA, which ends the case |
//!
//! The input is one of whole cases in blocks of 65,536 bytes, filled up with
//! empty lines: the program takes it block by block.
//!
//! DIR/stdout has a line for each case, its answers in order: for `Fresh` and
//! the calls their numbers; for `Check` its number and the sum of the record's
//! buffer; for `Centre` its number and, where that is 0, total, moment and
//! centre; for `Equipment` its number, where that is 0 the count of arms, and always
//! the sum of its columns, one behind the other; for `Placard` its number, where that
//! is 0 bytes, rows and blank rows, and always the sum of its buffer. The sum of bytes
//! begins with 0 and is, with each byte x, sum % 1000003 * 257 + x. That of elements is
//! the same with what each leaves over 1000003, 0 to 1000002.
//!
//! # Which cases
//!
//! The eight kinds take turns, each giving its cases in the generator's order.
//! Most cases are short, but lists, changes, files and edges have long ones that
//! would fill the input with a few hundred cases. So each kind may give so many
//! cases over a usual length of text, the first that it has, and some whose equipment
//! has as many arms as there can be; further ones are left out, and the kind's next
//! case takes the place. Left out too is a case
//! whose placard would take plain loops too long. Behind them stand cases by hand, of
//! single readings by an indicator. A number of more than eighteen
//! digits becomes eighteen nines, which is as far out of every range. A NaN of a cell
//! becomes the one that has no more than its quiet bit.
//!
//! Of every second case with files the last one is not read back but lent as it
//! is, and calls are made on it: a file of version 1 stays one until a call
//! changes it.

#![forbid(unsafe_code)]

use judge::generate::{case, Case};
use judge::paper::{Call, Cell, Centre, Change, Counts, Indicated, Message};
use judge::paper::{Paired, Seat, Sheet, Weighing};
use judge::run::{later, Answers, Guarded, Inventory, Paper, Plate, Trial, BEHIND};
use std::collections::BTreeMap;
use std::path::Path;
use std::process::ExitCode;
use std::{env, fs, io};

const SEED: u64 = 2;

/// Kinds of the generator, which take turns over its indices.
const KINDS: usize = 8;

/// Cases of each kind.
const CASES: usize = 310;

/// Bytes of text that a case usually has, how many cases of a kind may have more, and
/// how many more of those whose equipment has the most arms.
const USUAL_TEXT: usize = 720;
const LONG_CASES: usize = 19;
const FULL_CASES: usize = 3;

/// The most arms of the equipment of a record.
const MOST_ARMS: usize = 63;

/// Most bytes of the whole input, of a block of it, of a file that is read back,
/// and of the buffers; and most elements of a column.
const MOST_INPUT: usize = 16 * BLOCK;
const BLOCK: usize = 65_536;
const MOST_FILE: usize = 4_096;
const MOST_ROOM: usize = 4_096;
const MOST_PLATE: usize = 9_400;
const MOST_COLUMN: usize = 70;

/// Tests of the limits that a placard may take.
const MOST_WORK: u64 = 20_000_000;

/// What the buffers are filled with, and bytes of a fresh record.
const FILL: u8 = 0xaa;
const FRESH: usize = 6;

// ---- Input ----

/// The greatest number of eighteen digits.
const EIGHTEEN_NINES: u64 = 999_999_999_999_999_999;

fn cut(number: u64) -> u64 {
    number.min(EIGHTEEN_NINES)
}

fn cut_signed(number: i64) -> i64 {
    let most = EIGHTEEN_NINES as i64;
    number.clamp(-most, most)
}

/// The call with no number of more than eighteen digits.
fn cut_call(call: Call) -> Call {
    match call {
        Call::Weigh(w) => Call::Weigh(Weighing {
            m: cut(w.m),
            p: cut(w.p),
            q: cut(w.q),
            a: cut_signed(w.a),
            b: cut(w.b),
            n: cut(w.n),
        }),
        Call::Pair(x) => Call::Pair(Paired {
            m: cut(x.m),
            p: cut(x.p),
            q: cut(x.q),
            p2: cut(x.p2),
            q2: cut(x.q2),
            a: cut_signed(x.a),
            b: cut(x.b),
            n: cut(x.n),
        }),
        Call::Indicate(x) => Call::Indicate(cut_indicated(x)),
        Call::Install(s) => Call::Install(cut_sheet(s)),
        Call::Change(change) => Call::Change(Change {
            c: cut_signed(change.c),
            arm: cut_signed(change.arm),
            flag: cut(change.flag),
        }),
        Call::Seat(seat) => Call::Seat(Seat {
            lower: cut_signed(seat.lower),
            higher: cut_signed(seat.higher),
        }),
        Call::Undo | Call::Read(_) => call,
    }
}

fn cut_indicated(x: Indicated) -> Indicated {
    let cut_message = |message: Message| Message {
        cell: Cell {
            rated: plain_nan(message.cell.rated),
            zero: plain_nan(message.cell.zero),
        },
        ..message
    };
    Indicated {
        m: cut(x.m),
        p: cut_message(x.p),
        q: cut_message(x.q),
        p2: cut_message(x.p2),
        q2: cut_message(x.q2),
        a: cut_signed(x.a),
        b: cut(x.b),
        n: cut(x.n),
    }
}

/// The pattern of a float, where it is a NaN that of a plain one: a program need not be
/// able to lend another.
fn plain_nan(pattern: u64) -> u64 {
    const SIGN: u64 = 1 << 63;
    const INFINITE: u64 = 0x7ff << 52;
    const NAN: u64 = 0x7ff8 << 48;
    if pattern & !SIGN > INFINITE {
        NAN
    } else {
        pattern
    }
}

fn cut_sheet(s: Sheet) -> Sheet {
    Sheet {
        fwd: cut_signed(s.fwd),
        aft: cut_signed(s.aft),
        dry: cut(s.dry),
        wet: cut(s.wet),
        nlp: cut(s.nlp),
        front_arm: cut_signed(s.front_arm),
        front_least: cut(s.front_least),
        front_most: cut(s.front_most),
        front_step: cut(s.front_step),
        rear_arm: cut_signed(s.rear_arm),
        rear_most: cut(s.rear_most),
        rear_step: cut(s.rear_step),
        water_arm: cut_signed(s.water_arm),
        capacity: cut(s.capacity),
        water_step: cut(s.water_step),
    }
}

fn sheet_line(s: &Sheet) -> String {
    let limits = format!("{} {} {} {} {}", s.fwd, s.aft, s.dry, s.wet, s.nlp);
    let (least, most) = (s.front_least, s.front_most);
    let front = format!("{} {least} {most} {}", s.front_arm, s.front_step);
    let rear = format!("{} {} {}", s.rear_arm, s.rear_most, s.rear_step);
    let water = format!("{} {} {}", s.water_arm, s.capacity, s.water_step);
    format!("sheet {limits} {front} {rear} {water}")
}

fn message_words(message: &Message) -> String {
    let bytes = match message.bytes.as_slice() {
        [] => "-".to_string(),
        bytes => hex(bytes),
    };
    let Cell { rated, zero } = message.cell;
    format!("{bytes} {rated:016x} {zero:016x}")
}

fn indicated_line(x: &Indicated) -> String {
    let [p, q, p2, q2] = [&x.p, &x.q, &x.p2, &x.q2].map(message_words);
    format!(
        "Indicated {} {p} {q} {p2} {q2} {} {} {}",
        x.m, x.a, x.b, x.n
    )
}

fn call_line(call: &Call) -> String {
    match call {
        Call::Weigh(w) => {
            let Weighing { m, p, q, a, b, n } = w;
            format!("weighing {m} {p} {q} {a} {b} {n}")
        }
        Call::Pair(x) => {
            let first = format!("{} {} {}", x.m, x.p, x.q);
            format!("paired {first} {} {} {} {} {}", x.p2, x.q2, x.a, x.b, x.n)
        }
        Call::Indicate(x) => indicated_line(x),
        Call::Install(s) => sheet_line(s),
        Call::Change(Change { c, arm, flag }) => format!("change {c} {arm} {flag}"),
        Call::Seat(Seat { lower, higher }) => format!("seat {lower} {higher}"),
        Call::Undo => "undo".to_string(),
        Call::Read(bytes) => format!("Read {}", hex(bytes)),
    }
}

fn hex(bytes: &[u8]) -> String {
    bytes.iter().map(|byte| format!("{byte:02x}")).collect()
}

/// The bytes at the front of a buffer that are not as they are filled in, the
/// place of a fresh record's at least.
fn front(buffer: &[u8]) -> &[u8] {
    let filled = buffer.iter().rev().take_while(|byte| **byte == FILL);
    &buffer[..(buffer.len() - filled.count()).max(FRESH)]
}

/// The lines of a case.
fn input(trial: &Trial) -> String {
    let mut lines = vec![format!("Fresh {}", trial.buffer.len())];
    if !trial.fresh {
        lines.push(format!("Lent {}", hex(front(&trial.buffer))));
    }
    lines.extend(trial.calls.iter().map(call_line));
    lines.push("Check".to_string());
    lines.push("Centre".to_string());
    let [arms, weights, nonlifting] = trial.columns;
    lines.push(format!("Equipment {arms} {weights} {nonlifting}"));
    lines.push(format!("Placard {}\n", trial.plate.len()));
    lines.join("\n")
}

// ---- Output ----

/// The sum of bytes.
fn sum(bytes: &[u8]) -> u64 {
    bytes
        .iter()
        .fold(0, |sum, byte| sum % 1_000_003 * 257 + u64::from(*byte))
}

/// The sum of elements of columns, one behind the other.
fn sum_of_columns(columns: [&[i64]; 3]) -> u64 {
    const MODULUS: u64 = 1_000_003;
    let rest = |element: &i64| element.rem_euclid(MODULUS as i64) as u64;
    columns
        .concat()
        .iter()
        .fold(0, |sum, element| sum % MODULUS * 257 + rest(element))
}

/// The line of answers to a case. What is lent has room for the fresh record that
/// it takes the place of.
fn output(answers: &Answers, inventory: &Inventory, plate: &Plate) -> String {
    let mut words: Vec<String> = Vec::new();
    let mut say = |number: u64| words.push(number.to_string());
    say(answers.fresh.unwrap_or(0));
    answers.numbers.iter().copied().for_each(&mut say);
    say(answers.check);
    say(sum(&plate.record));
    match answers.centre {
        Ok(Centre {
            total,
            moment,
            centre,
        }) => words.push(format!("0 {total} {moment} {centre}")),
        Err(number) => words.push(number.to_string()),
    }
    match inventory.answer {
        Ok(count) => words.push(format!("0 {count}")),
        Err(number) => words.push(number.to_string()),
    }
    let columns = inventory.columns.each_ref().map(Guarded::inside);
    words.push(sum_of_columns(columns).to_string());
    match plate.answer {
        Ok(Counts { bytes, rows, blank }) => words.push(format!("0 {bytes} {rows} {blank}")),
        Err(number) => words.push(number.to_string()),
    }
    words.push(format!("{}\n", sum(&plate.bytes)));
    words.join(" ")
}

// ---- Choosing ----

/// A case with its text and what was worked out for it.
struct Stored {
    kind: &'static str,
    calls: Vec<Call>,
    /// The record's buffer, where a file is lent as it is.
    lent: Option<Vec<u8>>,
    answers: Answers,
    inventory: Inventory,
    plate: Plate,
    input: String,
}

/// The buffer with the file that every second case with files reads back last,
/// or none.
fn lent(case: &Case, index: u64) -> Option<Vec<u8>> {
    if case.kind != "files" || (index / KINDS as u64).is_multiple_of(2) {
        return None;
    }
    let content = case.content()?;
    Some([content, &[FILL; BEHIND]].concat())
}

impl Stored {
    /// The generator's case; none where plain loops would take too long.
    fn of(index: u64) -> Option<Stored> {
        let case = case(SEED, index);
        let lent = lent(&case, index);
        Stored::of_case(case, lent)
    }

    /// A case, its last file lent where there is one; none where plain loops would take
    /// too long.
    fn of_case(case: Case, lent: Option<Vec<u8>>) -> Option<Stored> {
        let calls: Vec<Call> = match &lent {
            Some(_) => later(&case).to_vec(),
            None => case.calls.into_iter().map(cut_call).collect(),
        };
        let trial = Trial {
            buffer: lent.clone().unwrap_or_else(|| vec![FILL; case.room]),
            fresh: lent.is_none(),
            calls: &calls,
            plate: vec![FILL; case.plate],
            columns: case.columns,
        };
        let (paper, answers) = trial.run::<Paper>();
        if paper.work() > MOST_WORK {
            return None;
        }
        let (plate, input) = (trial.placard(&paper), input(&trial));
        let inventory = trial.equipment(&paper);
        Some(Stored {
            kind: case.kind,
            calls,
            lent,
            answers,
            inventory,
            plate,
            input,
        })
    }

    /// Whether the program that reads the input has room for it.
    fn fits(&self) -> bool {
        let record = self.plate.record.len();
        let plate = self.plate.bytes.len();
        let columns = self.inventory.columns.iter().map(Guarded::inside);
        record <= MOST_ROOM
            && plate <= MOST_PLATE
            && columns
                .map(<[i64]>::len)
                .all(|length| length <= MOST_COLUMN)
            && self.input.len() <= BLOCK
            && self.files().all(|file| file.len() <= MOST_FILE)
    }

    /// The files that are read back.
    fn files(&self) -> impl Iterator<Item = &[u8]> {
        self.calls.iter().filter_map(|call| match call {
            Call::Read(bytes) => Some(bytes.as_slice()),
            _ => None,
        })
    }
}

/// The cases of one kind in turn.
struct Kind {
    /// The index of the next case.
    index: u64,
    /// How many more may be long, and how many more with the most arms.
    long: usize,
    full: usize,
}

impl Kind {
    /// The next case that is kept.
    fn next(&mut self) -> Stored {
        loop {
            let stored = Stored::of(self.index).filter(Stored::fits);
            self.index += KINDS as u64;
            match stored {
                Some(stored) if stored.input.len() <= USUAL_TEXT => return stored,
                Some(stored) if self.full > 0 && stored.inventory.answer == Ok(MOST_ARMS) => {
                    self.full -= 1;
                    return stored;
                }
                Some(stored) if self.long > 0 => {
                    self.long -= 1;
                    return stored;
                }
                _ => {}
            }
        }
    }
}

/// All stored cases, the kinds taking turns.
fn choose() -> Vec<Stored> {
    let mut kinds: [Kind; KINDS] = std::array::from_fn(|kind| Kind {
        index: kind as u64,
        long: LONG_CASES,
        full: FULL_CASES,
    });
    let generated = (0..CASES * KINDS).map(|turn| kinds[turn % KINDS].next());
    let by_hand = by_hand().into_iter();
    let by_hand = by_hand.filter_map(|case| Stored::of_case(case, None));
    generated.chain(by_hand).collect()
}

// ---- By hand ----

/// Readings with the zero of their cell, in kilograms: halfway between two grams or nearly
/// so, at a bound, and below their zero by less than a gram.
const READINGS: [[f64; 2]; 22] = [
    [0.0025, 0.0],
    [0.0005, 0.0],
    [0.0055, 0.0],
    [0.0625, 0.0],
    [0.1875, 0.0],
    [1999.9375, 0.0],
    [2_000.0, 0.0],
    [2_000.0_f64.next_up(), 0.0],
    [2_000.0, 2_000.0],
    [2_000.0, 2_000.0_f64.next_up()],
    [1.0001, 1.0002],
    [0.0004, 0.0005],
    [0.0005, 0.0004],
    [0.0625, 0.1875],
    [-0.0, -0.0],
    [f64::MIN_POSITIVE, 0.0],
    [-f64::MIN_POSITIVE, 0.0],
    [1.0, -f64::MIN_POSITIVE],
    [f64::INFINITY, 0.0],
    [1.0, f64::NEG_INFINITY],
    [f64::NAN, 1.0],
    [1.0, f64::NAN],
];

/// A weighing by an indicator in which a message is q; p leaves it as much room as a
/// method can.
fn weighing_with(m: u64, q: Message) -> Call {
    let sent = |reading: f64, zero: f64| on_cell(reading, 2_500.0, zero);
    Call::Indicate(Indicated {
        m,
        p: match m {
            4 => sent(2_000.0, 0.0),
            _ => sent(1.0, 1.0),
        },
        q,
        p2: sent(2.0, 1.0),
        q2: sent(0.0, 0.0),
        a: 0,
        b: 1,
        n: 0,
    })
}

fn on_cell(reading: f64, rated: f64, zero: f64) -> Message {
    let [rated, zero] = [rated, zero].map(f64::to_bits);
    Message::stable(reading.to_bits(), Cell { rated, zero })
}

/// Each reading in two slings, and turned round in method 4; on a cell that is rated for
/// just that, and for the float before.
fn by_hand() -> Vec<Case> {
    let calls = READINGS.map(|[reading, zero]| {
        [
            weighing_with(3, on_cell(reading, 2_500.0, zero)),
            weighing_with(4, on_cell(zero, 2_500.0, reading)),
            weighing_with(3, on_cell(reading, reading, zero)),
            weighing_with(3, on_cell(reading, reading.next_down(), zero)),
        ]
    });
    let case = |calls: &[Call]| Case {
        kind: "by hand",
        room: 300,
        calls: calls.to_vec(),
        plate: 0,
        fill: FILL,
        columns: [0; 3],
    };
    calls.as_flattened().chunks(8).map(case).collect()
}

// ---- Telling ----

/// The entries of a full record, where a file has its version and its count, and
/// the version that is no longer written.
const FULL: u8 = 64;
const VERSION: usize = 4;
const COUNT: usize = 5;
const OLD: u8 = 1;

/// How many there are of each kind and number, and of long ones.
#[derive(Default)]
struct Summary {
    kinds: BTreeMap<&'static str, usize>,
    /// Numbers of calls, checks, centres, placards and equipment.
    numbers: [[usize; 5]; 15],
    /// Equipment given by how many arms it has: none, one, up to 8, more, 63.
    arms: [usize; 5],
    /// Arms with a net of nought.
    noughts: usize,
    /// Cases of 60 calls and more.
    many_calls: usize,
    /// Paired weighings accepted and refused, and seats.
    pairs: [usize; 2],
    seats: [usize; 2],
    /// Cases with weighings by an indicator, and such weighings by their number: accepted,
    /// 13, 14 or another.
    indicated_cases: usize,
    indicated: [usize; 4],
    /// Full records read back.
    full_files: usize,
    /// Records of version 1 read back.
    old_files: usize,
    /// Records lent as they are, and those of version 1 among them.
    lent: usize,
    old_lent: usize,
}

impl Summary {
    fn add(&mut self, stored: &Stored) {
        let Stored {
            answers,
            inventory,
            plate,
            ..
        } = stored;
        *self.kinds.entry(stored.kind).or_default() += 1;
        for number in answers.fresh.iter().chain(&answers.numbers) {
            self.numbers[*number as usize][0] += 1;
        }
        self.numbers[answers.check as usize][1] += 1;
        self.numbers[answers.centre.err().unwrap_or(0) as usize][2] += 1;
        self.numbers[plate.answer.err().unwrap_or(0) as usize][3] += 1;
        self.numbers[inventory.answer.err().unwrap_or(0) as usize][4] += 1;
        if let Ok(count) = inventory.answer {
            let [_, weights, _] = inventory.columns.each_ref().map(Guarded::inside);
            self.noughts += weights.iter().filter(|weight| **weight == 0).count();
            let size = [0, 1, 8, 62].iter().filter(|most| count > **most).count();
            self.arms[size] += 1;
        }
        self.many_calls += usize::from(stored.calls.len() >= 60);
        self.add_calls(stored);
        let held = answers.check == 0;
        if let Some(file) = stored.lent.as_ref().filter(|_| held) {
            self.lent += 1;
            self.old_lent += usize::from(file[VERSION] == OLD);
        }
    }

    fn add_calls(&mut self, stored: &Stored) {
        let is_indicated = |call: &Call| matches!(call, Call::Indicate(_));
        self.indicated_cases += usize::from(stored.calls.iter().any(is_indicated));
        for (call, number) in stored.calls.iter().zip(&stored.answers.numbers) {
            match call {
                Call::Pair(_) => self.pairs[usize::from(*number != 0)] += 1,
                Call::Seat(_) => self.seats[usize::from(*number != 0)] += 1,
                Call::Indicate(_) => {
                    let which = [0, 13, 14].iter().position(|n| n == number);
                    self.indicated[which.unwrap_or(3)] += 1;
                }
                Call::Read(file) if *number == 0 => {
                    self.full_files += usize::from(file[COUNT] == FULL);
                    self.old_files += usize::from(file[VERSION] == OLD);
                }
                _ => {}
            }
        }
    }

    fn print(&self) {
        for (kind, cases) in &self.kinds {
            println!("{kind:10} {cases:6} cases");
        }
        println!("cases of 60 calls and more: {}", self.many_calls);
        let [accepted, refused] = self.pairs;
        println!("paired weighings: {accepted} accepted, {refused} refused");
        let [accepted, refused] = self.seats;
        println!("seats: {accepted} accepted, {refused} refused");
        let [accepted, unsteady, load, others] = self.indicated;
        let cases = self.indicated_cases;
        println!("cases with weighings by an indicator: {cases}");
        println!(
            "  {accepted} accepted, refused {unsteady} with 13, {load} with 14, {others} otherwise"
        );
        println!("full records read back: {}", self.full_files);
        println!("records of version 1 read back: {}", self.old_files);
        let (lent, old) = (self.lent, self.old_lent);
        println!("records lent as they are: {lent}, {old} of them of version 1");
        let [none, one, few, more, most] = self.arms;
        println!("equipment of no arm: {none}, of one: {one}, of 2 to 8: {few}, of 9 to 62: {more}, of 63: {most}");
        println!("arms with a net of nought: {}", self.noughts);
        println!("number    calls   checks  centres placards equipment");
        for (number, counts) in self.numbers.iter().enumerate() {
            let [calls, checks, centres, placards, equipment] = counts;
            println!("{number:6} {calls:8} {checks:8} {centres:8} {placards:8} {equipment:9}");
        }
    }
}

/// Puts a case behind the others, in a new block where it does not fit into the
/// last.
fn append(input: &mut String, case: &str) {
    let left = BLOCK - input.len() % BLOCK;
    if left < case.len() {
        input.push_str(&"\n".repeat(left));
    }
    input.push_str(case);
}

/// Writes both files and tells what is in them.
fn write(folder: &Path) -> io::Result<()> {
    let (mut input, mut expected) = (String::new(), String::new());
    let mut summary = Summary::default();
    for stored in choose() {
        summary.add(&stored);
        append(&mut input, &stored.input);
        expected.push_str(&output(&stored.answers, &stored.inventory, &stored.plate));
    }
    assert!(input.len() <= MOST_INPUT, "{} bytes of input", input.len());
    fs::create_dir_all(folder)?;
    fs::write(folder.join("stdin"), &input)?;
    fs::write(folder.join("stdout"), &expected)?;
    println!("stdin  {:8} bytes", input.len());
    println!("stdout {:8} bytes", expected.len());
    summary.print();
    Ok(())
}

fn main() -> ExitCode {
    let arguments: Vec<_> = env::args_os().skip(1).collect();
    let [folder] = arguments.as_slice() else {
        eprintln!("usage: gate DIR");
        return ExitCode::from(2);
    };
    match write(Path::new(folder)) {
        Ok(()) => ExitCode::SUCCESS,
        Err(error) => {
            eprintln!("{}: {error}", Path::new(folder).display());
            ExitCode::FAILURE
        }
    }
}

#[cfg(test)]
mod tests {
    use super::*;
    use judge::run::UNWRITTEN;

    /// The sum of three elements that were not written.
    const STAYS: u64 = 198_456_851;

    /// A case of one weighing, by hand.
    #[test]
    fn lines_of_a_case() {
        let calls = [
            Call::Undo,
            Call::Weigh(Weighing {
                m: 1,
                p: 2,
                q: 1,
                a: -50_001,
                b: 50_001,
                n: 0,
            }),
            Call::Read(vec![0x0a, 0xff]),
        ];
        let trial = Trial {
            buffer: vec![FILL; 28],
            fresh: true,
            calls: &calls,
            plate: vec![FILL; 1],
            columns: [1, 0, 2],
        };
        let lines = "Fresh 28\nundo\nweighing 1 2 1 -50001 50001 0\nRead 0aff\n\
                     Check\nCentre\nEquipment 1 0 2\nPlacard 1\n";
        assert_eq!(input(&trial), lines);
        let (paper, answers) = trial.run::<Paper>();
        let (inventory, plate) = (trial.equipment(&paper), trial.placard(&paper));
        let sum = sum(&plate.record);
        let line = format!("0 10 0 12 0 {sum} 0 4 -100002 -25000 0 0 {STAYS} 8 170\n");
        assert_eq!(output(&answers, &inventory, &plate), line);
    }

    /// A fresh record of version 1 that is lent, and weighed twice.
    #[test]
    fn lines_of_a_lent_case() {
        let calls = [Call::Pair(Paired {
            m: 1,
            p: 1,
            q: 0,
            p2: 2,
            q2: 1,
            a: -1,
            b: 1,
            n: 0,
        })];
        let mut buffer = vec![FILL; 36];
        buffer[..FRESH].copy_from_slice(&[0, 0, 0, 2, OLD, 0]);
        let trial = Trial {
            buffer,
            fresh: false,
            calls: &calls,
            plate: Vec::new(),
            columns: [0; 3],
        };
        let lines = "Fresh 36\nLent 000000020100\npaired 1 1 0 2 1 -1 1 0\n\
                     Check\nCentre\nEquipment 0 0 0\nPlacard 0\n";
        assert_eq!(input(&trial), lines);
        let (paper, answers) = trial.run::<Paper>();
        let (inventory, plate) = (trial.equipment(&paper), trial.placard(&paper));
        assert_eq!(plate.record[VERSION], 2);
        let sum = sum(&plate.record);
        let line = format!("0 0 0 {sum} 0 3 -2 -1 0 0 0 8 0\n");
        assert_eq!(output(&answers, &inventory, &plate), line);
    }

    /// Messages of several lengths, two of their cells with a NaN.
    #[test]
    fn line_of_an_indicator() {
        let [rated, zero] = [1.0_f64, -0.0].map(f64::to_bits);
        let message = |bytes: &[u8]| Message {
            bytes: bytes.to_vec(),
            cell: Cell { rated, zero },
        };
        let mut x = Indicated {
            m: u64::MAX,
            p: message(&[]),
            q: message(&[1, 0x0a]),
            p2: Message::stable(f64::INFINITY.to_bits(), Cell { rated, zero }),
            q2: message(&[0xff; 10]),
            a: -5,
            b: 6,
            n: 7,
        };
        x.p.cell.rated = 0xfff0_0000_0000_0001;
        x.q2.cell.zero = 0x7fff_ffff_ffff_ffff;
        let lines = "Indicated 999999999999999999 - 7ff8000000000000 8000000000000000 \
                     010a 3ff0000000000000 8000000000000000 \
                     017ff0000000000000 3ff0000000000000 8000000000000000 \
                     ffffffffffffffffffff 3ff0000000000000 7ff8000000000000 -5 6 7";
        assert_eq!(call_line(&cut_call(Call::Indicate(x))), lines);
    }

    /// One part ahead of the datum and two behind, one of them taken out again.
    #[test]
    fn lines_of_equipment() {
        let change = |c, arm, flag| Call::Change(Change { c, arm, flag });
        let (m, p, q, a, b, n) = (1, 100, 0, 0, 1, 50);
        let calls = [
            Call::Weigh(Weighing { m, p, q, a, b, n }),
            change(3, 7, 1),
            change(5, -7, 0),
            change(-3, 7, 0),
        ];
        let mut trial = Trial {
            buffer: vec![FILL; 100],
            fresh: true,
            calls: &calls,
            plate: Vec::new(),
            columns: [2, 3, 2],
        };
        let (paper, answers) = trial.run::<Paper>();
        let plate = trial.placard(&paper);
        let inventory = trial.equipment(&paper);
        let columns = inventory.columns.each_ref().map(Guarded::inside);
        assert_eq!(columns, [&[-7, 7][..], &[5, 0, UNWRITTEN], &[0, 3]]);
        let sum = sum_of_columns(columns);
        assert!(output(&answers, &inventory, &plate).contains(&format!(" 0 2 {sum} 8 ")));

        trial.columns = [2, 2, 1];
        let inventory = trial.equipment(&paper);
        let columns = inventory.columns.each_ref().map(Guarded::inside);
        assert_eq!(columns.concat(), [UNWRITTEN; 5]);
        let sum = sum_of_columns(columns);
        assert!(output(&answers, &inventory, &plate).contains(&format!(" 11 {sum} 8 ")));
    }

    #[test]
    fn the_sum_of_columns() {
        assert_eq!(sum_of_columns([&[], &[], &[]]), 0);
        assert_eq!(sum_of_columns([&[2], &[], &[-1]]), 2 * 257 + 1_000_002);
        assert_eq!(sum_of_columns([&[], &[1_000_003, 5], &[]]), 5);
    }

    #[test]
    fn what_is_lent_of_a_buffer() {
        assert_eq!(front(&[0, 1, FILL, 2, 3, 4, 5, FILL, FILL]).len(), 7);
        assert_eq!(front(&[FILL; 9]), [FILL; FRESH]);
    }

    #[test]
    fn no_case_crosses_a_block() {
        let mut input = "x".repeat(BLOCK - 3);
        append(&mut input, "Fresh 6\n");
        assert_eq!(input.len(), BLOCK + 8);
        assert!(input.ends_with("x\n\n\nFresh 6\n"));
        append(&mut input, "Check\n");
        assert!(input.ends_with("Fresh 6\nCheck\n"));
    }

    #[test]
    fn the_sum_of_bytes() {
        assert_eq!(sum(&[]), 0);
        assert_eq!(sum(&[1, 2]), 259);
        assert_eq!(sum(&[255, 255, 255]), (65_790 * 257) + 255);
        assert_eq!(sum(&[255; 4]), (65_790 * 257 + 255) % 1_000_003 * 257 + 255);
    }

    #[test]
    fn no_number_of_more_than_eighteen_digits() {
        let (c, arm, flag) = (i64::MIN, i64::MAX, u64::MAX);
        let line = call_line(&cut_call(Call::Change(Change { c, arm, flag })));
        let nines = "9".repeat(18);
        assert_eq!(line, format!("change -{nines} {nines} {nines}"));
        let (lower, higher) = (i64::MIN, i64::MAX);
        let line = call_line(&cut_call(Call::Seat(Seat { lower, higher })));
        assert_eq!(line, format!("seat -{nines} {nines}"));
    }
}
