//! The proved library against plain Rust: the same work timed side by side, in
//! one binary.
//!
//! `cargo run --release -p judge --bin bench` times it, and with
//! `-- --instructions` valgrind counts the instructions. Both print Markdown.
//!
//! The library is called through its safe calls on lent buffers, plain Rust is the
//! fast functions of this package: the same answers, as fast as safe Rust gives
//! them. Each line runs both sides in turn, in rounds of some milliseconds, so that
//! what else the machine does meets both; what counts is the ratio of each round.
//!
//! Each side works on records that it has written itself. So the instructions of
//! an archive from before seats can be counted as well, by the lines that it can run:
//! with `NODHULIKA_LIB_DIR` set to its folder, and with
//! `RUSTFLAGS="-C link-arg=-Wl,--defsym=nodhulika_seat=0"`; of one from before paired
//! weighings with the same argument for `nodhulika_weigh_paired` beside it. One from
//! before the equipment by station wants the argument for `nodhulika_equipment`, and
//! `NO_EQUIPMENT` set when the bench is run, to anything; one from before the indicator
//! that for `nodhulika_weigh_indicated`, and `NO_INDICATOR` set.

#![forbid(unsafe_code)]

use judge::direct::nets;
use judge::generate::{case, Case};
use judge::paper::{Call, Cell, Change, Columns, Counts, Indicated, Message};
use judge::paper::{Paired, Seat, Sheet, Weighing};
use judge::run::{front_file, Calls, Fast};
use library::Library;
use std::env;
use std::hint::black_box;
use std::io::ErrorKind;
use std::marker::PhantomData;
use std::process::{Command, ExitCode};
use std::time::{Duration, Instant};

mod library;

/// Rounds of a line, and how long each side takes in one of them at least. With
/// 31 rounds median and quartiles are values that were measured.
const ROUNDS: usize = 31;
const ROUND: Duration = Duration::from_millis(10);

/// The same for the points of a straight line, of which there are many.
const POINT_ROUND: Duration = Duration::from_millis(4);

// ---- The records ----

const LONGEST_FILE: usize = 3_910;
const LONGEST_PLACARD: usize = 9_216;
const MOST_ARMS: usize = 63;

/// A record that entries are put into, by the side that will work on it.
struct Builder<C> {
    buffer: Vec<u8>,
    entries: usize,
    calls: PhantomData<C>,
}

impl<C: Calls> Builder<C> {
    fn new() -> Builder<C> {
        let mut buffer = vec![0; LONGEST_FILE];
        assert_eq!(C::fresh(&mut buffer), 0);
        Builder {
            buffer,
            entries: 0,
            calls: PhantomData,
        }
    }

    /// Whether the entry was accepted.
    fn add(&mut self, call: &Call) -> bool {
        let accepted = C::call(&mut self.buffer, call) == 0;
        if accepted {
            self.entries += 1;
        }
        accepted
    }

    /// Puts in an entry that must be accepted.
    fn put(&mut self, call: &Call) {
        assert!(self.add(call), "{call:?}");
    }

    /// Fits parts and takes each of them out again, up to so many entries. So
    /// the glider stays near what it was weighed at, however many there are.
    fn change<'a>(&mut self, parts: &mut impl Iterator<Item = &'a Change>, entries: usize) {
        while self.entries < entries {
            let Some(part) = parts.next() else { return };
            if self.add(&Call::Change(*part)) && self.entries < entries {
                let c = -part.c;
                self.add(&Call::Change(Change { c, ..*part }));
            }
        }
    }

    /// The record's file.
    fn file(self) -> Vec<u8> {
        let file = front_file(&self.buffer).expect("the buffer has room for every file");
        file.to_vec()
    }
}

/// A two-seater weighed on wheel and tail.
const WEIGHING: Weighing = Weighing {
    m: 1,
    p: 420_000,
    q: 38_000,
    a: 12_500,
    b: 525_000,
    n: 190_000,
};

/// The same read again.
const PAIRED: Paired = Paired {
    m: 1,
    p: 420_000,
    q: 38_000,
    p2: 420_015,
    q2: 37_990,
    a: 12_500,
    b: 525_000,
    n: 190_000,
};

/// The same from an indicator: floats that are no whole grams, and each cell's zero.
fn indicated() -> Call {
    let sent = |reading: f64, rated: f64, zero: f64| {
        let [rated, zero] = [rated, zero].map(f64::to_bits);
        Message::stable(reading.to_bits(), Cell { rated, zero })
    };
    Call::Indicate(Indicated {
        m: 1,
        p: sent(421.337, 1_000.0, 1.337),
        q: sent(38.2104, 100.0, 0.21),
        p2: sent(421.352, 1_000.0, 1.337),
        q2: sent(38.1997, 100.0, 0.21),
        a: 12_500,
        b: 525_000,
        n: 190_000,
    })
}

/// Its sheet but for the rows; with 16 by 16 of them none is blank.
const SHEET: Sheet = Sheet {
    fwd: 15_000,
    aft: 38_000,
    dry: 700_000,
    wet: 750_000,
    nlp: 450_000,
    front_arm: -130_000,
    front_least: 55_000,
    front_most: 110_000,
    front_step: 1_000,
    rear_arm: -10_000,
    rear_most: 0,
    rear_step: 7_000,
    water_arm: 30_000,
    capacity: 0,
    water_step: 8_000,
};

/// Its seat, where the back can be adjusted.
const SEAT: Seat = Seat {
    lower: -134_000,
    higher: -126_000,
};

/// The parts of a list of 63 changes, each of which is at one of so many arms: behind
/// one another from the fin to the nose, and then again.
fn parts_at(arms: usize) -> Vec<Change> {
    let place = |i: usize| 400_000 - 8_000 * (i % arms) as i64;
    let part = |i: usize| Change {
        arm: place(i),
        ..PARTS[i % PARTS.len()]
    };
    (0..MOST_ARMS).map(part).collect()
}

/// A weighing and those parts.
fn equipped<C: Calls>(arms: usize) -> Vec<u8> {
    let mut record = Builder::<C>::new();
    record.put(&Call::Weigh(WEIGHING));
    for part in parts_at(arms) {
        record.put(&Call::Change(part));
    }
    record.file()
}

/// The sheet with one row, or with a multiple of 16.
fn sheet(rows: usize) -> Call {
    let (rears, waters) = if rows < 16 {
        (1, 1)
    } else {
        (rows as u64 / 16, 16)
    };
    Call::Install(Sheet {
        rear_most: (rears - 1) * SHEET.rear_step,
        capacity: (waters - 1) * SHEET.water_step,
        ..SHEET
    })
}

/// Parts of the two-seater: batteries, instruments, ballast, a tail dolly.
const PARTS: [Change; 5] = [
    Change {
        c: 2_650,
        arm: -95_000,
        flag: 1,
    },
    Change {
        c: 780,
        arm: -121_500,
        flag: 1,
    },
    Change {
        c: -1_240,
        arm: 38_700,
        flag: 1,
    },
    Change {
        c: 5_000,
        arm: -158_000,
        flag: 1,
    },
    Change {
        c: 365,
        arm: 61_250,
        flag: 0,
    },
];

/// The 62nd change, the first part taken out again, and so the 64th entry where
/// the changes come last; and taking it back.
static LAST_CALL: Call = Call::Change(Change {
    c: -PARTS[0].c,
    ..PARTS[0]
});
static UNDO: Call = Call::Undo;

/// Weighing, changes, sheet: so many entries in all.
fn two_seater<C: Calls>(entries: usize, rows: usize) -> Vec<u8> {
    let mut record = Builder::<C>::new();
    record.put(&Call::Weigh(WEIGHING));
    record.change(&mut PARTS.iter().cycle(), entries - 1);
    record.put(&sheet(rows));
    record.file()
}

/// Bytes of a record's head and of a paired weighing.
const HEAD: usize = 6;
const SENT: usize = 30;

/// A record of so many entries, with the place of a paired weighing behind it, where the
/// one that an indicator sends has stood already.
fn before_sent<C: Calls>(entries: usize) -> Vec<u8> {
    let file = if entries == 0 {
        Builder::<C>::new().file()
    } else {
        two_seater::<C>(entries, 16)
    };
    let mut buffer = [&file[..], &[0; SENT]].concat();
    assert_eq!(C::call(&mut buffer, &indicated()), 0);
    buffer[..HEAD].copy_from_slice(&file[..HEAD]);
    buffer
}

/// Makes a call, which is taken back by the record's head alone, so that the call is all
/// that counts.
fn call_and_forget<C: Calls>(record: &mut [u8], call: &Call) -> u64 {
    let head: [u8; HEAD] = *record.first_chunk().expect("a record has a head");
    let number = C::call(record, black_box(call));
    record[..HEAD].copy_from_slice(&head);
    number
}

/// Seed of the fleet, its gliders, and the generator's kinds that they are of:
/// realistic ones and, one in fifteen, those with up to 256 rows.
const SEED: u64 = 1;
const GLIDERS: usize = 4_000;
const KINDS: usize = 8;
const REALISTIC: usize = 0;
const ROWS: usize = 7;

/// The glider of a number: its first two calls are its weighing and its sheet.
fn glider(i: usize) -> Case {
    let kind = if i % 15 == 14 { ROWS } else { REALISTIC };
    case(SEED, (KINDS * i + kind) as u64)
}

/// The call with one reading, where it has two, whether or not an indicator sent them.
fn plain(call: &Call) -> Call {
    match call {
        Call::Indicate(x) => plain(&Call::Pair(nets(x).expect("it is accepted"))),
        Call::Pair(x) => Call::Weigh(Weighing {
            m: x.m,
            p: x.p,
            q: x.q,
            a: x.a,
            b: x.b,
            n: x.n,
        }),
        other => other.clone(),
    }
}

/// A fleet of gliders with 1 to 64 entries, as many of each, weighed once. The
/// changes are those of all gliders in turn. With one entry there is no placard.
fn fleet<C: Calls>() -> Vec<Vec<u8>> {
    let gliders: Vec<Case> = (0..GLIDERS).map(glider).collect();
    let part = |call: &Call| match call {
        Call::Change(change) => Some(*change),
        _ => None,
    };
    let parts: Vec<Change> = gliders
        .iter()
        .flat_map(|glider| &glider.calls)
        .filter_map(part)
        .collect();
    let mut parts = parts.iter().cycle();
    let record = |(i, glider): (usize, &Case)| {
        let entries = 1 + i % 64;
        let mut record = Builder::<C>::new();
        for call in glider.calls.iter().take(entries.min(2)) {
            record.put(&plain(call));
        }
        record.change(&mut parts, entries);
        record.file()
    };
    gliders.iter().enumerate().map(record).collect()
}

// ---- The work ----

/// What is timed.
#[derive(Clone, Copy)]
enum Job {
    /// A placard, from file to lines.
    Placard { entries: usize, rows: usize },
    /// Reading the file of 64 sheets.
    CheckSheets,
    /// Reading the file of 64 entries, 62 of them changes.
    CheckChanges,
    /// Taking the 64th entry back and putting it on again.
    UndoAndChange,
    /// A change on a full record.
    RefusedChange,
    /// The placards of all gliders of a fleet.
    Fleet,
    /// Reading the file of 64 paired weighings.
    CheckPairs,
    /// Reading the file of a sheet and 63 seats.
    CheckSeats,
    /// The equipment by station of a weighing and 63 changes at so many arms.
    Equipment { arms: usize },
    /// A weighing by an indicator on a record of so many entries: none, or a weighing,
    /// changes and a sheet.
    Indicator { entries: usize },
}

/// The lines of the benchmark.
const LINES: [(&str, Job); 12] = [
    (
        "a. placard of 256 rows, 64 entries",
        Job::Placard {
            entries: 64,
            rows: 256,
        },
    ),
    ("b. reading 64 sheets, 3,910 bytes", Job::CheckSheets),
    (
        "b. reading 64 entries, 62 of them changes",
        Job::CheckChanges,
    ),
    ("c. a call on 64 entries: undo, change", Job::UndoAndChange),
    ("c. a change refused with 9", Job::RefusedChange),
    ("d. placards of 4,000 gliders", Job::Fleet),
    ("e. reading 64 paired weighings", Job::CheckPairs),
    ("e. reading a sheet and 63 seats", Job::CheckSeats),
    (
        "f. equipment of 63 changes at as many arms, falling",
        Job::Equipment { arms: MOST_ARMS },
    ),
    (
        "f. equipment of 63 changes at eight arms",
        Job::Equipment { arms: 8 },
    ),
    (
        "g. a weighing by an indicator on 8 entries",
        Job::Indicator { entries: 8 },
    ),
    (
        "g. a weighing by an indicator on a fresh record",
        Job::Indicator { entries: 0 },
    ),
];

/// Those that the linked library can run, by the files that it takes: an older one
/// has no paired weighings or no seats, or is said to have no equipment or no indicator.
fn lines() -> Vec<(&'static str, Job)> {
    let takes = |job: Job| Library::check(&job.desk::<Fast>().records[0]) == 0;
    let runs = |job| match job {
        Job::CheckPairs | Job::CheckSeats => takes(job),
        Job::Equipment { .. } => env::var_os("NO_EQUIPMENT").is_none(),
        Job::Indicator { .. } => env::var_os("NO_INDICATOR").is_none(),
        _ => true,
    };
    LINES.into_iter().filter(|(_, job)| runs(*job)).collect()
}

/// What a job works on, and where it writes.
#[derive(Clone, PartialEq)]
struct Desk {
    records: Vec<Vec<u8>>,
    /// What an indicator sends.
    sent: Call,
    plate: Vec<u8>,
    /// Columns of arms, net weights and net non-lifting weights.
    columns: [[i64; MOST_ARMS]; 3],
}

impl Job {
    /// How many calls are taken together; the fleet counts as one.
    fn calls(self) -> u32 {
        match self {
            Job::UndoAndChange => 2,
            _ => 1,
        }
    }

    fn desk<C: Calls>(self) -> Desk {
        let mut record = Builder::<C>::new();
        let records = match self {
            Job::Placard { entries, rows } => vec![two_seater::<C>(entries, rows)],
            Job::CheckSheets => {
                while record.add(&sheet(256)) {}
                vec![record.file()]
            }
            Job::CheckPairs => {
                while record.add(&Call::Pair(PAIRED)) {}
                vec![record.file()]
            }
            Job::CheckSeats => {
                record.put(&sheet(256));
                while record.add(&Call::Seat(SEAT)) {}
                vec![record.file()]
            }
            Job::Equipment { arms } => vec![equipped::<C>(arms)],
            Job::CheckChanges | Job::UndoAndChange | Job::RefusedChange => {
                record.put(&Call::Weigh(WEIGHING));
                record.put(&sheet(256));
                record.change(&mut PARTS.iter().cycle(), 64);
                vec![record.file()]
            }
            Job::Indicator { entries } => vec![before_sent::<C>(entries)],
            Job::Fleet => fleet::<C>(),
        };
        Desk {
            records,
            sent: indicated(),
            plate: vec![0; LONGEST_PLACARD],
            columns: [[0; MOST_ARMS]; 3],
        }
    }

    /// Does the job once; the sum of the numbers of refusal and the blank rows.
    fn run<C: Calls>(self, desk: &mut Desk) -> u64 {
        let Desk {
            records,
            sent,
            plate,
            columns,
        } = desk;
        match self {
            Job::Placard { .. } | Job::Fleet => records
                .iter()
                .map(|record| C::placard(black_box(record), black_box(plate)))
                .map(|answer| answer.map_or_else(|number| number, |counts| counts.blank as u64))
                .sum(),
            Job::CheckSheets | Job::CheckChanges | Job::CheckPairs | Job::CheckSeats => {
                C::check(black_box(&records[0]))
            }
            Job::UndoAndChange => {
                let record = black_box(&mut records[0]);
                C::call(record, black_box(&UNDO)) + C::call(record, black_box(&LAST_CALL))
            }
            Job::RefusedChange => C::call(black_box(&mut records[0]), black_box(&LAST_CALL)),
            Job::Indicator { .. } => call_and_forget::<C>(black_box(&mut records[0]), sent),
            Job::Equipment { .. } => {
                let [arms, weights, nonlifting] = black_box(columns);
                let columns = Columns {
                    arms,
                    weights,
                    nonlifting,
                };
                C::equipment(black_box(&records[0]), columns).map_or_else(|number| number, |_| 0)
            }
        }
    }

    /// Does the job so many times.
    fn repeat<C: Calls>(self, desk: &mut Desk, times: u32) {
        for _ in 0..times {
            black_box(self.run::<C>(desk));
        }
    }

    /// Both sides must answer the same, as expected, and leave the same bytes.
    fn assert_same(self) {
        let desk = self.desk::<Fast>();
        let (mut library, mut plain) = (self.desk::<Library>(), desk.clone());
        assert!(library == desk);
        let answer = self.run::<Library>(&mut library);
        assert_eq!(answer, self.run::<Fast>(&mut plain));
        match self {
            Job::RefusedChange => assert_eq!(answer, 9),
            // Some of its rows are blank, and some gliders have no sheet.
            Job::Fleet => {}
            _ => assert_eq!(answer, 0),
        }
        // What is taken back is put on again.
        assert!(library.records == desk.records && library == plain);
        for record in &desk.records {
            let counts = Library::placard(record, &mut library.plate);
            assert_eq!(counts, Fast::placard(record, &mut plain.plate));
            assert!(library.plate == plain.plate);
        }
    }
}

// ---- Timing ----

/// Nanoseconds of one time.
fn time<C: Calls>(job: Job, desk: &mut Desk, times: u32) -> f64 {
    let begin = Instant::now();
    job.repeat::<C>(desk, times);
    begin.elapsed().as_nanos() as f64 / f64::from(times)
}

/// How many times fill a round.
fn times_in<C: Calls>(job: Job, desk: &mut Desk, round: Duration) -> u32 {
    let mut times = 1;
    loop {
        let spent = time::<C>(job, desk, times) * f64::from(times);
        if spent >= round.as_nanos() as f64 {
            return times;
        }
        times *= 2;
    }
}

/// Least, lower quartile, median, upper quartile and greatest.
fn spread(mut values: Vec<f64>) -> [f64; 5] {
    values.sort_by(f64::total_cmp);
    let last = values.len() - 1;
    [0, last / 4, last / 2, last - last / 4, last].map(|i| values[i])
}

fn median(values: Vec<f64>) -> f64 {
    spread(values)[2]
}

/// Nanoseconds of both sides, round by round.
struct Rounds {
    library: Vec<f64>,
    plain: Vec<f64>,
}

impl Rounds {
    /// Both sides in turn; the one that begins changes too.
    fn of(job: Job) -> Rounds {
        let desk = &mut job.desk::<Library>();
        let times = times_in::<Fast>(job, desk, ROUND);
        let (mut library, mut plain) = (Vec::new(), Vec::new());
        for round in 0..ROUNDS {
            if round % 2 == 0 {
                library.push(time::<Library>(job, desk, times));
                plain.push(time::<Fast>(job, desk, times));
            } else {
                plain.push(time::<Fast>(job, desk, times));
                library.push(time::<Library>(job, desk, times));
            }
        }
        Rounds { library, plain }
    }

    fn ratios(&self) -> Vec<f64> {
        let rounds = self.library.iter().zip(&self.plain);
        rounds.map(|(library, plain)| library / plain).collect()
    }
}

/// Median nanoseconds of the library for each job, the jobs taking turns.
fn medians(jobs: &[Job]) -> Vec<f64> {
    let mut points: Vec<(Job, Desk, u32, Vec<f64>)> = jobs
        .iter()
        .map(|job| {
            let mut desk = job.desk::<Library>();
            let times = times_in::<Library>(*job, &mut desk, POINT_ROUND);
            (*job, desk, times, Vec::new())
        })
        .collect();
    for _ in 0..ROUNDS {
        for (job, desk, times, rounds) in &mut points {
            rounds.push(time::<Library>(*job, desk, *times));
        }
    }
    points
        .into_iter()
        .map(|(.., rounds)| median(rounds))
        .collect()
}

/// The straight line with the least squares of what it leaves.
struct Straight {
    base: f64,
    slope: f64,
}

impl Straight {
    fn through(points: &[(f64, f64)]) -> Straight {
        let count = points.len() as f64;
        let mean_x = points.iter().map(|(x, _)| x).sum::<f64>() / count;
        let mean_y = points.iter().map(|(_, y)| y).sum::<f64>() / count;
        let square: f64 = points.iter().map(|(x, _)| (x - mean_x).powi(2)).sum();
        let product: f64 = points
            .iter()
            .map(|(x, y)| (x - mean_x) * (y - mean_y))
            .sum();
        let slope = product / square;
        let base = mean_y - slope * mean_x;
        Straight { base, slope }
    }

    fn at(&self, x: f64) -> f64 {
        self.base + self.slope * x
    }

    /// How far a point is off the line, in per cent of the line, to a tenth.
    fn off(&self, x: f64, y: f64) -> f64 {
        let tenths = (1_000.0 * (y / self.at(x) - 1.0)).round();
        // Adding 0 takes the sign from a negative zero.
        tenths / 10.0 + 0.0
    }
}

// ---- Printing ----

/// A whole number with commas.
fn grouped(number: f64) -> String {
    let digits = format!("{number:.0}");
    let mut text = String::new();
    for (i, digit) in digits.chars().enumerate() {
        if i > 0 && (digits.len() - i) % 3 == 0 {
            text.push(',');
        }
        text.push(digit);
    }
    text
}

/// Prints a line of a table.
fn print_cells<const N: usize>(cells: [String; N]) {
    println!("| {} |", cells.join(" | "));
}

fn print_lines() {
    println!("| | library, ns | plain Rust, ns | ratio | quartiles | extremes |");
    println!("|---|---:|---:|---:|---:|---:|");
    for (name, job) in lines() {
        job.assert_same();
        let rounds = Rounds::of(job);
        let [least, lower, ratio, upper, greatest] = spread(rounds.ratios());
        let calls = f64::from(job.calls());
        print_cells([
            name.to_string(),
            grouped(median(rounds.library) / calls),
            grouped(median(rounds.plain) / calls),
            format!("{ratio:.2}"),
            format!("{lower:.2} to {upper:.2}"),
            format!("{least:.2} to {greatest:.2}"),
        ]);
    }
}

/// What the fleet is like.
fn print_fleet() {
    let Desk {
        records, mut plate, ..
    } = Job::Fleet.desk::<Fast>();
    let entries: u64 = records.iter().map(|record| u64::from(record[5])).sum();
    let counts: Vec<Counts> = records
        .iter()
        .filter_map(|record| Fast::placard(record, &mut plate).ok())
        .collect();
    let rows: Vec<f64> = counts.iter().map(|counts| counts.rows as f64).collect();
    let all: f64 = rows.iter().sum();
    let blank: usize = counts.iter().map(|counts| counts.blank).sum();
    let [_, _, median, upper, most] = spread(rows);
    println!(
        "\nThe gliders of line d have {} entries.",
        grouped(entries as f64)
    );
    println!("{} of them have a placard,", grouped(counts.len() as f64));
    println!(
        "with {} rows, {} of them blank;",
        grouped(all),
        grouped(blank as f64)
    );
    println!(
        "half have at most {median} rows, three quarters at most {upper}, the longest {most}."
    );
}

/// The cost of the library's placards by their size.
fn print_straight(name: &str, one: &str, sizes: &[usize], job: impl Fn(usize) -> Job) {
    let jobs: Vec<Job> = sizes.iter().map(|size| job(*size)).collect();
    let sizes = sizes.iter().map(|size| *size as f64);
    let points: Vec<(f64, f64)> = sizes.zip(medians(&jobs)).collect();
    let line = Straight::through(&points);
    println!("\n| {name} | ns | straight line, ns | off it |");
    println!("|---:|---:|---:|---:|");
    let mut most: f64 = 0.0;
    for (x, y) in points {
        let off = line.off(x, y);
        most = most.max(off.abs());
        print_cells([
            x.to_string(),
            grouped(y),
            grouped(line.at(x)),
            format!("{off:+.1} %"),
        ]);
    }
    let Straight { base, slope } = line;
    println!("\n{slope:.1} ns {one} and {} ns besides;", grouped(base));
    println!("at most {most:.1} % off the straight line.");
}

fn print_times() {
    let round = ROUND.as_millis();
    println!("{ROUNDS} rounds, in which each side takes {round} ms or more.");
    println!("Times are medians, ratios those of the rounds.\n");
    print_lines();
    print_fleet();
    println!("\nh. The library's placard by rows, at 64 entries:");
    let rows = [1, 32, 64, 96, 128, 160, 192, 224, 256];
    print_straight("rows", "a row", &rows, |rows| Job::Placard {
        entries: 64,
        rows,
    });
    println!("\nand by entries, at 16 rows:");
    let entries = [2, 8, 16, 24, 32, 40, 48, 56, 64];
    print_straight("entries", "an entry", &entries, |entries| Job::Placard {
        entries,
        rows: 16,
    });
}

// ---- Instructions ----

/// The hidden mode, in which the program runs under valgrind.
const REPEAT: &str = "--repeat";

/// Placards beside the lines whose differences give a row and an entry.
const OTHERS: [Job; 3] = [
    Job::Placard {
        entries: 64,
        rows: 128,
    },
    Job::Placard {
        entries: 64,
        rows: 16,
    },
    Job::Placard {
        entries: 32,
        rows: 16,
    },
];

/// The lines' jobs and the others, by which the hidden mode knows them.
fn counted_jobs() -> Vec<Job> {
    let lines = lines().into_iter().map(|(_, job)| job);
    lines.chain(OTHERS).collect()
}

/// The hidden mode: `--repeat JOB SIDE TIMES`.
fn repeat(words: &[String]) -> Option<()> {
    let [job, side, times] = words else {
        return None;
    };
    let job = *counted_jobs().get(job.parse::<usize>().ok()?)?;
    let times = times.parse().ok()?;
    match side.as_str() {
        "library" => job.repeat::<Library>(&mut job.desk::<Library>(), times),
        "plain" => job.repeat::<Fast>(&mut job.desk::<Fast>(), times),
        _ => return None,
    }
    Some(())
}

/// All instructions of a run in the hidden mode.
fn instructions_of_run(job: usize, side: &str, times: u32) -> Result<f64, String> {
    let program = env::current_exe().map_err(|error| error.to_string())?;
    let output = Command::new("valgrind")
        .args(["--tool=callgrind", "--callgrind-out-file=/dev/null"])
        .arg(program)
        .args([REPEAT, &job.to_string(), side, &times.to_string()])
        .output()
        .map_err(|error| match error.kind() {
            ErrorKind::NotFound => "valgrind is not installed: nothing is counted".to_string(),
            _ => format!("valgrind cannot be run: {error}"),
        })?;
    let said = String::from_utf8_lossy(&output.stderr);
    said.lines()
        .find_map(|line| line.split_once("Collected :"))
        .and_then(|(_, count)| count.trim().parse().ok())
        .ok_or_else(|| format!("callgrind gave no count:\n{said}"))
}

/// Instructions of one time: what as many times again add.
fn instructions(job: usize, side: &str, times: u32) -> Result<f64, String> {
    let once = instructions_of_run(job, side, times)?;
    let twice = instructions_of_run(job, side, 2 * times)?;
    Ok((twice - once) / f64::from(times))
}

fn print_counts(name: &str, [library, plain]: [f64; 2]) {
    let ratio = format!("{:.2}", library / plain);
    print_cells([name.to_string(), grouped(library), grouped(plain), ratio]);
}

fn print_instructions() -> Result<(), String> {
    let mut counts = Vec::new();
    for (i, job) in counted_jobs().into_iter().enumerate() {
        let times = if matches!(job, Job::Fleet) { 1 } else { 200 };
        let calls = f64::from(job.calls());
        let library = instructions(i, "library", times)? / calls;
        let plain = instructions(i, "plain", times)? / calls;
        counts.push([library, plain]);
    }
    println!("| instructions | library | plain Rust | ratio |");
    println!("|---|---:|---:|---:|");
    let lines = lines();
    for ((name, _), counts) in lines.iter().zip(&counts) {
        print_counts(name, *counts);
    }
    let (placard, others) = (counts[0], &counts[lines.len()..]);
    let each = |more: [f64; 2], less: [f64; 2], by: f64| {
        [(more[0] - less[0]) / by, (more[1] - less[1]) / by]
    };
    print_counts("a row, of 129 to 256", each(placard, others[0], 128.0));
    print_counts("an entry, of 33 to 64", each(others[1], others[2], 32.0));
    Ok(())
}

fn main() -> ExitCode {
    let words: Vec<String> = env::args().skip(1).collect();
    match words.first().map(String::as_str) {
        None => print_times(),
        Some("--instructions") if words.len() == 1 => {
            if let Err(error) = print_instructions() {
                eprintln!("{error}");
                return ExitCode::FAILURE;
            }
        }
        Some(REPEAT) if repeat(&words[1..]).is_some() => {}
        _ => {
            eprintln!("usage: bench [--instructions]");
            return ExitCode::from(2);
        }
    }
    ExitCode::SUCCESS
}

#[cfg(test)]
mod tests {
    use super::*;

    #[test]
    fn both_sides_do_the_same() {
        for job in counted_jobs() {
            job.assert_same();
        }
    }

    #[test]
    fn the_placards_have_their_rows() {
        for rows in [1, 16, 256] {
            let record = two_seater::<Fast>(64, rows);
            let counts = Fast::placard(&record, &mut [0; LONGEST_PLACARD]);
            assert_eq!(record[5], 64);
            assert_eq!(
                counts.map(|counts| (counts.rows, counts.blank)),
                Ok((rows, 0))
            );
        }
        let sheets = Job::CheckSheets.desk::<Fast>();
        assert_eq!(sheets.records[0].len(), LONGEST_FILE);
    }

    #[test]
    fn the_equipment_has_its_arms() {
        for arms in [8, MOST_ARMS] {
            let mut desk = Job::Equipment { arms }.desk::<Fast>();
            let [places, weights, nonlifting] = &mut desk.columns;
            let columns = Columns {
                arms: places,
                weights,
                nonlifting,
            };
            assert_eq!(Fast::equipment(&desk.records[0], columns), Ok(arms));
            assert_eq!(desk.records[0][5], 64);
            assert!(desk.columns[0][..arms].is_sorted());
        }
    }

    #[test]
    fn the_fleet_is_spread() {
        let fleet = fleet::<Fast>();
        let entries: Vec<u8> = fleet.iter().map(|record| record[5]).collect();
        assert_eq!(entries.len(), GLIDERS);
        assert!((1..=64).all(|count| entries.contains(&count)));
    }

    #[test]
    fn quartiles_and_median_of_31() {
        let values = (0..31).rev().map(f64::from).collect();
        assert_eq!(spread(values), [0.0, 7.0, 15.0, 23.0, 30.0]);
    }

    #[test]
    fn a_straight_line_through_points_on_it() {
        let line = Straight::through(&[(1.0, 5.0), (2.0, 8.0), (3.0, 11.0)]);
        assert_eq!((line.base, line.slope), (2.0, 3.0));
        assert_eq!(line.off(10.0, 40.0), 25.0);
    }

    #[test]
    fn numbers_with_commas() {
        let numbers = [0.4, 999.5, 12_345.0, 1_234_567.0];
        assert_eq!(numbers.map(grouped), ["0", "1,000", "12,345", "1,234,567"]);
    }
}
