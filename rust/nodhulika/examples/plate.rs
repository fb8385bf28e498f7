//! A glider is weighed, its data sheet is installed (the paper's case G), a part
//! is fitted (case H) and taken back, and the glider is weighed once more with
//! the scales read twice; the placard is printed each time. Then that of a
//! record's file, if one is given:
//!
//! ```text
//! cargo run --example plate [record's file]
//! ```

use std::error::Error;
use std::ffi::OsStr;
use std::{env, fs};

use nodhulika::{Change, Paired, Record, Refusal, Sheet, Station, Weighing};

/// A glider weighed on wheel and tail.
const WEIGHING: Weighing = Weighing {
    m: Weighing::WHEEL_AND_TAIL,
    p: 288_000,
    q: 0,
    a: 63_334,
    b: 500_000,
    n: 140_000,
};

/// The same glider, disturbed and read again: a gram more.
const PAIRED: Paired = Paired {
    m: Weighing::WHEEL_AND_TAIL,
    p: 288_000,
    q: 0,
    p2: 288_001,
    q2: 0,
    a: 63_334,
    b: 500_000,
    n: 140_000,
};

/// The limits of an Astir.
const SHEET: Sheet = Sheet {
    fwd: 25_000,
    aft: 42_500,
    dry: 380_000,
    wet: 450_000,
    nlp: 240_000,
    front: Station {
        arm: -47_500,
        most: 110_000,
        step: 1_000,
    },
    front_least: 55_000,
    rear: Station {
        arm: 0,
        most: 0,
        step: 1,
    },
    water: Station {
        arm: 30_000,
        most: 100_000,
        step: 50_000,
    },
};

/// A non-lifting part of 4.5 kg, one metre ahead of the datum.
const PART: Change = Change {
    c: 4_500,
    arm: -100_000,
    flag: Change::NON_LIFTING,
};

fn print_plate(title: &str, record: &Record) -> Result<(), Refusal> {
    let empty = record.centre_of_gravity()?;
    let grams = empty.total as f64 / 2.0;
    println!("{title}: {grams} g, centre of gravity {}", empty.centre);
    print!("{}", record.placard_text()?);
    Ok(())
}

fn print_file(path: &OsStr) -> Result<(), Box<dyn Error>> {
    let record = Record::from_file(&fs::read(path)?)?;
    print_plate(&path.to_string_lossy(), &record)?;
    Ok(())
}

fn main() -> Result<(), Box<dyn Error>> {
    let mut record = Record::new();
    record.weigh(&WEIGHING)?;
    record.install(&SHEET)?;
    print_plate("as weighed", &record)?;

    record.change(&PART)?;
    print_plate("with the part", &record)?;

    record.undo()?;
    print_plate("taken back", &record)?;

    record.weigh_paired(&PAIRED)?;
    print_plate("weighed twice", &record)?;
    println!("the record's file has {} bytes", record.as_bytes().len());

    if let Some(path) = env::args_os().nth(1) {
        if let Err(refusal) = print_file(&path) {
            println!("{}: {refusal}", path.to_string_lossy());
        }
    }
    Ok(())
}
